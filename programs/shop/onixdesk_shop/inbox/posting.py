"""Posts to the desk: only the ledger's text, in order of number."""

import itertools
import re
import shlex

from onixdesk_shop.desk import Gaps, Refused, Taken
from onixdesk_shop.faults import Fault
from onixdesk_shop.inbox.context import Inbox
from onixdesk_shop.inbox.ledger import Decision, File, Row, State
from onixdesk_shop.lines import ERROR, NOTICE, WARNING, count, cut, ranges
from onixdesk_shop.messages import products_of
from onixdesk_shop.settings import OWN

# How often the desk is asked again: closing a gap lets it apply what waited.
ROUNDS = 3

# Why a number that was free a moment ago now has another message.
QUICKER = "other-contents", "waived", "before-first"

# After a reason the desk says its series, the number, and the first number.
REASONS = {
    "unknown-series": "no series of its sender and addressee is agreed",
    "before-first": "number {1} is below the first number of the series, {2}",
    "waived": "number {1} was waived",
    "other-contents": "the desk has another message of number {1}; a correction needs a number of its own",
    "other-series": "it went into the series {0}, which has its sender and addressee",
}


class TextsGone(Fault):
    """The desk lacks messages whose texts were removed."""


def why_refused(refused: Refused) -> str:
    try:
        return REASONS[refused.reason].format(*refused.words)
    except LookupError:
        return f"the desk answers {cut(refused.said)}"


def post_all(inbox: Inbox, gaps: Gaps) -> Gaps:
    """Posts what is to be posted; returns the desk's report after it."""
    for _ in range(ROUNDS):
        rows = inbox.ledger.to_post(gaps)
        if gone := [row.number for row in rows if not row.has_text]:
            last = next(number for number in itertools.count(gone[0]) if number + 1 not in gone)
            command = f"onixdesk-inbox waive {inbox.series} {gone[0]}-{last} (or restore a later copy)"
            raise TextsGone(f"{command}; the desk lacks {ranges(gone)}, whose texts are not kept any more")
        if not rows:
            break
        if again := [row.number for row in rows if row.state in (State.HELD, State.APPLIED) and gaps.lacks(row.number)]:
            inbox.tell(NOTICE, f"posted again, since the desk lacks it: {ranges(again)}")
        for row in rows:
            post_row(inbox, row, gaps)
        gaps = inbox.gaps()
    return gaps


def post_row(inbox: Inbox, row: Row, gaps: Gaps) -> None:
    """Posts one message. First it writes down that it does: from then on the text is final. Below the first number nothing
    is posted, and it ends as the desk would refuse it."""
    current = inbox.ledger.row(row.number)
    if not current or current.state not in (State.READY, State.POSTED, State.HELD, State.APPLIED):
        # A message earlier in this round gave its number back.
        return
    if current.state == State.READY:
        inbox.ledger.set_message(row.number, State.POSTED)
    below = Refused("before-first", [inbox.series, str(row.number), str(gaps.first)])
    answer = below if row.number < gaps.first else inbox.desk.post(inbox.ledger.text(row.number))
    if isinstance(answer, Taken) and answer.series != inbox.series:
        answer = Refused("other-series", [answer.series])
    with inbox.ledger.step():
        if isinstance(answer, Taken):
            settle_taken(inbox, current, answer)
        else:
            settle_refused(inbox, current, answer, gaps)


def settle_taken(inbox: Inbox, row: Row, answer: Taken) -> None:
    ledger, file = inbox.ledger, inbox.ledger.file(row.file)
    state = State.HELD if "waiting-for" in answer.counts else State.APPLIED
    ledger.set_message(row.number, state, answer.said)
    if state == State.APPLIED and row.state != State.APPLIED:
        ledger.name_references(row.number, products_of(ledger.text(row.number)))
        if unknown := answer.counts["unknown"]:
            said = f"{count(unknown, 'change')} of records that the desk lacks: ask the wholesaler for a full feed"
            inbox.tell_file(WARNING, file, said)
    settle_file(inbox, file)


def settle_file(inbox: Inbox, file: File) -> None:
    """Derives the state of a file from those of its messages."""
    states = [row.state for row in inbox.ledger.messages_of(file)]
    if file.state == State.REJECTED or State.REFUSED in states:
        return
    state = next((each for each in (State.POSTED, State.READY, State.HELD) if each in states), State.APPLIED)
    state = State.POSTING if state in (State.POSTED, State.READY) else state
    if state != file.state:
        inbox.ledger.set_state(file, state, file.why if state == State.HELD else "")
        if state in (State.HELD, State.APPLIED):
            numbers = [row.number for row in inbox.ledger.messages_of(file) if row.state in (State.HELD, State.APPLIED)]
            inbox.tell_file(NOTICE, file, f"{state}: {ranges(numbers)}{'; ' if file.why else ''}{file.why}")


def settle_refused(inbox: Inbox, row: Row, answer: Refused, gaps: Gaps) -> None:
    ledger, file, why = inbox.ledger, inbox.ledger.file(row.file), why_refused(answer)
    # A message that the desk took before keeps that answer: once the desk lacks it, it is posted again as it is.
    is_kept = row.was_taken and answer.reason in ("waived", "other-contents", "unknown-series")
    ledger.set_message(row.number, State.REFUSED, "" if is_kept else answer.said)
    is_next = inbox.settings.gives_number(file.ending)
    if is_next and answer.reason != "unknown-series" and not ledger.has_stood(file, (State.HELD, State.APPLIED)):
        for each in ledger.messages_of(file):
            ledger.set_message(each.number, State.RETURNED)
        if answer.reason in QUICKER and row.state in (State.READY, State.POSTED):
            ledger.set_state(file, State.NEW, f"number {row.number} went to another message first")
            return
    ledger.set_state(file, State.REFUSED, why)
    # Nobody may waive a number that the desk has, or has no series for.
    is_lacking = answer.reason not in (*QUICKER, "unknown-series", "other-series")
    inbox.tell_refused(file, why, row.number if is_lacking else None, *offset_for(inbox, file, gaps))


def offset_for(inbox: Inbox, file: File, gaps: Gaps) -> list[str]:
    """The setting with which a wholesaler goes on that seems to begin again at 1."""
    settings, last = inbox.settings, inbox.ledger.last_taken()
    if settings.number != OWN or file.ending == ".csv" or file.number is None or last is None or file.time < last:
        return []
    before = max(gaps.next - 1, gaps.greatest or 0) // settings.parts
    if before < 2 or file.number > (settings.given("--number-offset", 0) + 1) * settings.parts:
        return []
    words = re.sub(r"--number-offset[ =]\S+", "", shlex.join(settings.words)).split()
    return [f"if it begins again at 1: WORDS={' '.join([*words, '--number-offset', str(before)])}"]


def retry_unknown(inbox: Inbox, gaps: Gaps) -> None:
    """Posts again what had no agreement, without a line: nothing else shows that the desk has agreed meanwhile. After
    the first that it takes, files of which it has nothing, and no desk took anything, are judged anew, since there was
    nothing to compare them with."""
    ledger, is_agreed = inbox.ledger, False
    is_tried = "state = 'refused' AND why = ? OR state = 'new' AND answer = 'refused,unknown-series'"
    files = f"file IN (SELECT id FROM file WHERE {is_tried})"
    for row in ledger.messages(f"state = 'refused' AND text IS NOT NULL AND {files}", REASONS["unknown-series"]):
        file = ledger.file(row.file)
        is_new = is_agreed and gaps.lacks(row.number) and not ledger.is_final(file)
        if row.number < gaps.first or file.state == State.POSTING or is_new:
            continue
        ledger.set_message(row.number, State.POSTED)
        if isinstance(inbox.desk.post(ledger.text(row.number)), Taken):
            begin_again(inbox, file)
            is_agreed = True
        else:
            ledger.set_message(row.number, State.REFUSED)
    if is_agreed:
        judge_anew(inbox, "state = 'new' OR state = 'refused' AND why = ?", REASONS["unknown-series"])


def judge_anew(inbox: Inbox, where: str = "state = 'refused'", *values: str) -> None:
    """Has files judged anew if the desk has no message of them; their numbers are free again."""
    ledger = inbox.ledger
    with ledger.step():
        for file in ledger.files(where, *values):
            if not ledger.is_final(file):
                give_back(inbox, file)
                ledger.set_state(file, State.NEW)


def give_back(inbox: Inbox, file: File) -> None:
    """Frees the numbers of a file that the desk did not take. If the inbox gives numbers, it frees none below a number that
    is final for another file, or waived."""
    ledger = inbox.ledger
    last = ledger.last_final() if inbox.settings.gives_number(file.ending) else 0
    for row in ledger.messages_of(file) if not ledger.is_final(file) else []:
        if row.number > last:
            ledger.set_message(row.number, State.RETURNED)


def post_unwaived(inbox: Inbox, gaps: Gaps) -> None:
    """Posts again what came to a number whose waiver was taken back: nothing else shows that an older desk has the
    waiver again."""
    ledger, unwaived = inbox.ledger, inbox.ledger.waived(Decision.UNWAIVE)
    for row in ledger.messages("state IN ('held', 'applied') AND text IS NOT NULL AND number >= ?", gaps.first):
        if row.number not in unwaived or gaps.lacks(row.number) or not ledger.stands(row.number):
            continue
        answer = inbox.desk.post(ledger.text(row.number))
        if isinstance(answer, Refused) and answer.reason == "waived":
            with ledger.step():
                settle_refused(inbox, row, answer, gaps)
                ledger.forget_references(row.number)


def begin_again(inbox: Inbox, file: File) -> None:
    """Posts all messages of a refused file again, if the desk took one of them, or may take one now."""
    with inbox.ledger.step():
        for row in inbox.ledger.messages_of(file):
            if row.state == State.REFUSED:
                inbox.ledger.set_message(row.number, State.READY)
        inbox.ledger.set_state(file, State.POSTING)


def settle_rejected(inbox: Inbox, gaps: Gaps) -> None:
    """If a person refused a file, or a full file replaced it, and the desk lacks it, its numbers are free. If the inbox
    gives numbers, those up to the last final one are waived, so that nothing waits for them."""
    ledger = inbox.ledger
    waived = "SELECT number FROM decision WHERE what = 'waive' AND decision.file = message.file"
    is_over = f"state = 'returned' OR state = 'refused' AND number IN ({waived})"
    files = "SELECT id FROM file WHERE state IN ('rejected', 'replaced')"
    rows = ledger.messages(f"NOT ({is_over}) AND file IN ({files})")
    for row in [row for row in rows if gaps.lacks(row.number)]:
        file = ledger.file(row.file)
        is_given = inbox.settings.gives_number(file.ending) and row.number <= ledger.last_final()
        with ledger.step():
            ledger.set_message(row.number, State.REFUSED if is_given else State.RETURNED)
            ledger.forget_references(row.number)
            if is_given:
                ledger.decide(Decision.WAIVE, file, row.number)
            judge_anew(inbox)


def waive(inbox: Inbox, gaps: Gaps) -> Gaps:
    """Waives the decided numbers that the desk lacks. A file that came to such a number, and was not taken before, does
    not get it at a restored desk."""
    ledger, taken = inbox.ledger, (State.HELD, State.APPLIED)
    lacking = [number for number in ledger.waived() if gaps.lacks(number) and not ledger.stands(number, taken)]
    if not lacking:
        return gaps
    for record in inbox.desk.batch("".join(f"Waive,{inbox.series},{number}\n" for number in lacking)):
        if record[0] != "waived":
            inbox.tell(ERROR, f"a number is not waived: {cut(','.join(record))}")
    inbox.tell(NOTICE, f"waived: {ranges(lacking)}")
    return inbox.gaps()
