"""One run of an inbox: takes files in, posts what is due, judges new files, and reports how it stands."""

from onixdesk_shop.desk import Gaps, NoDesk
from onixdesk_shop.faults import FAILED
from onixdesk_shop.inbox import intake, keeping, posting, series_json, titles
from onixdesk_shop.inbox.context import DAY, Inbox, NotAgreed
from onixdesk_shop.inbox.full import tell_in_a_row
from onixdesk_shop.inbox.judging import agreement, judge, retry_refused
from onixdesk_shop.inbox.ledger import File, State
from onixdesk_shop.lines import ERROR, WARNING


def run(inbox: Inbox) -> int:
    """Runs, and returns the status. Each run writes SERIES.json, even if a fault ends it."""
    gaps: Gaps | None = None
    try:
        intake.take_in(inbox)
        gaps = inbox.gaps()
        inbox.is_well("not agreed")
        gaps = work(inbox, gaps)
        inbox.is_well("no desk")
    except NotAgreed as fault:
        if (files := inbox.ledger.files("1")) and not inbox.ledger.is_told("not agreed"):
            inbox.tell_once("not agreed", ERROR, f"{agreement(inbox, files[0])}; {fault}, and its files wait")
    except NoDesk as fault:
        # A desk that does not run is an error of its own unit; one that answers at one address only is this program's.
        inbox.tell_once("no desk", ERROR if gaps else WARNING, f"files wait: {fault}")
    finally:
        series_json.write(inbox, gaps)
    tell_waiting(inbox, gaps)
    titles.keep(inbox)
    keeping.clear(inbox)
    return FAILED if inbox.has_error else 0


def work(inbox: Inbox, gaps: Gaps) -> Gaps:
    posting.settle_rejected(inbox, gaps)
    gaps = posting.waive(inbox, gaps)
    posting.retry_unknown(inbox, gaps)
    posting.post_unwaived(inbox, gaps)
    retry_refused(inbox, gaps)
    try:
        gaps = posting.post_all(inbox, gaps)
    except posting.TextsGone as fault:
        inbox.tell_once("texts gone", ERROR, str(fault))
        return gaps
    inbox.is_well("texts gone")
    seen: set[int] = set()
    while file := next_file(inbox, seen):
        seen.add(file.id)
        judge(inbox, file, gaps)
        gaps = posting.post_all(inbox, inbox.gaps())
    tell_in_a_row(inbox)
    return gaps


def next_file(inbox: Inbox, seen: set[int]) -> File | None:
    """The first new file that this run has not judged. Files wait behind one in quarantine; but if the inbox gives
    numbers, a newer full file may take its place."""
    ledger = inbox.ledger
    stopped = ledger.files("state = ?", State.QUARANTINED)
    first = min(((file.time, file.name, file.id) for file in stopped), default=None)
    for file in ledger.files("state = ?", State.NEW):
        if file.id in seen:
            continue
        if first is None or (file.time, file.name, file.id) < first:
            return file
        if file.ending != ".csv" and inbox.settings.says_all(file.name):
            return file
    return None


def tell_waiting(inbox: Inbox, gaps: Gaps | None) -> None:
    """Tells once that a series has waited a day for a number, and that nothing was heard for days."""
    since = inbox.ledger.value("SELECT min(at) FROM message WHERE state = 'held'")
    if gaps and since is not None and inbox.machine.now() - since > DAY:
        command = f"onixdesk-inbox waive {inbox.series} {gaps.next} (or have it sent again)"
        said = f"{command}; the series waits for number {gaps.next} for a day"
        inbox.tell_once(f"waits {gaps.next} {since}", ERROR, said)
    if inbox.is_silent():
        inbox.tell_once("silent", ERROR, f"nothing came for {inbox.settings.silent_days} days but empty files")
    else:
        inbox.is_well("silent")
