"""A person's decisions on files and numbers. They are written down; the next run carries them out."""

from collections.abc import Sequence

from onixdesk_shop.faults import DONE, Failed
from onixdesk_shop.inbox.context import Inbox
from onixdesk_shop.inbox.ledger import Decision, File, State
from onixdesk_shop.lines import ranges, token
from onixdesk_shop.settings import OWN


def file_of(inbox: Inbox, mark: str) -> File:
    """The file that has a mark."""
    found = [file for file in inbox.ledger.files("substr(digest, 1, 12) = ?", mark[:12]) if file.mark == mark]
    if len(found) != 1:
        raise Failed(f"{len(found)} files have the mark {token(mark)}")
    return found[0]


def let_in(inbox: Inbox, file: File) -> str:
    if file.state != State.QUARANTINED:
        raise Failed(f"{file.mark} is {file.state}: only a file in quarantine is let in")
    inbox.ledger.decide(Decision.LET_IN, file)
    inbox.ledger.set_state(file, State.NEW, "a person let it in")
    return "is let in by the next run"


def refuse(inbox: Inbox, file: File) -> str:
    if file.state == State.REJECTED:
        return "is refused already"
    if file.state == State.REPLACED:
        raise Failed(f"{file.mark} is {file.state} already")
    stands = inbox.ledger.has_stood(file)
    inbox.ledger.decide(Decision.REFUSE, file)
    inbox.ledger.set_state(file, State.REJECTED, "a person refused it")
    if stands:
        return "is not posted again; what the desk has of it stays until it is corrected"
    if file.number and inbox.settings.number == OWN:
        last = file.number + (0 if file.ending == ".csv" else inbox.settings.parts - 1)
        numbers = file.number if last == file.number else f"{file.number}-{last}"
        command = f"onixdesk-inbox waive {inbox.series} {numbers}"
        return f"is refused; unless it is sent again, its numbers have to be waived: {command}"
    return "is refused"


def dismiss(inbox: Inbox, file: File) -> str:
    if file.state != State.REFUSED:
        raise Failed(f"{file.mark} is {file.state}: only a refused file is dismissed")
    inbox.ledger.decide(Decision.DISMISS, file)
    return "is not counted any more"


def again(inbox: Inbox, file: File) -> str:
    """Takes a file again, as if its bytes came in now."""
    if not inbox.settings.gives_number(file.ending):
        raise Failed("a file with a number of its own has to be sent again under a new one")
    if file.state not in (State.APPLIED, State.HAD, State.REFUSED, State.REJECTED):
        raise Failed(f"{file.mark} is {file.state}")
    if not inbox.machine.exists(inbox.stored(file)):
        raise Failed(f"the bytes of {file.mark} are not kept any more")
    inbox.ledger.take_again(file)
    inbox.ledger.decide(Decision.AGAIN, file)
    return "is taken again by the next run, under a new number"


DECISIONS = {"let-in": let_in, "refuse": refuse, "dismiss": dismiss, "again": again}


def decide(inbox: Inbox, what: str, mark: str) -> int:
    """Writes the decision and the file's new state, in one transaction."""
    with inbox.ledger.step():
        file = file_of(inbox, mark)
        said = DECISIONS[what](inbox, file)
    inbox.machine.write(f"{file.mark} {said}; {token(file.name)}\n")
    return DONE


def waive(inbox: Inbox, numbers: Sequence[int]) -> int:
    """Waives numbers that will never come, also those of a file whose texts were removed."""
    ledger = inbox.ledger
    with ledger.step():
        for number in numbers:
            row = ledger.row(number)
            if row and ledger.stands(number):
                if row.has_text:
                    command = inbox.command("refuse", ledger.file(row.file))
                    raise Failed(f"{command}; number {number} has that file, which has to be refused first")
                ledger.set_message(number, State.REFUSED)
                ledger.forget_references(number)
            ledger.decide(Decision.WAIVE, number=number)
    inbox.machine.write(f"waived by the next run: {ranges([*numbers])}\n")
    return DONE


def take_back(inbox: Inbox, numbers: Sequence[int]) -> int:
    """The inbox no longer waives these numbers. The desk has the waivers until its text is corrected, and again after a
    restore of an older copy."""
    with inbox.ledger.step():
        for number in {*inbox.ledger.waived()}.intersection(numbers):
            inbox.ledger.decide(Decision.UNWAIVE, number=number)
    inbox.machine.write(f"not waived again: {ranges([*numbers])}\n")
    return DONE
