"""How long bytes and texts are kept: 120 days if the desk has applied them, and always until then."""

from onixdesk_shop.inbox.context import Inbox
from onixdesk_shop.inbox.ledger import State

KEPT_SECONDS = 120 * 86_400

# Even if a clock was wrong for a while, nothing goes that a copy of the last nights may need.
KEPT_FILES, KEPT_NUMBERS = 100, 500

AT_END = (State.APPLIED, State.HAD, State.REJECTED, State.REPLACED)


def clear(inbox: Inbox) -> None:
    """Removes the bytes of old files, and then the texts of old messages."""
    before = int(inbox.machine.now()) - KEPT_SECONDS
    marks = ", ".join("?" for _ in AT_END)
    at_end = f"state IN ({marks}) AND digest NOT IN (SELECT digest FROM file WHERE state NOT IN ({marks}))"
    old = inbox.ledger.files(f"{at_end} AND at < ? AND seen < ?", *AT_END, *AT_END, before, before)
    for file in old[: max(0, inbox.ledger.value("SELECT count(*) FROM file") - KEPT_FILES)]:
        inbox.machine.remove(inbox.stored(file))
    inbox.ledger.do(
        "UPDATE message SET text = NULL WHERE text IS NOT NULL AND state = 'applied' AND at < ?"
        " AND number <= (SELECT max(number) FROM message) - ?",
        *(before, KEPT_NUMBERS),
    )
