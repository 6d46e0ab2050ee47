"""Cuts a text of requests that is larger than a batch into several batches."""

from collections.abc import Iterable, Iterator

from onixdesk_shop.desk_files import DeskFile
from onixdesk_shop.faults import Failed
from onixdesk_shop.lines import cut

MOST_BYTES = 4_194_304

# The first fields of records that begin a request, as the desk writes them.
NAMES = "Agree", "Waive", "Message", "AskPrice", "AskChoice", "AskCalendar", "AskGaps", "AskCatalogue"
BEGINNINGS = tuple(f"{name},".encode() for name in NAMES)


def cut_into_batches(lines: Iterable[bytes], most: int = MOST_BYTES) -> Iterator[bytes]:
    """Cuts a text of `onixdesk export`, whose fields have no line ends, into batches that the desk takes: before
    records that begin a request."""
    pieces: list[bytes] = []
    size, whole = 0, 0
    for line in lines:
        if line.startswith(BEGINNINGS):
            whole = len(pieces)
        pieces.append(line)
        size += len(line)
        if size > most and whole:
            yield b"".join(pieces[:whole])
            pieces, whole = pieces[whole:], 0
            size = sum(map(len, pieces))
    if pieces:
        yield b"".join(pieces)


def send(desk: DeskFile, lines: Iterable[bytes]) -> None:
    """Sends a text to a desk in batches; raises Failed if it refuses a request."""
    for batch in cut_into_batches(lines):
        if refused := [record for record in desk.batch(batch.decode()) if record[0] == "refused"]:
            raise Failed(f"the desk refuses {len(refused)} requests, the first: {cut(','.join(refused[0]))}")
