"""The bytes of a feed: unpacked if it is packed, recoded if it is UTF-16."""

import codecs
import gzip
import itertools
import lzma
import zipfile
import zlib
from collections.abc import Callable, Iterator
from pathlib import Path
from typing import IO, Any

PIECE = 65_536

DAMAGE = (zipfile.BadZipFile, EOFError, zlib.error, lzma.LZMAError, RuntimeError, ValueError, OSError)


class Damaged(Exception):
    """Why a feed cannot be read."""


def entry_of(path: Path) -> IO[bytes]:
    """The one file in a zip, besides folders and what macOS adds."""
    archive = zipfile.ZipFile(path)
    files = [entry for entry in archive.infolist() if not entry.is_dir()]
    entries = [entry for entry in files if not entry.filename.startswith("__MACOSX/")]
    if len(entries) != 1:
        raise Damaged(f"it is a zip of {len(entries)} files, not of one")
    return archive.open(entries[0])


def unpacked(path: Path) -> Iterator[bytes]:
    packed: dict[str, Callable[[Path], Any]] = {".gz": gzip.open, ".zip": entry_of}
    with packed.get(path.suffix, lambda path: path.open("rb"))(path) as stream:
        while piece := stream.read(PIECE):
            yield piece


def recoded(pieces: Iterator[bytes]) -> Iterator[bytes]:
    """UTF-16 with its mark, recoded to UTF-8; the mark of UTF-8 takes precedence over the declaration."""
    first = next(pieces, b"")
    whole: Iterator[bytes] = itertools.chain([first], pieces)
    if first.startswith((codecs.BOM_UTF16_LE, codecs.BOM_UTF16_BE)):
        yield codecs.BOM_UTF8
        whole = codecs.iterencode(codecs.iterdecode(whole, "utf-16"), "utf-8")
    yield from whole


def pieces_of(path: Path) -> Iterator[bytes]:
    """Raises Damaged if the file cannot be read to its end."""
    try:
        yield from recoded(unpacked(path))
    except DAMAGE as error:
        raise Damaged(f"it cannot be unpacked, or is not UTF-16: {error or 'it ends too early'}") from None
