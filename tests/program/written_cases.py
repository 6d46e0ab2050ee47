"""Cases that are written in files of text. Behind a heading a file has its cases: a line `== ` with the name, a text, and
parts, each of which is a line `-- ` with its head and then a text.
"""

import re
from pathlib import Path
from typing import NamedTuple

# The folders of such files.
TESTS = Path(__file__).resolve().parent.parent

# A piece of a text that is repeated, and how often.
REPEATED = re.compile(r"\(([^()]*)\)\{([0-9]+)\}")


class Written(NamedTuple):
    """A case: its name, the text, and the parts, each a head and a text."""

    name: str
    text: str
    parts: list[tuple[str, str]]


def headed(text: str) -> tuple[str, str]:
    """A first line, and the text after it, without its last line end."""
    head, is_there, behind = text.partition("\n")
    return head, f"{behind}\n" if is_there else ""


def read_case(text: str) -> Written:
    first, *parts = text.split("\n-- ")
    return Written(*headed(first), [headed(part) for part in parts])


def read_file(path: Path) -> list[Written]:
    """The cases of a file, with its line ends."""
    _heading, *texts = path.read_bytes().decode().removesuffix("\n").split("\n== ")
    return [read_case(text) for text in texts]


def repeated(text: str) -> str:
    """The text in which `(PIECE){N}` is N times the piece."""
    return REPEATED.sub(lambda found: found[1] * int(found[2]), text)


def unescaped(text: str) -> bytes:
    """The bytes of a text with Python's escapes."""
    return text.encode().decode("unicode_escape").encode("latin-1")
