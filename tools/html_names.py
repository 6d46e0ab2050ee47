"""The named characters of HTML, as crates/feed_xml/src/html_names.rt has them, from Python's table; tools/html-names
writes that file."""

import unicodedata
from collections.abc import Iterator
from html.entities import html5, name2codepoint

from tools.root import ROOT

LISTS = ROOT / "crates/feed_xml/src/html_names.rt"

# XML allows only names with their semicolon.
NAMES = {name.removesuffix(";"): characters for name, characters in html5.items() if name.endswith(";")}

# What XML itself declares.
OF_XML = ("amp", "lt", "gt", "quot", "apos")

# The most columns of a line of the source.
WIDTH = 100

HEAD = """\
//! The names that HTML gives to characters, by their first letter: behind `&name;` stand the characters, up to the
//! next space. Written by `tools/html-names`.

// A list for each byte from A to z.
"""


def rank(name: str) -> tuple[bool, bool, str]:
    """The order of names in a list: what feeds have most comes first, those of XML and then those of HTML 4."""
    return name not in OF_XML, name not in name2codepoint, name


def written(character: str) -> str:
    """A character in a text of the source; by its number if it would not show by itself."""
    if character in '"\\':
        return f"\\{character}"
    if unicodedata.category(character)[0] in "CMZ":
        return f"\\u{{{ord(character):x}}}"
    return character


def entry(name: str) -> str:
    return f"&{name};{''.join(map(written, NAMES[name]))} "


def lines(names: list[str]) -> Iterator[str]:
    """The lines of a list, each with the mark that continues it."""
    indent = " " * 4
    line = indent
    for name in names:
        if len(line + entry(name)) >= WIDTH:
            yield line + "\\"
            line = indent
        line += entry(name)
    yield line


def literal(first: str) -> str:
    """The list of the names with this first byte, as an element of the array."""
    names = sorted((name for name in NAMES if name[0] == first), key=rank)
    text = "\n".join(lines(names))
    return f'    "\\\n{text}",\n' if names else '    "",\n'


def source() -> str:
    texts = [literal(chr(byte)) for byte in range(ord("A"), ord("z") + 1)]
    return f"{HEAD}pub(crate) const NAMES: [&str; {len(texts)}] = [\n{''.join(texts)}];\n"


if __name__ == "__main__":
    LISTS.write_text(source(), encoding="utf-8")
