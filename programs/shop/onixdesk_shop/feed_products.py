"""The products of a feed as expat reads them, for people alone: no price depends on them. It runs as a child, so that a
stranger's file that takes too much memory ends nothing else."""

import codecs
import html.entities
import sys
from collections.abc import Callable, Iterator
from typing import IO, Any
from xml.etree.ElementTree import Element, TreeBuilder
from xml.parsers import expat

PIECE = 65_536

# How much of each text is kept.
LONGEST = 300


def text_in(element: Element, path: str) -> str:
    """The text of the first element at that path that has one."""
    texts = (" ".join("".join(found.itertext()).split())[:LONGEST] for found in element.iterfind(path))
    return next(filter(None, texts), "")


class Reader:
    """Reads the elements directly below the root by reference names; `names` has them by short tags."""

    def __init__(self, names: dict[str, str], encoding: str | None) -> None:
        self.names = names
        self.parser = expat.ParserCreate(encoding)
        self.parser.buffer_text = True
        self.parser.UseForeignDTD(True)
        self.parser.StartElementHandler = self.start
        self.parser.EndElementHandler = self.end
        self.parser.CharacterDataHandler = self.add
        self.parser.SkippedEntityHandler = lambda name, _: self.add(html.entities.html5.get(f"{name};", ""))
        self.depth = 0
        self.builder = TreeBuilder()
        self.whole: list[Element] = []

    def start(self, tag: str, _: Any) -> None:
        local = tag.rpartition(":")[2]
        if self.depth:
            self.builder.start(self.names.get(local, local), {})
        self.depth += 1

    def end(self, tag: str) -> None:
        self.depth -= 1
        if self.depth:
            self.builder.end(tag)
        if self.depth == 1:
            self.whole.append(self.builder.close())
            self.builder = TreeBuilder()

    def add(self, text: str) -> None:
        if self.depth > 1:
            self.builder.data(text)


def elements_in(stream: IO[bytes], names: dict[str, str]) -> Iterator[Element]:
    """The elements directly below the root, in order. A byte order mark takes precedence over the declaration."""
    piece = stream.read(PIECE)
    reader = Reader(names, "utf-8" if piece.startswith(codecs.BOM_UTF8) else None)
    while piece:
        reader.parser.Parse(piece, False)
        yield from reader.whole
        reader.whole = []
        piece = stream.read(PIECE)
    reader.parser.Parse(b"", True)


def read_input(names: str, work: Callable[[Iterator[Element]], None]) -> None:
    """Runs a program that reads a feed from its standard input; `names` has pairs SHORT=NAME."""
    try:
        work(elements_in(sys.stdin.buffer, dict(pair.split("=") for pair in names.split())))
    except (expat.ExpatError, ValueError, LookupError) as error:
        sys.exit(f"expat cannot read it: {error}")
