"""The public definitions in a crate's specs/, each with the comment above it."""

import re
from dataclasses import dataclass
from pathlib import Path

COMMENT = re.compile(r"(?:  )?-- (.*)")

# Those of a section with parameters are indented.
DEFINITION = re.compile(r"(?:  )?(?:abbrev pub|unfoldable pub|pub record|pub data) (\S+)")

# A lemma that a function outside its crate needs for a law.
LEMMA = re.compile(r"pub ([\w-]+) :")

# No contract cites the name of a lemma, and no public contract a private definition.
LEFT_OUT = re.compile(r"Lib|private|private\..*|.*Lemmas")

IMPORT = re.compile(r"use Rattle\.(\w+)\.specs\.(\w+)(?:\.\{([^}]*)\}| as (\w+))")

WORD = re.compile(r"[\w◌-]+(?:\.\w+)?")


@dataclass(frozen=True, order=True)
class Name:
    """A name, in a file of the specs/ of a crate."""

    crate: str
    file: str
    word: str


@dataclass
class File:
    """A file of specs/: its first line, its definitions in order (the comment, the lines, what each cites of other
    files, and its own words), and what it re-exports."""

    crate: str
    name: str
    about: str
    comments: dict[str, str]
    formulas: dict[str, list[str]]
    cited: dict[str, set[Name]]
    own: dict[str, set[str]]
    handed_on: set[Name]


def imported(text: str) -> dict[str, tuple[str, str, str]]:
    """Crate, file and word of each name that a text imports, by the name that it has there.

    A whole file that is imported under an alias has an empty word."""
    found: dict[str, tuple[str, str, str]] = {}
    for crate, file, words, alias in IMPORT.findall(text):
        if alias:
            found[alias] = (crate, file, "")
        for word in (part.strip() for part in words.split(",") if part.strip()):
            theirs, _, ours = word.partition(" as ")
            found[ours or theirs] = (crate, file, theirs)
    return found


def names_in(text: str, imports: dict[str, tuple[str, str, str]]) -> set[Name]:
    """The imported names that occur in a text."""
    found = set()
    for word in WORD.findall(text):
        whole, _, part = word.partition(".")
        if whole in imports:
            crate, file, theirs = imports[whole]
            if theirs or part:
                found.add(Name(crate, file, theirs or part))
    return found


def read_file(crate: str, name: str, text: str) -> File:
    lines = text.splitlines()
    first = COMMENT.match(lines[0])
    file = File(crate, name, first[1] if first else "", {}, {}, {}, {}, set())
    imports = imported(text)
    for line in lines:
        if line.startswith("pub use "):
            file.handed_on |= {Name(*found) for found in imported(line).values()}
    comment, word = [], None
    for line in lines:
        if said := COMMENT.match(line):
            comment.append(said[1])
            continue
        if line.startswith("module "):
            word = None
        if found := DEFINITION.match(line):
            file.comments[found[1]] = " ".join(comment)
        if found := found or LEMMA.match(line):
            word = found[1]
            file.formulas[word] = []
            file.cited[word] = set()
            file.own[word] = set()
        if word and line and not line.startswith("use "):
            file.formulas[word].append(line)
            file.cited[word] |= names_in(line, imports)
            file.own[word] |= set(re.split(r"[\s(){}\[\],;.]+", line))
        comment = []
    return file


def read_crate(folder: Path) -> list[File]:
    """The files of a crate's specs/, in the order of Lib.antt."""
    specs = folder / "specs"
    if not specs.is_dir():
        return []
    order = re.findall(r"^pub mod (\S+)", (specs / "Lib.antt").read_text(encoding="utf-8"), re.M)
    return [
        read_file(folder.name, name, (specs / f"{name}.antt").read_text(encoding="utf-8"))
        for name in order
        if not LEFT_OUT.fullmatch(name)
    ]


def crates(root: Path) -> list[str]:
    """The crates of the repository, lowest first."""
    lines = (root / "crates.txt").read_text(encoding="utf-8").splitlines()
    return [line.partition(":")[0] for line in lines if line and not line.startswith("#")]
