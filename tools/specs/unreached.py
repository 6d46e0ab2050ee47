"""The definitions in specs/ that no contract of a public or private function reaches: they belong into proofs/."""

import sys
from pathlib import Path

from tools.root import ROOT
from tools.specs.definitions import File, Name, crates, imported, names_in, read_crate


def is_reached(file: File, word: str, found: set[Name]) -> bool:
    """Whether it is among those found; an operator has another name where it is written."""
    return "◌" in word or Name(file.crate, file.name, word) in found


def unreached(root: Path) -> list[Name]:
    """These definitions, by crate and file."""
    folders = [root / "crates" / name for name in crates(root)]
    files = [file for folder in folders for file in read_crate(folder)]
    uses = {
        Name(file.crate, file.name, word): cited | {Name(file.crate, file.name, own) for own in file.own[word]}
        for file in files
        for word, cited in file.cited.items()
    }
    uses |= {Name(file.crate, file.name, it.word): {it} for file in files for it in file.handed_on}
    texts = [path.read_text(encoding="utf-8") for folder in folders for path in folder.glob("src/**/*.rt")]
    left = [name for text in texts for name in names_in(text, imported(text))]
    found = set()
    while left:
        name = left.pop()
        if name not in found:
            found.add(name)
            left += uses.get(name, ())
    return [
        Name(file.crate, file.name, word)
        for file in files
        for word in file.comments
        if not is_reached(file, word, found)
    ]


if __name__ == "__main__":
    lost = unreached(ROOT)
    for name in lost:
        print(f"crates/{name.crate}/specs/{name.file}.antt: no contract reaches {name.word}")
    sys.exit(1 if lost else 0)
