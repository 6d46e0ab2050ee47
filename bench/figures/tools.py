"""The other programs, built into a folder of their own."""

import shutil
import subprocess
from collections.abc import Sequence
from pathlib import Path

from bench.figures.runs import BenchmarkFault, Word

SOURCES = Path(__file__).resolve().parent.parent / "tools"

# Where Debian's packages put the sources of crates.
CRATES = "/usr/share/cargo/registry"


def build(words: Sequence[Word], folder: Path, packages: str) -> None:
    try:
        subprocess.run(words, cwd=folder, check=True, capture_output=True, text=True)
    except OSError as fault:
        raise BenchmarkFault(f"{words[0]}: {fault.strerror}, which needs Debian's {packages}") from fault
    except subprocess.CalledProcessError as fault:
        last = fault.stderr.strip().rpartition("\n")[2]
        raise BenchmarkFault(f"{words[0]} failed, which needs Debian's {packages}: {last}") from fault


def records(folder: Path) -> Path:
    """A program that reads and writes records with the crate `csv`, built by cargo without a network."""
    sources = folder / "records"
    made = sources / "target/release/records"
    if not made.exists():
        shutil.copytree(SOURCES / "records", sources, dirs_exist_ok=True)
        source = ["--config", 'source.crates-io.replace-with="debian"']
        source += ["--config", f'source.debian.directory="{CRATES}"']
        build(["cargo", "build", "--release", "--offline", *source], sources, "cargo and librust-csv-dev")
    return made


def by_sqlite(folder: Path, name: str) -> Path:
    """The program of that name, in C over SQLite."""
    made = folder / name
    if not made.exists():
        words: list[Word] = ["cc", "-std=c11", "-O2", "-o", made, SOURCES / f"{name}.c", "-lsqlite3"]
        build(words, folder, "gcc and libsqlite3-dev")
    return made
