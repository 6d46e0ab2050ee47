"""C libraries that a test program loads before its own."""

import shutil
import subprocess
from pathlib import Path

from tools.words import Word

# The C compilers to look for, before the toolchain's own, which has no C library.
COMPILERS = [["cc", "-ldl"], ["clang", "-ldl"]]
OF_TOOLCHAIN = "toolchain/bin/clang"


class NoCompiler(Exception):
    """There is no C compiler."""


def compilers() -> list[list[str]]:
    """The C compilers that may be installed, each with its words for the linker."""
    rt = shutil.which("rt")
    own = Path(rt).resolve().parent.parent / OF_TOOLCHAIN if rt else None
    return [*COMPILERS, *([[str(own), "-nostdlib", f"--ld-path={own.with_name('ld.lld')}"]] if own else [])]


def build_by(compiler: list[str], source: Path, library: Path) -> None:
    """Compiles the library of a source by one of them."""
    program, *linking = compiler
    words: list[Word] = [program, "-O2", "-shared", "-fPIC", "-o", library, source, *linking]
    subprocess.run(words, check=True)


def build(source: Path, library: Path) -> None:
    """Compiles it by the first one that is installed."""
    for compiler in compilers():
        try:
            build_by(compiler, source, library)
            return
        except FileNotFoundError:
            continue
    raise NoCompiler("there is no compiler of C, which Debian's package gcc has")
