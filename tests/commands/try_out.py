"""Builds the program without any proof, unless it is built of the present sources, and prints its path.

    tests/try

It is crates/onixdesk/out/onixdesk.unproved, with every check that the toolchain can build in and without
optimizations: for trying the program and finding faults, not for a shop. Status 0; 1 if it cannot be built; 2 if there
is no toolchain.
"""

import os
import shutil
import subprocess
import sys
import tempfile
import time
from pathlib import Path

from tests.running import PROGRAM
from tools.root import ROOT

CRATE = "onixdesk"
BUILT = PROGRAM.with_name(f"{PROGRAM.name}.unproved")

# Given the name of a file, the program reads it, and needs nothing else.
READING = ["convert"]

# How long to wait before looking again for a program that is being built, in seconds.
PAUSE = 0.1

WHERE = f"""\
onixdesk: {BUILT.relative_to(ROOT)} is the program, of which nothing is proved
onixdesk: it is built to find faults, and not for speed: it takes 3 seconds to open any desk in a file
"""


def open_when_read(pipe: Path, tried: subprocess.Popen[bytes]) -> int | None:
    """Opens a named pipe as soon as the tested program reads it; none if the program is not built."""
    while tried.poll() is None:
        try:
            return os.open(pipe, os.O_WRONLY | os.O_NONBLOCK)
        except OSError:
            time.sleep(PAUSE)
    return None


def build(room: Path) -> None:
    """Builds it anew. RuntimeError if it cannot be built.

    `rt try` keeps no program, and takes some seconds to run one on each input. So the program is copied while it
    waits: it reads a pipe in the folder `room`.
    """
    pipe, said = room / "pipe", room / "said"
    os.mkfifo(pipe)
    with open(said, "wb") as errors:
        tried = subprocess.Popen(
            ["rt", "try", "--steps", "1", "--", *READING, str(pipe)],
            cwd=ROOT / "crates" / CRATE,
            env={**os.environ, "TMPDIR": str(room)},
            stdin=subprocess.DEVNULL,
            stdout=subprocess.DEVNULL,
            stderr=errors,
        )
    try:
        opened = open_when_read(pipe, tried)
        if opened is None:
            why = said.read_text(encoding="utf-8", errors="replace").strip()
            # A killed one has written nothing.
            raise RuntimeError(why or f"rt try ended with status {tried.returncode} and wrote nothing")
        # `rt try` runs a program in a folder of its own, where it is the file `program`.
        (built,) = room.glob("*/*/program")
        shutil.copyfile(built, BUILT)
        # A test runs it as another user.
        BUILT.chmod(0o755)
        os.close(opened)
    finally:
        tried.terminate()
        tried.wait()


def build_program() -> None:
    BUILT.parent.mkdir(exist_ok=True)
    BUILT.unlink(missing_ok=True)
    with tempfile.TemporaryDirectory(prefix="onixdesk-") as folder:
        build(Path(folder))


def is_built() -> bool:
    """Whether it is built and no source has changed since."""
    sources = [ROOT / "crates.txt", *ROOT.glob("crates/*/src/**/*.rt")]
    return BUILT.is_file() and BUILT.stat().st_mtime > max(path.stat().st_mtime for path in sources)


def main() -> int:
    if not is_built():
        if not shutil.which("rt"):
            print("onixdesk: the Rattle toolchain's command 'rt' is not on the PATH", file=sys.stderr)
            return 2
        print("onixdesk: building the program without any proof, in about four minutes", file=sys.stderr)
        try:
            build_program()
        except RuntimeError as fault:
            print(f"onixdesk: {fault}", file=sys.stderr)
            return 1
    print(WHERE, end="", file=sys.stderr)
    return 0


if __name__ == "__main__":
    sys.exit(main())
