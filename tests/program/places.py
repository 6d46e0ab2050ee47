"""Where rooms are made: in memory, if there is enough of it, so that no case waits for a disk. Programs sync there too,
which takes no time; no test depends on what a disk keeps after a loss of power."""

import os
from pathlib import Path

# A file system in memory, as Linux has it in most places; in a container it may be small, or run no programs.
MEMORY = Path("/dev/shm")

# How many bytes the rooms of a run may have at a time: six times what they were seen to have.
MOST = 1 << 30


def available() -> int:
    """How many bytes of memory the machine has left."""
    with open("/proc/meminfo", encoding="ascii") as lines:
        return next(int(line.split()[1]) * 1024 for line in lines if line.startswith("MemAvailable:"))


def has_room(folder: Path, most: int) -> bool:
    """Whether rooms can be in a file system in memory: it has room for so many bytes and runs programs, and the machine
    has as much memory left again."""
    try:
        found = os.statvfs(folder)
    except OSError:
        return False
    if found.f_flag & (os.ST_RDONLY | os.ST_NOEXEC) or not os.access(folder, os.W_OK | os.X_OK):
        return False
    return found.f_bavail * found.f_frsize >= most and available() >= 2 * most


def usual() -> str | None:
    """The folder for rooms; None if it is that for temporary files, which TMPDIR may name."""
    return str(MEMORY) if "TMPDIR" not in os.environ and has_room(MEMORY, MOST) else None
