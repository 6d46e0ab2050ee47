"""The one place where the package touches the machine: files, SQLite, the desk's socket, children, the clock, output.
Tests inject their faults here, and nowhere else."""

import contextlib
import fcntl
import hashlib
import json
import os
import shutil
import socket
import sqlite3
import stat
import sys
import tempfile
import time
from collections.abc import Iterable, Iterator
from pathlib import Path
from typing import Any, NamedTuple

from onixdesk_shop import children
from onixdesk_shop.children import Ended, Words
from onixdesk_shop.faults import DONE, Fault

PIECE = 1 << 20

# Where SQLite locks a database: an open desk locks all of it.
LOCKED_FROM, LOCKED_LENGTH = 1 << 30, 512

# The desk answers one client at a time, so a message waits for those before it.
SECONDS = 3600


class Entry(NamedTuple):
    """An entry of a folder; times in nanoseconds."""

    name: str
    size: int
    modified: int
    changed: int
    is_regular: bool
    inode: int


class Machine:
    def __init__(self, program: str) -> None:
        self.program = program
        self.is_output_broken = sys.stdout is None

    def now(self) -> float:
        return time.time()

    def today(self) -> str:
        return time.strftime("%Y%m%d", time.localtime(self.now()))

    def sleep(self, seconds: float) -> None:
        time.sleep(seconds)

    # Files

    def entries(self, folder: Path) -> list[Entry]:
        """The entries of a folder, by name, without those that vanish meanwhile."""
        found = []
        for name in sorted(os.listdir(folder)):
            with contextlib.suppress(FileNotFoundError):
                found.append(self.entry(folder / name))
        return found

    def paths(self, folder: Path, pattern: str) -> list[Path]:
        """The paths below a folder that match a pattern, in order; none if the folder does not exist."""
        return sorted(folder.glob(pattern))

    def entry(self, path: Path) -> Entry:
        found = os.lstat(path)
        is_regular = stat.S_ISREG(found.st_mode)
        return Entry(path.name, found.st_size, found.st_mtime_ns, found.st_ctime_ns, is_regular, found.st_ino)

    def copy(self, source: Path, target: Path) -> str:
        """Copies a regular file with its time, syncs the copy, and returns the SHA-256 of its bytes."""
        digest = hashlib.sha256()
        opened = os.open(source, os.O_RDONLY | os.O_NOFOLLOW | os.O_NONBLOCK | os.O_CLOEXEC)
        with open(opened, "rb") as old, open(target, "wb") as new:
            found = os.fstat(opened)
            if not stat.S_ISREG(found.st_mode):
                raise OSError(None, "it is not a regular file", str(source))
            while piece := old.read(PIECE):
                digest.update(piece)
                new.write(piece)
            new.flush()
            os.utime(new.fileno(), ns=(found.st_mtime_ns, found.st_mtime_ns))
            os.fsync(new.fileno())
        return digest.hexdigest()

    def exists(self, path: Path) -> bool:
        return path.exists()

    def read(self, path: Path, most: int = -1) -> bytes:
        """The bytes of a file, or its first ones."""
        with open(path, "rb") as file:
            return file.read(most)

    def read_json(self, path: Path) -> Any:
        """The value in a JSON file; an empty object if there is none, or no JSON in it."""
        try:
            return json.loads(self.read(path))
        except (FileNotFoundError, ValueError):
            return {}

    def write_whole(self, path: Path, data: bytes, mode: int = 0o644) -> None:
        """Replaces a file that others read: they see the old one or the new one, whatever happens."""
        descriptor, name = tempfile.mkstemp(prefix=f".{path.name}.", dir=path.parent)
        try:
            with open(descriptor, "wb") as new:
                new.write(data)
                new.flush()
                os.fchmod(new.fileno(), mode)
                os.fsync(new.fileno())
            os.replace(name, path)
        except BaseException:
            with contextlib.suppress(OSError):
                os.unlink(name)
            raise
        self.sync_folder(path.parent)

    def rename(self, old: Path, new: Path) -> None:
        os.rename(old, new)

    def remove(self, path: Path) -> None:
        path.unlink(missing_ok=True)

    def make_folder(self, path: Path, mode: int = 0o700) -> None:
        if not path.exists():
            path.mkdir(exist_ok=True)
            path.chmod(mode)

    def own(self, path: Path, like: Path) -> None:
        """Gives what root made to the owner of another file or folder."""
        if os.geteuid() == 0:
            owner = os.stat(like)
            os.chown(path, owner.st_uid, owner.st_gid, follow_symlinks=False)

    def remove_tree(self, folder: Path) -> None:
        shutil.rmtree(folder, ignore_errors=True)

    @contextlib.contextmanager
    def scratch(self, parent: Path | None = None) -> Iterator[Path]:
        """A temporary folder."""
        with tempfile.TemporaryDirectory(dir=parent, ignore_cleanup_errors=True) as folder:
            yield Path(folder)

    def sync_folder(self, folder: Path) -> None:
        """Syncs the names in a folder."""
        opened = os.open(folder, os.O_RDONLY | os.O_DIRECTORY)
        try:
            os.fsync(opened)
        finally:
            os.close(opened)

    def sync_tree(self, folder: Path) -> None:
        """Syncs everything below a folder."""
        for place, _, names in os.walk(folder):
            for name in names:
                with open(Path(place) / name, "rb") as file:
                    os.fsync(file.fileno())
            self.sync_folder(Path(place))

    @contextlib.contextmanager
    def lock(self, folder: Path, waits: bool = True) -> Iterator[bool]:
        """Locks the folder, and returns whether it could; if it `waits`, it does so until it can."""
        opened = os.open(folder, os.O_RDONLY | os.O_DIRECTORY | os.O_CLOEXEC)
        try:
            try:
                fcntl.flock(opened, fcntl.LOCK_EX | (0 if waits else fcntl.LOCK_NB))
            except BlockingIOError:
                yield False
            else:
                yield True
        finally:
            os.close(opened)

    # SQLite

    def connect(self, path: Path, schema: str = "") -> sqlite3.Connection:
        """A database that syncs each transaction when it commits; it is made by the schema if it does not exist."""
        try:
            connection = sqlite3.connect(path, isolation_level=None)
            connection.execute("PRAGMA journal_mode=WAL")
        except sqlite3.DatabaseError as error:
            raise Fault(f"{path}: {error}; if it is damaged: desk-restore COPY, once it is moved away") from None
        connection.execute("PRAGMA synchronous=FULL")
        connection.execute("PRAGMA foreign_keys=ON")
        if schema and not connection.execute("SELECT count(*) FROM sqlite_schema").fetchone()[0]:
            connection.executescript(f"BEGIN IMMEDIATE; {schema} COMMIT;")
            self.sync_folder(path.parent)
        return connection

    @contextlib.contextmanager
    def transaction(self, connection: sqlite3.Connection) -> Iterator[None]:
        """Does all of it, or nothing."""
        connection.execute("BEGIN IMMEDIATE")
        with connection:
            yield

    @contextlib.contextmanager
    def reading(self, database: Path) -> Iterator[sqlite3.Connection]:
        """Opens a database that nobody else has open, to read it; raises Fault if it cannot. Files that SQLite makes
        beside it are removed at the end."""
        log = database.with_name(f"{database.name}-wal")
        has_log = log.exists()
        try:
            address = f"{database.resolve().as_uri()}?mode=ro"
            with contextlib.closing(sqlite3.connect(address, uri=True, isolation_level=None)) as connection:
                connection.execute("PRAGMA query_only=ON")
                yield connection
        except sqlite3.Error as error:
            raise Fault(f"{database.name}: {error}") from None
        finally:
            database.with_name(f"{database.name}-shm").unlink(missing_ok=True)
            if not has_log:
                log.unlink(missing_ok=True)

    def is_open(self, database: Path) -> bool:
        """Whether another program has a database open: then it locks SQLite's range."""
        try:
            with open(os.open(database, os.O_RDWR | os.O_NOFOLLOW | os.O_CLOEXEC), "r+b", buffering=0) as file:
                fcntl.lockf(file, fcntl.LOCK_EX | fcntl.LOCK_NB, LOCKED_LENGTH, LOCKED_FROM)
        except FileNotFoundError:
            return False
        except BlockingIOError:
            return True
        return False

    def backup(self, database: Path, target: Path) -> None:
        """Copies a database that others may write to meanwhile; DatabaseError if the copy is not sound."""
        with contextlib.closing(sqlite3.connect(database)) as old, contextlib.closing(sqlite3.connect(target)) as new:
            old.backup(new)
            if (found := new.execute("PRAGMA integrity_check").fetchone()[0]) != "ok":
                raise sqlite3.DatabaseError(found)

    # The desk

    def batch(self, address: Path, text: bytes) -> bytes:
        """The desk's answers to a batch at its socket; OSError if no desk is there."""
        with socket.socket(socket.AF_UNIX) as client:
            client.settimeout(SECONDS)
            client.connect(str(address))
            client.sendall(text)
            client.shutdown(socket.SHUT_WR)
            return b"".join(iter(lambda: client.recv(PIECE), b""))

    # Children

    def run(
        self,
        words: Words,
        known: tuple[int, ...] = (DONE,),
        text: bytes | Iterable[bytes] = b"",
        seconds: float | None = None,
    ) -> Ended:
        """Runs a child that reads the text, or its pieces. BadEnd if it ends in an unknown way."""
        return children.run(words, known, [text] if isinstance(text, bytes) else text, seconds)

    # Output

    def tell(self, priority: int, line: str) -> None:
        """Writes a line to standard error, with its priority for the journal."""
        before = f"<{priority}>" if "JOURNAL_STREAM" in os.environ else f"{self.program}: "
        with contextlib.suppress(OSError):
            sys.stderr.write(f"{before}{line}\n")
            sys.stderr.flush()

    def write(self, text: str) -> None:
        """Writes to standard output, as long as somebody reads it."""
        if self.is_output_broken:
            return
        try:
            sys.stdout.write(text)
            sys.stdout.flush()
        except OSError:
            self.is_output_broken = True
            # Python would write the rest at the end.
            os.dup2(os.open(os.devnull, os.O_WRONLY), sys.stdout.fileno())

    def ask(self, question: str) -> str:
        """A person's answer, as a line; an empty one if nobody can read the question."""
        self.write(question)
        return "" if self.is_output_broken else sys.stdin.readline().strip()
