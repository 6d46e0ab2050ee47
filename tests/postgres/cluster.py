"""A cluster of PostgreSQL in a folder of its own, reached only by a socket there."""

import contextlib
import os
import shutil
import signal
import subprocess
import sys
import tempfile
from collections.abc import Iterator
from pathlib import Path

import psycopg2
from psycopg2.extensions import connection as Connection

from tools.words import Word

USER = "desk"


class Cluster:
    def __init__(self, programs: Path, folder: Path) -> None:
        self.programs = programs
        self.folder = folder

    def run(self, name: str, *words: Word) -> None:
        """Runs one of its programs, none of them as root."""
        to_user = ["runuser", "-u", "postgres", "--"] if os.geteuid() == 0 else []
        done = subprocess.run(
            [*to_user, self.programs / name, *words],
            cwd=self.folder,
            stdin=subprocess.DEVNULL,
            stdout=subprocess.PIPE,
            stderr=subprocess.STDOUT,
        )
        if done.returncode:
            raise RuntimeError(f"{name}: {done.stdout.decode()}")

    def start(self) -> None:
        self.run("initdb", *"--pgdata data --auth trust --encoding UTF8 --no-locale --username".split(), USER)
        # Nothing in it has to survive the machine.
        options = f"-c listen_addresses= -c unix_socket_directories={self.folder} -c fsync=off"
        self.run("pg_ctl", "--pgdata", "data", "--log", "server.log", "--wait", "--options", options, "start")

    def stop(self) -> None:
        self.run("pg_ctl", "--pgdata", "data", "--mode", "immediate", "stop")

    def words(self, database: str) -> str:
        """The words by which libpq finds one of its databases."""
        return f"host={self.folder} user={USER} dbname={database}"

    def connect(self, database: str = "postgres") -> Connection:
        connection = psycopg2.connect(self.words(database))
        connection.autocommit = True
        return connection

    def make_database(self, name: str) -> str:
        """A new database, and the words for it."""
        with contextlib.closing(self.connect()) as connection, connection.cursor() as cursor:
            cursor.execute(f"CREATE DATABASE {name}")
        return self.words(name)


@contextlib.contextmanager
def started(programs: Path) -> Iterator[Cluster]:
    folder = Path(tempfile.mkdtemp(prefix="onixdesk-postgres-"))
    if os.geteuid() == 0:
        shutil.chown(folder, "postgres", "postgres")
    folder.chmod(0o755)
    cluster = Cluster(programs, folder)
    # So that the cluster ends with the process that is told to end.
    signal.signal(signal.SIGTERM, lambda number, _: sys.exit(128 + number))
    try:
        cluster.start()
        yield cluster
    finally:
        with contextlib.suppress(RuntimeError):
            cluster.stop()
        shutil.rmtree(folder, ignore_errors=True)
