"""The follower step by step, two at once, and a reader from before: the tables are always those of the file."""

import subprocess
from collections.abc import Iterator
from contextlib import closing

import psycopg2

from tests.postgres.cluster import Cluster
from tests.postgres.follower import follow, in_file, in_postgres, words_of
from tests.program.databases import DATABASE
from tests.program.messages import AGREEMENT, priced_by_number
from tests.program.room import SECONDS, Room
from tests.running import Outcome

PRODUCTS = 30


def message(number: int) -> bytes:
    return priced_by_number(number, PRODUCTS)


def deliver(room: Room, *numbers: int, agreement: bytes = b"") -> None:
    text = agreement + b"".join(map(message, numbers))
    assert room.run("--db", DATABASE, "batch", given=text).status == 0


def two_at_once(cluster: Cluster, room: Room) -> Iterator[Outcome]:
    database = cluster.make_database("two")
    deliver(room, 1, agreement=AGREEMENT)
    for number in range(2, 8):
        running = [
            subprocess.Popen(words_of(room, database), cwd=room.folder, stdout=subprocess.PIPE, stderr=subprocess.PIPE)
            for _ in range(2)
        ]
        ended = [(process.communicate(timeout=SECONDS)[1], process.returncode) for process in running]
        yield Outcome(f"two at once, {number}: both end", ended, [(b"", 0)] * 2)
        yield Outcome(f"two at once, {number}: what is there", in_postgres(database) == in_file(room), True)
        deliver(room, number)


ASKED = "SELECT series, amount FROM desk.prices('9780000000000', '2025-03-01', 'GB', 'GBP', '02')"


def snapshot_of_before(cluster: Cluster, room: Room) -> Iterator[Outcome]:
    """A transaction whose snapshot is older than the tables is refused, instead of finding nothing."""
    database = cluster.make_database("snapshots")
    deliver(room, 1, agreement=AGREEMENT)
    with closing(psycopg2.connect(database)) as connection, connection.cursor() as cursor:
        connection.set_session(isolation_level="REPEATABLE READ")
        cursor.execute("SELECT 1")
        follow(room, database)
        for question in [ASKED, "SELECT * FROM desk.gaps('north')"]:
            cursor.execute("SAVEPOINT before")
            refusal: str | None = None
            try:
                cursor.execute(question)
            except psycopg2.Error as error:
                refusal = error.diag.message_primary
            cursor.execute("ROLLBACK TO before")
            yield Outcome("a snapshot of before", refusal, "the tables of schema desk are newer than this transaction")


def several_series(cluster: Cluster, room: Room) -> Iterator[Outcome]:
    """Held messages come and go, waivers, new series, deleted records: the rows are always the file's."""
    database = cluster.make_database("series")
    for name, text in [
        ("agreed", AGREEMENT.decode()),
        ("held", (message(3) + message(4)).decode()),
        ("drained", (message(1) + message(2)).decode()),
        ("another series", "Agree,south,06,S,,,5\nWaive,south,5\nWaive,south,7\n"),
        (
            "deleted",
            "Message,1,06,4012345000009,06,5012345678900,5,,,,\nProduct,R1,05,15,9780000000001\nEndMessage,2\n",
        ),
        ("nothing", ""),
    ]:
        room.run("--db", DATABASE, "batch", given=text.encode())
        ran = follow(room, database)
        yield Outcome(f"rows, {name}", (ran.status, ran.errors, in_postgres(database) == in_file(room)), (0, b"", True))
