"""Whose schema is replaced and whose is not, what stays untouched, who may read, and faults."""

import re
import time
from collections.abc import Iterator
from functools import partial

from tests.postgres.cluster import Cluster
from tests.postgres.follower import ask, execute, follow, in_postgres, state_of
from tests.postgres.steps import ASKED, deliver
from tests.program.databases import DATABASE, execute as execute_in_file
from tests.program.messages import AGREEMENT
from tests.program.room import Ran, Room
from tests.running import Outcome
from tools.words import sought

# Everything outside the schema, with who may use it.
ELSEWHERE = """\
SELECT 'schema', nspname::text, nspacl::text FROM pg_namespace WHERE nspname <> 'desk' AND nspname !~ '^pg_(toast_)?temp'
UNION ALL SELECT 'relation', oid::regclass::text, relacl::text FROM pg_class
    WHERE relnamespace::regnamespace::text NOT IN ('desk', 'pg_toast') AND relnamespace::regnamespace::text !~ 'temp'
UNION ALL SELECT 'function', oid::regprocedure::text, proacl::text FROM pg_proc WHERE pronamespace <> 'desk'::regnamespace
ORDER BY 1, 2"""

OTHER = b"desk-follow: psql ended with status 3: ERROR:  the database has a schema desk that is not desk-follow's, and it stays as it is\n"
OLD_LAYOUT = "COMMENT ON SCHEMA desk IS 'Kept by desk-follow of onixdesk, layout of before'"


def of_others(cluster: Cluster, room: Room) -> Iterator[Outcome]:
    deliver(room, 1, agreement=AGREEMENT)
    for name, statements in [
        (
            "uncommented",
            "CREATE SCHEMA desk; CREATE TABLE desk.own (item text); INSERT INTO desk.own VALUES ('kept')",
        ),
        (
            "commented",
            "CREATE SCHEMA desk; CREATE TABLE desk.own AS SELECT 'kept'; COMMENT ON SCHEMA desk IS 'the shop''s'",
        ),
        # Whoever can make a schema can comment it like the follower, and add a trigger that it would run.
        (
            "commented as desk-follow's",
            "CREATE ROLE stranger; CREATE SCHEMA desk AUTHORIZATION stranger;"
            f" CREATE TABLE desk.own AS SELECT 'kept'; {OLD_LAYOUT}",
        ),
    ]:
        database = cluster.make_database(f"others_{re.sub('[^a-z]', '_', name)}")
        execute(database, statements)
        yield Outcome(f"a schema of somebody else, {name}", follow(room, database), Ran(3, b"", OTHER))
        yield Outcome(f"it stays, {name}", ask(database, "SELECT * FROM desk.own"), [("kept",)])


def elsewhere(cluster: Cluster, room: Room) -> Iterator[Outcome]:
    database = cluster.make_database("elsewhere")
    deliver(room, 1, agreement=AGREEMENT)
    execute(
        database,
        "CREATE TABLE price (amount text); INSERT INTO price VALUES ('ours'); CREATE SCHEMA desk_next",
    )
    follow(room, database)
    before = ask(database, ELSEWHERE)
    deliver(room, 2)
    yield Outcome("followed", follow(room, database).status, 0)
    yield Outcome("all but the schema is untouched", ask(database, ELSEWHERE), before)
    yield Outcome("rows of public stay", ask(database, "SELECT * FROM public.price"), [("ours",)])


def depended_on(cluster: Cluster, room: Room) -> Iterator[Outcome]:
    """What others made on the tables goes on; another version's schema stays until somebody removes it."""
    database = cluster.make_database("depended")
    deliver(room, 1, agreement=AGREEMENT)
    follow(room, database)
    execute(database, "CREATE VIEW public.own AS SELECT reference FROM desk.price")
    deliver(room, 2)
    yield Outcome("a view of the shop's", follow(room, database).status, 0)
    yield Outcome("it has the rows", len(ask(database, "SELECT * FROM public.own")), 30)
    execute(database, OLD_LAYOUT)
    before = in_postgres(database)
    ran = follow(room, database)
    found = ran.status, b"DROP SCHEMA desk CASCADE takes it away" in ran.errors
    yield Outcome("another version's", (*found, in_postgres(database) == before), (3, True, True))
    execute(database, "DROP SCHEMA desk CASCADE")
    yield Outcome("made anew", follow(room, database).status, 0)


GRANTED = """\
GRANT USAGE ON SCHEMA desk TO "buyers of books"; GRANT SELECT ON ALL TABLES IN SCHEMA desk TO "buyers of books\""""


def role_of_readers(cluster: Cluster, room: Room) -> Iterator[Outcome]:
    """What a role was granted once, it has after each run."""
    database = cluster.make_database("reading")
    deliver(room, 1, agreement=AGREEMENT)
    execute(database, 'CREATE ROLE "buyers of books" LOGIN')
    follow(room, database)
    words = database.replace("user=desk", "user='buyers of books'")
    for is_let in (False, True):
        if is_let:
            execute(database, GRANTED)
            yield Outcome("behind that", follow(room, database).status, 0)
        wanted = None if is_let else "42501"
        yield Outcome(f"a reader who is let: {is_let}", state_of(partial(ask, words, ASKED)), wanted)
    yield Outcome("a reader, let", len(ask(words, ASKED)), 1)
    yield Outcome("a reader who writes", state_of(partial(execute, words, "DELETE FROM desk.price")), "42501")


def faults(cluster: Cluster, room: Room) -> Iterator[Outcome]:
    database = cluster.make_database("faults")
    deliver(room, 1, agreement=AGREEMENT)
    follow(room, database)
    before = in_postgres(database)
    ran = follow(room, database.replace("dbname=faults", "dbname=nowhere"))
    yield Outcome(
        "no such database",
        (ran.status, b'"nowhere" does not exist' in ran.errors, ran.errors.count(b"\n")),
        (3, True, 1),
    )
    room.write("rules.toml", b"[[rule]]\nseries = 'north'\n")
    ran = follow(room, database, "--rules", "rules.toml")
    yield Outcome("a bad table", (ran.status, b"rules.toml: " in ran.errors), (3, True))
    execute_in_file(room, "UPDATE meta SET amount = 3")
    ran = follow(room, database)
    line = b"desk-follow: its tables are of version 3 of a desk's, in place of 2\n"
    yield Outcome("another version", ran, Ran(3, b"", line))
    room.write(DATABASE, b"no database" * 1000)
    yield Outcome("no database", (follow(room, database).status), 3)
    room.path(DATABASE).unlink()
    yield Outcome("no file", follow(room, database), Ran(3, b"", b"desk-follow: cases.db: there is no such file\n"))
    yield Outcome("all is as before", in_postgres(database), before)


def moment(cluster: Cluster, room: Room) -> Iterator[Outcome]:
    """The moment is that of the copy, and changed rules take effect."""
    database = cluster.make_database("moments")
    deliver(room, 1, agreement=AGREEMENT)
    began = time.time()
    ran = follow(room, database)
    ((taken,),) = ask(database, "SELECT extract(epoch FROM taken)::float8 FROM desk.moment")
    yield Outcome("the moment", began <= taken <= time.time(), True)
    told = sought(rb"^as of (\d{4}-\d\d-\d\d \d\d:\d\d:\d\d) UTC$", ran.output).decode()
    query = "SELECT to_char(taken AT TIME ZONE 'UTC', 'YYYY-MM-DD HH24:MI:SS') FROM desk.moment"
    yield Outcome("it is told", ask(database, query), [(told,)])
    choice = ASKED.replace("desk.prices", "desk.choice")
    for text, wanted in [
        (b"", []),
        (b'[[rule]]\nseries = "*"\ncodes = ["21"]\n', ["north"]),
        (b"", []),
        (b'[[rule]]\nseries = "north"\ncodes = ["21"]\n', ["north"]),
        (b'[[rule]]\nseries = "*"\ncodes = ["20"]\n', []),
    ]:
        room.write("rules.toml", text)
        follow(room, database, "--rules", "rules.toml")
        yield Outcome(f"chosen by {text!r}", [series for series, _ in ask(database, choice)], wanted)
