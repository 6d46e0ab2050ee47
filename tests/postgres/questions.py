"""20,000 seeded questions to seeded desks: the functions answer what the desk answers, line by line."""

import csv
import re
from collections.abc import Iterable, Iterator
from contextlib import closing
from functools import partial

import psycopg2
from psycopg2.extensions import cursor as Cursor

from tests.postgres.cluster import Cluster
from tests.postgres.follower import follow, in_file, in_postgres
from tests.postgres.seeds import RULES, Maker, agreements
from tests.program.databases import DATABASE
from tests.program.room import Room
from tests.running import Outcome
from tools.words import Row

DESKS = 10
QUESTIONS = 2_000
MESSAGES = 80

# 3,660 days, one more, a range that ends before it begins, single days, and the first and the last one.
EDGES = [
    f"AskCalendar,9780000000001,{days},GB,GBP,02"
    for days in [
        "20250101,20350108",
        "20250101,20350109",
        "20250102,20250101",
        "20250101,20250101",
        "00010101,00010101",
        "99991231,99991231",
        "99900101,99991231",
    ]
]

FUNCTIONS = {"AskPrice": "prices", "AskChoice": "choice", "AskCalendar": "calendar", "AskGaps": "gaps"}

# How many of the fields of a question are days.
DAYS = {"AskPrice": 1, "AskChoice": 1, "AskCalendar": 2, "AskGaps": 0}

HEADS = {"price", "choice", "calendar", "gaps", "refused"}

# The SQLSTATEs of values that a type refuses: no such day, no number, outside a domain, out of range.
MALFORMED = {"22007", "22008", "22P02", "23514", "23502", "22003"}


def desk_answers(room: Room, questions: list[str]) -> list[list[list[str]]]:
    """The records of each answer of the desk."""
    words = ["--db", DATABASE, "--existing", "--rules", "rules.toml", "batch"]
    ran = room.run(*words, given="".join(f"{question}\n" for question in questions).encode())
    answers: list[list[list[str]]] = []
    for record in csv.reader(ran.output.decode().splitlines(keepends=True)):
        if record[0] in HEADS:
            answers.append([])
        answers[-1].append(record)
    return answers


def texts(row: Iterable[object]) -> list[str]:
    return ["" if value is None else str(value) for value in row]


def day_of(text: str) -> str:
    """A day in SQL; what is not eight digits is left to be refused."""
    return f"{text[:4]}-{text[4:6]}-{text[6:]}" if re.fullmatch("[0-9]{8}", text) else f"no day {text}"


def written(name: str, fields: list[str], rows: list[Row]) -> list[list[str]]:
    """The records of the desk's answer that the rows of a function stand for."""
    article = fields[0]
    if name == "AskPrice":
        return [["price", article, str(len(rows))], *(["offer", *texts(row)] for row in rows)]
    if name == "AskChoice":
        return [["choice", article, *(texts(rows[0]) if rows else ["none"])]]
    if name == "AskCalendar":
        records, offers = [], []
        for *offer, first, last, amount in rows:
            if offer not in offers:
                offers.append(offer)
                records.append(["offer", *texts(offer)])
            records.append(["span", *(f"{day:%Y%m%d}".rjust(8, "0") for day in (first, last)), *texts([amount])])
        return [["calendar", article, str(len(offers))], *records]
    if not rows:
        return [["refused", "unknown-series"]]
    first, after, greatest, held, missing = rows[0]
    counts = [
        f"first={first}",
        f"next={after}",
        f"greatest={texts([greatest])[0]}",
        f"held={held}",
        f"missing={len(missing)}",
    ]
    return [["gaps", article, *counts], *(["missing", *texts(each)] for each in missing)]


def postgres_answer(cursor: Cursor, question: str) -> list[list[str]]:
    name, *fields = question.split(",")
    days = DAYS[name]
    values = [*fields[:1], *map(day_of, fields[1 : 1 + days]), *fields[1 + days :]]
    try:
        cursor.execute(f"SELECT * FROM desk.{FUNCTIONS[name]}({', '.join(['%s'] * len(values))})", values)
    except psycopg2.Error as error:
        if error.pgcode == "22023" and error.diag.message_primary == "bad-range":
            return [["refused", "bad-range"]]
        if error.pgcode in MALFORMED:
            return [["refused", "malformed", "1"]]
        raise
    return written(name, fields, cursor.fetchall())


def differences(room: Room, database: str, questions: list[str]) -> list[Row]:
    wanted = desk_answers(room, questions)
    found: list[Row] = [] if len(wanted) == len(questions) else [(len(wanted), "answers")]
    with closing(psycopg2.connect(database)) as connection, connection.cursor() as cursor:
        connection.autocommit = True
        for question, answer in zip(questions, wanted):
            came = postgres_answer(cursor, question)
            if came != answer:
                found.append((question, came, answer))
    return found


def kinds(questions: list[str], room: Room) -> list[str]:
    """Which kinds of answers the questions have."""
    return ["/".join(record[0] for record in answer[:2]) for answer in desk_answers(room, questions)]


def of_a_seed(seed: int, cluster: Cluster, room: Room) -> Iterator[Outcome]:
    """A desk, questions to it, more messages, and questions again."""
    maker, asked = Maker(seed), []
    room.write("rules.toml", RULES.encode())
    database = cluster.make_database(f"seed_{seed}")
    room.run("--db", DATABASE, "batch", given=agreements().encode())
    for step in range(2):
        room.run("--db", DATABASE, "batch", given=maker.messages(MESSAGES).encode())
        came = follow(room, database, "--rules", "rules.toml")
        yield Outcome(f"seed {seed}: followed, {step}", (came.status, in_postgres(database)), (0, in_file(room)))
        questions = [*EDGES, *(maker.question() for _ in range(QUESTIONS // 2))]
        found = differences(room, database, questions)
        yield Outcome(f"seed {seed}: answers, {step}", (found[:2], len(found)), ([], 0))
        asked += kinds(questions, room)
    if seed == 0:
        wanted_kinds = {
            "price/offer",
            "price",
            "choice",
            "calendar/offer",
            "calendar",
            "gaps",
            "gaps/missing",
            "refused",
        }
        yield Outcome("the kinds of answers", wanted_kinds - {*asked}, set())


GROUPS = [(f"questions: seed {seed}", partial(of_a_seed, seed)) for seed in range(DESKS)]
