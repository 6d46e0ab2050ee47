"""The command line of desk-prices."""

import argparse
from collections.abc import Iterator
from pathlib import Path

from onixdesk_shop.copies.copying import copied
from onixdesk_shop.desk import answers_in
from onixdesk_shop.desk_files import DeskFile
from onixdesk_shop.ends import day_word, parser_of, program_of
from onixdesk_shop.faults import DONE, Failed, Fault
from onixdesk_shop.machine import Machine
from onixdesk_shop.messages import Records
from onixdesk_shop.places import DESK_JSON, PROGRAM, STATE
from onixdesk_shop.prices.form import form_of
from onixdesk_shop.prices.rows import may_be_old, questions_about, row
from onixdesk_shop.shop_json import Shop, read_shop

DESCRIPTION = """\
Writes a line for each article that a series offers into FOLDER/prices.csv: from which wholesaler the shop buys it, at
what price, and its recommended price. The earlier file stays beside it, as prices.before.csv."""

FILE, BEFORE = "prices.csv", "prices.before.csv"

ARTICLES = """\
SELECT DISTINCT id_value FROM article JOIN offer USING (series, reference)
WHERE id_type IN ('03', '15') AND length(id_value) = 13 AND id_value NOT GLOB '*[^0-9]*' ORDER BY id_value"""

# How many articles one batch asks about.
AT_ONCE = 5_000


def command_line() -> argparse.ArgumentParser:
    paths = {"settings": DESK_JSON, "rules": None, "state": STATE, "program": PROGRAM}
    parser = parser_of("desk-prices", DESCRIPTION, **paths)
    add = parser.add_argument
    add("--day", metavar="YYYYMMDD", type=day_word, help="of the prices; today without it")
    add("file", metavar="FILE", type=Path, help="the database that the desk has open")
    add("folder", metavar="FOLDER", type=Path, help="where the file is put")
    return parser


def asked(desk: DeskFile, day: str, shop: Shop, isbns: list[str]) -> Iterator[tuple[str, list[Records]]]:
    """Each article with its answers; raises Fault if one is missing or refused."""
    count = 3 if shop.recommended_type else 2
    for start in range(0, len(isbns), AT_ONCE):
        some = isbns[start : start + AT_ONCE]
        answers = list(answers_in(desk.batch("".join(questions_about(isbn, day, shop) for isbn in some))))
        for place, isbn in enumerate(some):
            found = answers[count * place : count * (place + 1)]
            if len(found) < count or any(isbn not in answer[0] for answer in found):
                raise Fault(f"the desk does not answer about {isbn}: {found[-1:]}")
            yield isbn, found


def work(machine: Machine, options: argparse.Namespace) -> int:
    shop = read_shop(machine, options.settings)
    form = form_of(shop)
    day = options.day or machine.today()
    lines, chosen = [form.head()], 0
    with copied(machine, options.file) as (copy, _):
        with machine.reading(copy) as source:
            isbns = [isbn for (isbn,) in source.execute(ARTICLES)]
            series = [name for (name,) in source.execute("SELECT name FROM series")]
        old = {name for name in series if may_be_old(machine, options.state / f"{name}.json")}
        desk = DeskFile(machine, program_of(options.program), copy, options.rules)
        for isbn, answers in asked(desk, day, shop, isbns):
            cells = row(isbn, answers, shop, old) | {"day": day}
            chosen += bool(cells["price"])
            lines.append(form.line(cells))
    if machine.exists(options.folder / FILE):
        if isbns and not chosen:
            raise Failed(f"nothing is chosen for any of {len(isbns)} articles, so the file stays as it was (PRICES.md)")
        machine.write_whole(options.folder / BEFORE, machine.read(options.folder / FILE), 0o640)
    machine.write_whole(options.folder / FILE, "".join(lines).encode(), 0o640)
    return DONE
