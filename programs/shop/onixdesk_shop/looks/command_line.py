"""The command line of onixdesk-look."""

import argparse
import sys
from pathlib import Path

from onixdesk_shop.desk_files import DeskFile
from onixdesk_shop.ends import day_word, parser_of, program_of
from onixdesk_shop.faults import DONE, FAILED, Fault
from onixdesk_shop.feeds import Refusal
from onixdesk_shop.lines import count
from onixdesk_shop.looks import page
from onixdesk_shop.looks.sample import converted, count_priced
from onixdesk_shop.machine import Machine
from onixdesk_shop.places import DESK_JSON
from onixdesk_shop.settings import words
from onixdesk_shop.shop_json import read_shop

DESCRIPTION = """\
Says what a shop has to know of a wholesaler's sample feed before it agrees on anything, and what to paste into the
agreement, the settings of the inbox and a table of terms. It neither asks nor changes a desk of the shop."""

TO_PASTE = "To paste; the last field of Agree is to be the number of the first message that the desk gets"


def command_line() -> argparse.ArgumentParser:
    beside = Path(sys.argv[0]).resolve().with_name("onixdesk")
    parser = parser_of("onixdesk-look", DESCRIPTION, like=DESK_JSON, terms=None, program=beside)
    add = parser.add_argument
    add("--day", metavar="YYYYMMDD", type=day_word, help="of the prices; today without it")
    add("--words", metavar="WORDS", type=words, default=(), help="words for onixdesk convert, as in WORDS of an inbox")
    add("file", metavar="FILE", type=Path, help="a feed, packed or not")
    return parser


def work(machine: Machine, options: argparse.Namespace) -> int:
    shop, program = read_shop(machine, options.like), program_of(options.program)
    terms = machine.read(options.terms) if options.terms else None
    if not machine.exists(options.file):
        raise Fault(f"{options.file}: there is no such file")
    with machine.scratch() as folder:
        try:
            sample = converted(machine, program, options.file, options.words, terms, folder / "work")
        except Refusal as refusal:
            machine.write(f"refused: {refusal}\n")
            return FAILED
        sample.count()
        sample.read_facts(machine, options.file)
        question = f"{options.day or machine.today()},{shop.country},{shop.currency},{shop.price_type}"
        priced = count_priced(DeskFile(machine, program, folder / "desk.db"), sample, question)
    lines = [*page.of_feed(sample), f"\nOf {count(len(sample.isbns), 'article')} {priced} have a price: {question}"]
    lines += [*page.section_of("To look at", page.remarks(sample, shop.price_type))]
    lines += [*page.section_of(TO_PASTE, page.lines_to_paste(options.file.name, sample, options.words))]
    if not terms and page.needs_terms(sample, shop.price_type):
        table = page.terms_to_paste(sample, shop.price_type)
        lines += [*page.section_of("A table for TERMS, once each percent is written", table.splitlines())]
    machine.write("".join(f"{line}\n" for line in lines))
    return FAILED if sample.said.wrong else DONE
