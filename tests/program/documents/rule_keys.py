"""The keys of a rule, as in the table of docs/FORMATS.md."""

import re
from collections.abc import Iterator

from tests.program.room import Room
from tests.running import Outcome
from tools.root import ROOT

ROW = re.compile(r"^\| `([a-z]+)` \| [^|]* \| (yes|no) \|$", re.MULTILINE)

# Where the page names them.
IN_PAGE = re.compile(r"(?:isRule\(\{ |, )([a-z]+)(?=[^\n]*, \.\.\.others)")


def text_of(name: str) -> str:
    return ROOT.joinpath(name).read_text(encoding="utf-8")


def keys(room: Room) -> Iterator[Outcome]:
    """The page has the keys of the table; the desk takes a rule with all of them, none without a required one, and no
    other key."""
    table = dict(ROW.findall(text_of("docs/FORMATS.md").partition("| Key of a rule |")[2].partition("\n\n")[0]))
    yield Outcome("keys of a rule: the page", set(IN_PAGE.findall(text_of("page/desk/rules.js"))), table.keys())
    rule = {"series": '"north"', "codes": '["20"]', "max": '"12.99"'}
    for left_out in ("", *table):
        text = "".join(f"{key} = {rule[key]}\n" for key in table if key != left_out)
        room.write("rules.toml", f"[[rule]]\n{text}".encode())
        status = 2 if table.get(left_out) == "yes" else 0
        came = room.run("rules", "rules.toml").status
        yield Outcome(f"keys of a rule, without one: {left_out}", came, status)
    room.write("rules.toml", b'[[rule]]\nseries = "*"\ncodes = ["20"]\nmin = "1"\n')
    yield Outcome("keys of a rule: another one", room.run("rules", "rules.toml").status, 2)
