"""Feeds with namespaces that are made to harm: `onixdesk convert` accepts each within a limit of memory."""

from collections.abc import Iterator
from functools import partial

from tests.program.feeds.convert.wanted_runs import PRODUCT
from tests.program.feeds.hostile_feeds import FRAME, Case, check
from tests.program.room import SECONDS, Group

ROOT = "urn:root"
OTHER = "urn:other"

# The most attributes of a tag, declarations of namespaces included.
MOST = 64

# An address, or a prefix, that nearly fills a tag.
LONG = "x" * 60_000

# Fewer elements within one another than allowed.
DEEP = 990


def declared(prefixes: range, address: str, form: str = "p{}") -> str:
    return "".join(f' xmlns:{form.format(number)}="{address}"' for number in prefixes)


def feed(declarations: str, *within: str, root: str = ROOT) -> Iterator[bytes]:
    """A feed whose root has the namespace without a prefix, with these declarations, and with this in it."""
    before = FRAME.before.replace("<ONIXMessage ", f'<ONIXMessage xmlns="{root}"{declarations} ')
    for text in (before, *within, FRAME.behind):
        yield text.encode()


def element(declarations: str, within: str = "") -> str:
    return f"<x{declarations}>{within}</x>"


def nested(declarations: list[str], within: str) -> Iterator[str]:
    """Elements within one another, with these declarations in turn."""
    for number in range(DEEP):
        yield f"<x{declarations[number % len(declarations)]}>"
    yield within + "</x>" * DEEP


# A few less than a tag may have, with the one without a prefix.
AS_MANY = declared(range(1, 60), ROOT)

CASES = [
    Case(
        "more prefixes of the root's namespace than a tag may declare",
        lambda: feed(AS_MANY, "\n", element(declared(range(60, 60 + MOST), ROOT)), PRODUCT.format("R1")),
        taken=["R1"],
    ),
    Case(
        "as many prefixes more at each depth",
        lambda: feed(
            AS_MANY,
            *nested([declared(range(MOST), ROOT, f"q{number}x{{}}") for number in range(DEEP)], ""),
            PRODUCT.format("R1"),
        ),
        taken=["R1"],
    ),
    Case(
        "more prefixes beside one another",
        lambda: feed(AS_MANY, *(element(declared(range(60, MOST), ROOT, f"q{number}x{{}}")) for number in range(100))),
        taken=[],
    ),
    Case(
        "many prefixes of another namespace",
        lambda: feed(AS_MANY, *nested([declared(range(60), OTHER, "q{}")], element("")), PRODUCT.format("R1")),
        taken=["R1"],
    ),
    Case(
        "prefixes that stand for something else at each depth",
        lambda: feed(
            AS_MANY,
            *nested([declared(range(1, 60), OTHER), declared(range(1, 60), ROOT)], element("")),
            PRODUCT.format("R1"),
        ),
        taken=["R1"],
    ),
    Case(
        "a namespace that is declared anew at each depth",
        lambda: feed("", *nested([f' xmlns="{OTHER}"', f' xmlns="{ROOT}"', ' xmlns=""'], ""), PRODUCT.format("R1")),
        taken=["R1"],
    ),
    Case(
        "a long address at each depth",
        lambda: feed("", *nested([f' xmlns="{LONG}"', f' xmlns="{LONG[1:]}"'], ""), PRODUCT.format("R1"), root=LONG),
        taken=["R1"],
    ),
    Case(
        "long prefixes",
        lambda: feed("", *(f'<x xmlns:{LONG}{number}="{ROOT}">' for number in range(MOST - 1)), "</x>" * (MOST - 1)),
        taken=[],
    ),
]

GROUPS = [Group(f"namespaces: {case.name}", partial(check, case, SECONDS)) for case in CASES]
