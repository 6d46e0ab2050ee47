"""Processor time of a run of the gate, by its parts."""

import os
from collections import defaultdict
from pathlib import Path
from typing import TypeAlias

# A kind of part of the gate, and its crate.
Part: TypeAlias = tuple[str, str]

KINDS = ["proofs", "edits", "tests", "programs"]

# All weights are multiples of this.
BASE = [("proofs", "csv_records"), ("proofs", "onix_terms")]

ELSE = ("others", "all else")

# Tests that do not count, with all that they start, by a word of their command.
APART = {"tests.commands.page": "page", "tests/page/modules/run": "page", "tests.commands.postgres": "PostgreSQL"}


def part_named(words: list[str], folder: str) -> Part:
    """The part of the gate that a process belongs to, by its words and working folder."""
    tool = os.path.basename(words[0])
    if tool in {"clang", "ld", "lld", "ld.lld", "rattle-link"}:
        return "others", "linking"
    if tool != "rattle" or "--crate-name" not in words:
        return ELSE
    crate = words[words.index("--crate-name") + 1]
    if os.path.basename(folder).startswith("rt-edit-"):
        return "edits", crate
    if "--crate-checked" in words:
        return "programs", crate
    # A program that tests other crates does not ship.
    return "tests" if "--test" in words or crate.endswith("_tests") else "proofs", crate


class Sampler:
    """The processor seconds of all processes below one, each as last seen."""

    def __init__(self, root: int) -> None:
        self.root = str(root)
        self.found: dict[tuple[str, str], tuple[Part, float]] = {}

    def look(self) -> None:
        """Notes what the processes have used so far."""
        parents, taken, words = {}, {}, {}
        for pid in filter(str.isdigit, os.listdir("/proc")):
            try:
                fields = Path("/proc", pid, "stat").read_text().rpartition(")")[2].split()
                words[pid] = Path("/proc", pid, "cmdline").read_bytes().decode(errors="replace").split("\0")
            except OSError:
                continue
            parents[pid] = fields[1]
            taken[pid, fields[19]] = (int(fields[11]) + int(fields[12])) / os.sysconf("SC_CLK_TCK")
        for (pid, began), seconds in taken.items():
            chain = [pid]
            while chain[-1] in parents and chain[-1] != self.root:
                chain.append(parents[chain[-1]])
            if chain[-1] == self.root:
                apart = {name for it in chain for mark, name in APART.items() if mark in " ".join(words.get(it, []))}
                self.take((pid, began), seconds, words[pid], apart)

    def take(self, process: tuple[str, str], seconds: float, words: list[str], apart: set[str]) -> None:
        try:
            part = ("apart", min(apart)) if apart else part_named(words, os.readlink(f"/proc/{process[0]}/cwd"))
        except OSError:
            part = ELSE
        # A process that began as another one, or is about to end, has no words of its own.
        self.found[process] = (self.found[process][0] if part == ELSE and process in self.found else part), seconds

    def seconds(self) -> dict[Part, float]:
        sums: dict[Part, float] = defaultdict(float)
        for part, seconds in self.found.values():
            sums[part] += seconds
        return sums


def table(weights: dict[Part, float]) -> list[str]:
    """A row for each crate and for what belongs to none, the heaviest first."""
    rows: dict[str, dict[str, float]] = defaultdict(dict)
    whole: dict[str, float] = defaultdict(float)
    for (kind, name), weight in weights.items():
        rows[name][kind] = weight
        whole[kind] += weight
    lines = ["| Crate | Proof | Edits | Tests | Programs | All |", "|---" * 6 + "|"]
    for name, row in [*sorted(rows.items(), key=lambda it: -sum(it[1].values())), ("all", whole)]:
        kinds = " | ".join(f"{row[kind]:.2f}" if kind in row else "" for kind in KINDS)
        lines.append(f"| {name} | {kinds} | {sum(row.values()):.2f} |")
    return lines


def report(sampler: Sampler) -> list[str]:
    """The table, and last the total weight."""
    seconds = sampler.seconds()
    lines, weight = [], "not known"
    if all(part in seconds for part in BASE):
        base = sum(seconds[part] for part in BASE)
        weights = {part: each / base for part, each in seconds.items() if part[0] != "apart"}
        lines = table(weights)
        weight = f"{sum(weights.values()):.2f} times the proofs of csv_records and onix_terms ({base / 60:.1f} min)"
    lines += [f"left out: {name} {took / 60:.1f} min" for (kind, name), took in seconds.items() if kind == "apart"]
    return [*lines, f"weight: {weight}"]
