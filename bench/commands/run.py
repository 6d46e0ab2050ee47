"""Prints the figures of the program `onixdesk` as two tables, and puts the first into docs/BENCHMARKS.md.

    bench/run [--desk PROGRAM] [--small]

Without a PROGRAM it measures the proved one, which tools/build builds if a source has changed; only then it changes the
page. Its files are in the folder for temporary files. It reports on standard error what it could not measure, with
status 1. --small divides all sizes by five hundred, to try this command; it measures nothing.
"""

import argparse
import re
import subprocess
import sys
import tempfile
from collections.abc import Callable, Iterator
from datetime import date
from pathlib import Path

from bench.figures import growth, ratios
from bench.figures.ratios import Bench
from bench.figures.runs import BenchmarkFault
from tools.root import ROOT

PAGE = ROOT / "docs/BENCHMARKS.md"


def print_table(
    bench: Bench, head: str, *parts: Callable[[Bench], Iterator[ratios.Figure] | Iterator[growth.Size]]
) -> list[str]:
    """Prints the lines of all parts; returns them, none if some could not be measured."""
    lines = [head, "|---" * (head.count("|") - 1) + "|"]
    print(*lines, sep="\n", flush=True)
    is_whole = True
    for part in parts:
        try:
            for each in part(bench):
                lines.append(each.line())
                print(lines[-1], flush=True)
        except (BenchmarkFault, subprocess.CalledProcessError) as fault:
            print(f"bench: {fault}", file=sys.stderr)
            is_whole = False
    print(flush=True)
    return lines if is_whole else []


def main() -> int:
    form = argparse.RawDescriptionHelpFormatter
    parser = argparse.ArgumentParser("bench/run", description=__doc__, formatter_class=form)
    parser.add_argument("--desk", type=Path, metavar="PROGRAM")
    parser.add_argument("--small", action="store_true")
    given = parser.parse_args()
    if not given.desk:
        subprocess.run([ROOT / "tools/build"], check=True)
    program = (given.desk or ROOT / "crates/onixdesk/out/onixdesk").resolve()
    with tempfile.TemporaryDirectory(prefix="onixdesk-") as folder:
        bench = Bench(program, Path(folder), 500 if given.small else 1)
        table = print_table(bench, "| Measure | Measured | Target |", *ratios.ALL)
        model, *others = re.findall("model name\\s*: (.*)", Path("/proc/cpuinfo").read_text()) or ["unknown"]
        told = f"One run on {date.today():%-d %B %Y}, on {1 + len(others)} processors: {model}."
        print(f"{told}\n", flush=True)
        if table and not (given.desk or given.small):
            made = "\n".join([*table, "", told])
            PAGE.write_text(re.sub("[|] Measure.*?\nOne run[^\n]*", lambda _: made, PAGE.read_text(), flags=re.DOTALL))
        return 0 if print_table(bench, growth.HEAD, growth.sizes) and table else 1


if __name__ == "__main__":
    sys.exit(main())
