"""Measures a run of the gate, by its parts.

    bench/weight [COMMAND..]

It runs COMMAND ('make test') and looks at the processes below it twice a second. At the end it prints their processor
time, as a multiple of that for the proofs of csv_records and onix_terms in the same run: for each crate its proof, its
must-fail edits, its tests and the builds of its program; the minutes; how many crates were kept, which weigh nothing;
and in a last line, 'weight: ..', the whole without the tests of the page and of PostgreSQL. Two runs compare if nothing
ran beside them. The status is that of COMMAND.
"""

import resource
import subprocess
import sys
import threading
import time

from bench.figures.gate import Sampler, report
from tools.root import ROOT


def copy_lines(run: subprocess.Popen[str], kept: list[str]) -> None:
    """Passes on what the run writes, and notes which results `rt ci` kept."""
    assert run.stdout
    for line in run.stdout:
        print(line, end="", flush=True)
        if line.startswith("rt: ") and " is kept: " in line:
            kept.append(line)


def weigh(command: list[str]) -> tuple[int, list[str]]:
    """Runs the command; returns its status and the lines about it."""
    began, kept = time.monotonic(), list[str]()
    run = subprocess.Popen(command, cwd=ROOT, stdout=subprocess.PIPE, text=True, errors="replace")
    sampler = Sampler(run.pid)
    copying = threading.Thread(target=copy_lines, args=(run, kept))
    copying.start()
    while run.poll() is None:
        sampler.look()
        time.sleep(0.5)
    copying.join()
    used = resource.getrusage(resource.RUSAGE_CHILDREN)
    minutes, clock = (used.ru_utime + used.ru_stime) / 60, (time.monotonic() - began) / 60
    *lines, weight = report(sampler)
    lines += [f"minutes: {minutes:.1f} of the processor, {clock:.1f} on the clock", f"kept: {len(kept)} crates"]
    return run.returncode, [*lines, weight]


def main(words: list[str]) -> int:
    if words[:1] in (["-h"], ["--help"]):
        print(__doc__)
        return 0
    status, lines = weigh(words or ["make", "test"])
    print("\n".join(lines))
    return status


if __name__ == "__main__":
    sys.exit(main(sys.argv[1:]))
