#!/usr/bin/env python3
"""Counts what two filechecks run, an older one and a newer, on the cases of the other benches: instructions, by valgrind.

    benches/beside.py [--mib N] [--only TEXT] OLDER NEWER

So a change of the code's shape is measured whatever else the machine does: the counts are the same each time. A row is a case,
both counts in millions, and the newer by the older; cases that end with another status for one of them say so. The last line has
the greatest ratio, and how many cases are past 1.03.
"""
import argparse
import os
import re
import subprocess
import sys
import tempfile

import expressions
import patterns
from filecheck import MANY, MIB, NEEDLE, SHAPES, write_input, write_shape

MOST = 1.03


def count_of(program, words, text, limit):
    """Millions of instructions of a run, and its status; None where it takes too long."""
    command = ["valgrind", "--tool=callgrind", "--callgrind-out-file=/dev/null", program, *words]
    with open(text, "rb") as source:
        try:
            ran = subprocess.run(command, stdin=source, stdout=subprocess.DEVNULL, stderr=subprocess.PIPE, timeout=limit)
        except subprocess.TimeoutExpired:
            return None, None
    found = re.search(rb"Collected : (\d+)", ran.stderr)
    return (int(found[1]) / 1e6 if found else None), ran.returncode


def cases(folder, mib):
    """Each case: its title, the words, the text and the status that is due."""
    checks, text = os.path.join(folder, "checks"), os.path.join(folder, "text")
    with open(checks, "w") as out:
        out.write(f"; CHECK: {NEEDLE}\n")
    write_input(text, mib * MIB, False)
    yield f"{mib} MiB, found nowhere", [checks], text, 1
    write_input(text, mib * MIB, True)
    yield f"{mib} MiB, found at the end", [checks], text, 0
    for title, block in SHAPES.items():
        write_shape(text, mib * MIB, block)
        yield title, [checks], text, 0
    write_input(text, 64, True)
    yield "a tiny file", [checks], text, 0
    for title, write, count in MANY:
        write(checks, text, count)
        yield title, [checks], text, 0
    for title, status, write in patterns.cases(mib):
        write(checks, text)
        yield title, [checks], text, status
    for title, directive, status, write, _ in expressions.cases(mib):
        write(text)
        with open(checks, "w") as out:
            out.write(directive + "\n")
        yield title, [checks], text, status


def main():
    wants = argparse.ArgumentParser(description="Counts instructions of two filechecks on the cases of the benches.")
    wants.add_argument("--mib", type=int, default=1, help="size of the large inputs (1)")
    wants.add_argument("--only", default="", help="the cases whose title has this")
    wants.add_argument("--limit", type=float, default=120, help="seconds after which a run is ended (120)")
    wants.add_argument("older")
    wants.add_argument("newer")
    given = wants.parse_args()
    os.environ.pop("FILECHECK_OPTS", None)
    ratios = []
    print("| case | older | newer | newer / older |\n|---|---|---|---|")
    with tempfile.TemporaryDirectory() as folder:
        for title, words, text, status in cases(folder, given.mib):
            if given.only not in title:
                continue
            runs = [count_of(os.path.abspath(program), words, text, given.limit) for program in (given.older, given.newer)]
            cells = ["too long" if ended is None else f"{count:.1f}" if ended == status else f"status {ended}" for count, ended in runs]
            if all(ended == status for _, ended in runs):
                ratios.append(runs[1][0] / runs[0][0])
                cells.append(f"{ratios[-1]:.3f}")
            print("| " + " | ".join([title.replace("|", "\\|"), *cells]) + " |", flush=True)
    if not ratios:
        sys.exit("no case was run by both")
    print(f"{len(ratios)} cases by both: at most {max(ratios):.3f}, {sum(ratio > MOST for ratio in ratios)} past {MOST}")


if __name__ == "__main__":
    main()
