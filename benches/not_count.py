#!/usr/bin/env python3
"""Times not and count, and LLVM's beside them where they are installed.

    benches/not_count.py [--rounds N] [--mib N] [NOT COUNT]

NOT and COUNT are the programs to time; without them, those that ./run builds. Wall time, the best of the rounds; memory is
the greatest resident set.
"""
import argparse
import os
import tempfile

from filecheck import MIB, built, other_programs, row

LINE = b"call of function with a value and no more than that\n"


def write_lines(path, size):
    """About `size` bytes of lines, and how many lines there are."""
    block = LINE * 4096
    with open(path, "wb") as out:
        for _ in range(size // len(block)):
            out.write(block)
    return size // len(block) * 4096


def main():
    wants = argparse.ArgumentParser(description="Times not and count beside LLVM's.")
    wants.add_argument("--rounds", type=int, default=5, help="runs over the large input, of which the best counts (5)")
    wants.add_argument("--mib", type=int, default=1024, help="size of the large input (1024)")
    wants.add_argument("programs", nargs="*", help="not and count")
    given = wants.parse_args()
    ours = given.programs or [built("not"), built("count")]
    inverse, count = [[program] + other_programs(name)[:1] for program, name in zip(ours, ["not", "count"])]
    print("| case | ours | memory | LLVM | memory | time, ours / LLVM | memory, ours / LLVM |\n|---|---|---|---|---|---|---|")
    with tempfile.TemporaryDirectory() as folder:
        text = os.path.join(folder, "lines")
        lines = write_lines(text, 4096 * len(LINE))
        row("`not true`, best of 300", [[program, "true"] for program in inverse], os.devnull, 1, 300)
        row("`count` on 4,096 lines, best of 300", [[program, str(lines)] for program in count], text, 0, 300)
        lines = write_lines(text, given.mib * MIB)
        row(f"`count` on {given.mib} MiB", [[program, str(lines)] for program in count], text, 0, given.rounds)


if __name__ == "__main__":
    main()
