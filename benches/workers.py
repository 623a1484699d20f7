#!/usr/bin/env python3
"""Times how lit runs tests by several workers, beside LLVM's lit where it is installed, and beside the floor.

    benches/workers.py [--rounds N] [--lit LIT] [--workers N] [--scale N] [--programs FOLDER]

Run it on an idle machine of four processors. The programs are those that ./run builds, or with --programs those in a folder, under
their names. LIT is LLVM's lit.py; without it, one is looked for (apt-get install llvm-14-tools). Both lits run the same tests with as
many workers (4), LLVM's in as many processes; memory is the greatest resident set of a process. The floor is a C program that starts
the same commands in as many threads, and reads their streams to the end; without a C compiler there is none, and no tests of a stated
time. Wall time, the best of the rounds, in which the three run in alternation. --scale 10 runs a tenth of the tests. A goal is the
greatest ratio that is wanted. Behind the first table stand: lit_in, which answers FileCheck inside; one, four and 64 workers beside each other, and a suite in which each 256th
test takes 3 s, first of its 256 or last, which tells what it costs that a round waits for its slowest test.
"""
import argparse
import glob
import os
import random
import subprocess
import sys
import tempfile

from filecheck import best_of, built, other_programs, peak
from running import PYTHON, SUITE, checks, floor_program, write

# A suite without tools: FileCheck is answered inside.
BARE = 'version = 1\nname = "bench"\nsuffixes = [".txt"]\n'

# Takes so many milliseconds of a processor.
BUSY = r"""
#include <stdlib.h>
#include <time.h>

int main(int count, char **words) {
    struct timespec now;
    long due = count > 1 ? atol(words[1]) : 0;
    do clock_gettime(CLOCK_PROCESS_CPUTIME_ID, &now);
    while (now.tv_sec * 1000 + now.tv_nsec / 1000000 < due);
    return 0;
}
"""


def busy_program(top):
    source, made = os.path.join(top, "busy.c"), os.path.join(top, "busy")
    write(source, BUSY)
    subprocess.run([os.environ.get("CC", "cc"), "-O2", "-o", made, source], check=True)
    return made


def slow(count, place):
    """Tests of which one in each 256 takes 3 s."""
    return ["RUN: sleep 3\n" if number % 256 == place else "RUN: true\n" for number in range(count)]


class Bench:
    def __init__(self, top, given):
        self.top, self.given = top, given
        self.lit, self.lit_in, self.filecheck = [os.path.join(os.path.abspath(given.programs), it) if given.programs else built(it)
                                                 for it in ("lit", "lit_in", "filecheck")]
        found = [os.path.abspath(given.lit)] if given.lit else sorted(glob.glob("/usr/lib/llvm-*/build/utils/lit/lit.py"))[-1:]
        self.other, self.floor = found[0] if found else None, floor_program(top)
        self.busy = busy_program(top) if self.floor else None
        self.path = ":".join([os.path.dirname(os.path.realpath(it)) for it in other_programs()[:1]] + [os.environ["PATH"]])
        for name, file, text in [("ours", "lit.suite.toml", SUITE.format(filecheck=self.filecheck)), ("llvm", "lit.cfg", PYTHON.format(path=self.path))]:
            write(os.path.join(top, name, file), text)

    def suite(self, folder, tests):
        """Writes tests for both."""
        for name in ("ours", "llvm"):
            for number, text in enumerate(tests):
                write(os.path.join(self.top, name, folder, f"t{number:05}.txt"), text)

    def commands(self, folder, workers, times=0, pipe=()):
        """Ours, LLVM's and the floor, those that there are, and None for others."""
        return [[self.lit, "-q", "-j", str(workers), os.path.join("ours", folder)],
                [sys.executable, self.other, "-q", f"-j{workers}", os.path.join("llvm", folder)] if self.other else None,
                [self.floor, str(workers), str(times), *pipe] if self.floor and times else None]

    def measured(self, commands):
        """The best time and the memory of each."""
        there = [it for it in commands if it]
        times = dict(zip(map(id, there), best_of(there, os.devnull, 0, self.given.rounds)))
        return [(times[id(it)], peak(it, os.devnull)) if it else (None, None) for it in commands]

    def row(self, title, goals, commands, work=None):
        """A row: the times, memory and ratios of ours, LLVM's and the floor; with the seconds of work, ours to a fair share of these."""
        ours, llvm, floor = self.measured(commands)

        def ratio(one, other, goal):
            return (f"{one / other:.2f}" if one and other else "?") + (f" (goal {goal})" if goal else "")

        def shown(pair):
            return [f"{pair[0] * 1000:.0f} ms" if pair[0] else "?", f"{pair[1] / 1024:.1f} MiB" if pair[1] else "?"]

        share = f"{ours[0] / work:.3f} (goal 1.05)" if work else ""
        cells = [title, *shown(ours), *shown(llvm), ratio(ours[0], llvm[0], goals[0]), ratio(ours[1], llvm[1], goals[1]),
                 shown(floor)[0] if commands[2] else "", ratio(ours[0], floor[0], "") if commands[2] else "", share]
        print("| " + " | ".join(cells) + " |", flush=True)

    def table(self):
        scale, workers = self.given.scale, self.given.workers
        print("| case | ours | memory | LLVM | memory | time, ours / LLVM | memory, ours / LLVM | floor | time, ours / floor | time, ours / share of the work |")
        print("|---|---|---|---|---|---|---|---|---|---|")
        many, few, wide = 1000 // scale, 500 // scale, 10000 // scale
        self.suite("true", ["RUN: true\n"] * many)
        self.row(f"{many:,} tests `RUN: true`, {workers} workers", ("0.4", ""), self.commands("true", workers, many, ["true"]))
        for number in range(few):
            _, given = checks(number)
            for name in ("ours", "llvm"):
                write(os.path.join(self.top, name, "inputs", f"i{number:05}"), given)
        self.suite("checks", [f"RUN: cat %S/../inputs/i{number:05} | FileCheck %s\n{checks(number)[0]}" for number in range(few)])
        pipe = ["cat", os.path.join("ours", "inputs", "i00000"), "|", self.filecheck, os.path.join("ours", "checks", "t00000.txt")]
        self.row(f"{few:,} tests with a pipe into FileCheck, {workers} workers", ("0.5", ""), self.commands("checks", workers, few, pipe))
        if self.busy:
            draw = random.Random(1)
            times = [draw.randrange(20, 61) for _ in range(few)]
            self.suite("busy", [f"RUN: {self.busy} {it}\n" for it in times])
            self.row(f"{few:,} tests of 20 to 60 ms of a processor, {workers} workers", ("1.02", ""), self.commands("busy", workers),
                     sum(times) / 1000 / workers)
        self.suite("wide", ["RUN: true\n"] * wide)
        self.row(f"{wide:,} tests `RUN: true`, 64 workers", ("", "0.5"), self.commands("wide", 64, wide, ["true"]))

    def inside(self):
        """FileCheck answered inside, beside lit with programs."""
        few, workers = 500 // self.given.scale, self.given.workers
        write(os.path.join(self.top, "bare", "lit.suite.toml"), BARE)
        for number in range(few):
            text, given = checks(number)
            write(os.path.join(self.top, "bare", "inputs", f"i{number:05}"), given)
            write(os.path.join(self.top, "bare", "checks", f"t{number:05}.txt"), f"RUN: cat %S/../inputs/i{number:05} | FileCheck %s\n{text}")
        ours, llvm, _ = self.commands("checks", workers)
        (inside, memory), (outside, _), (other, _) = self.measured([[self.lit_in, "-q", "-j", str(workers), os.path.join("bare", "checks")], ours, llvm])
        print(f"\n| {few:,} tests with a pipe into FileCheck, {workers} workers | lit_in | memory | lit | LLVM | lit_in / lit | lit_in / LLVM |")
        print("|---|---|---|---|---|---|---|")
        print(f"| FileCheck inside | {inside * 1000:.0f} ms | {memory / 1024:.1f} MiB | {outside * 1000:.0f} ms | {f'{other * 1000:.0f} ms' if other else '?'} "
              f"| {inside / outside:.2f} (goal 0.7) | {f'{inside / other:.2f}' if other else '?'} (goal 0.3) |", flush=True)

    def widths(self):
        """One, four and 64 workers, each beside the one before."""
        many = 1000 // self.given.scale
        print(f"\n| {many:,} tests `RUN: true` | ours | to the row above | LLVM | to the row above | floor | to the row above |")
        print("|---|---|---|---|---|---|---|")
        before = [None] * 3
        for workers in (1, 4, 64):
            now = [it[0] for it in self.measured(self.commands("true", workers, many, ["true"]))]
            cells = [f"{workers} worker{'s' if workers > 1 else ''}"]
            for one, other in zip(now, before):
                cells += [f"{one * 1000:.0f} ms" if one else "?", f"{one / other:.2f}" if one and other else ""]
            print("| " + " | ".join(cells) + " |", flush=True)
            before = now

    def rounds(self):
        """What a round costs that waits for its slowest test."""
        count, workers = 1024, self.given.workers
        print(f"\n| {count:,} tests, {workers} workers | ours | LLVM | time, ours / LLVM |\n|---|---|---|---|")
        for title, place in [("all `true`", -1), ("the first of each 256 takes 3 s", 0), ("the last of each 256 takes 3 s", 255)]:
            self.suite(f"slow{place}", slow(count, place))
            ours, llvm, _ = self.measured(self.commands(f"slow{place}", workers))
            cells = [title, f"{ours[0]:.2f} s", f"{llvm[0]:.2f} s" if llvm[0] else "?", f"{ours[0] / llvm[0]:.2f}" if llvm[0] else "?"]
            print("| " + " | ".join(cells) + " |", flush=True)


def main():
    wants = argparse.ArgumentParser(description=__doc__, formatter_class=argparse.RawDescriptionHelpFormatter)
    wants.add_argument("--rounds", type=int, default=3, help="runs, of which the best counts (3)")
    wants.add_argument("--workers", type=int, default=4, help="workers of most cases (4)")
    wants.add_argument("--scale", type=int, default=1, help="divides the numbers of tests (1)")
    wants.add_argument("--lit", default=None, help="LLVM's lit.py")
    wants.add_argument("--programs", help="the folder in which lit, lit_in and filecheck stand")
    given = wants.parse_args()
    with tempfile.TemporaryDirectory() as top:
        bench = Bench(top, given)
        os.chdir(top)
        bench.table()
        bench.inside()
        bench.widths()
        bench.rounds()


if __name__ == "__main__":
    main()
