#!/usr/bin/env python3
"""Times check files that filecheck makes, and annotated inputs, beside LLVM's FileCheck where that is installed.

    benches/made.py [--mib N] [--rounds N] [--marks N] [--processor] [PROGRAM]

PROGRAM is the program to time; without it, the one that ./run builds. In each round the commands of a row run in
alternation. Time is wall time, or with --processor that of a processor, for a machine that others use; the best of the
rounds counts. Memory is the greatest resident set. Both streams go into files. Reading and writing is what `cat` takes for the input and for the check file that is made of it.
"""
import argparse
import importlib.util
import os
import subprocess
import sys
import tempfile
import time

sys.dont_write_bytecode = True
HERE = os.path.dirname(os.path.realpath(__file__))
SPEC = importlib.util.spec_from_file_location("filecheck", os.path.join(HERE, "filecheck.py"))
filecheck = importlib.util.module_from_spec(SPEC)
SPEC.loader.exec_module(filecheck)
MIB = filecheck.MIB


def run_once(folder, command, text, status):
    """The time of one run in seconds, and its greatest resident set in MiB."""
    with open(text, "rb") as source, open(os.path.join(folder, "out"), "wb") as out, open(os.path.join(folder, "err"), "wb") as err:
        begun = time.perf_counter()
        process = subprocess.Popen(command, stdin=source, stdout=out, stderr=err)
        _, ended, usage = os.wait4(process.pid, 0)
        took = usage.ru_utime + usage.ru_stime if filecheck.BY_PROCESSOR[0] else time.perf_counter() - begun
    process.returncode = os.waitstatus_to_exitcode(ended)
    if process.returncode != status:
        sys.exit(f"{command}: status {process.returncode} on {text}, not {status}")
    return took, usage.ru_maxrss / 1024


def best_of(folder, commands, text, statuses, rounds):
    """The best time and the memory of each command."""
    best = [(float("inf"), 0.0)] * len(commands)
    for _ in range(rounds):
        for which, (command, status) in enumerate(zip(commands, statuses)):
            took, memory = run_once(folder, command, text, status)
            best[which] = min(best[which][0], took), max(best[which][1], memory)
    return best


def row(title, best, due):
    """The row of a case: the times and memories of the two commands, the ratio of times, and what is due."""
    cells = [title] + [cell for seconds, memory in best for cell in (f"{seconds * 1000:.1f} ms", f"{memory:.1f} MiB")]
    print("| " + " | ".join(cells + [f"{best[0][0] / best[1][0]:.2f}", due]) + " |", flush=True)


def write_output(path, size):
    """An output of so many bytes, in lines of about 80 with a bracket here and there."""
    with open(path, "wb") as out:
        left, k = size, 0
        while left > 0:
            line = f"  %{k} = getelementptr inbounds i32, i32* %a{k % 97}, i64 {k * k % 9973} ; <{'[4 x i32]' if k % 16 == 0 else 'i32'}>\n"
            left, k = left - out.write(line.encode()[:left]), k + 1


def write_lines(path, count):
    with open(path, "w") as out:
        for k in range(count):
            out.write(f"\tmovl\t${k}, -{k % 97}(%rbp)   # {'[x]' if k % 16 == 0 else 'x'}\n" if k % 10 else "\n")


def write_faulty(path, size):
    """A text like a compiler's, with what is excluded in the middle."""
    filecheck.write_input(path, size // 2, False)
    with open(path, "ab") as out:
        out.write(b"\n\tcall excluded\n")
    filecheck.write_input(path + ".more", size // 2, True)
    with open(path, "ab") as out, open(path + ".more", "rb") as more:
        out.write(more.read())
    os.remove(path + ".more")


def write_far(path, column):
    """A line with a column, behind which so many NOTs are found."""
    with open(path, "w") as out:
        out.write("a" * (column - 1) + "b\n")


def making(ours, at, rounds):
    """10 MiB are made a check file of, and beside that are read and written; then the file is checked, of two sizes."""
    write_output(at("output"), 10 * MIB)
    run_once(at(""), [ours, "--make-checks"], at("output"), 0)
    os.rename(at("out"), at("made"))
    pair = [[ours, "--make-checks"], ["cat", "-", at("made")]]
    row("`--make-checks` of 10 MiB, beside reading and writing", best_of(at(""), pair, at("output"), [0, 0], rounds), "3")
    for count in (50_000, 100_000):
        write_lines(at("output"), count)
        run_once(at(""), [ours, "--make-checks"], at("output"), 0)
        os.rename(at("out"), at("made"))
        yield f"the check file of {count:,} lines, on its output", [ours, at("made")], at("made"), at("output"), "0.3"


def main():
    wants = argparse.ArgumentParser(description="Times check files that are made, and annotated inputs.")
    wants.add_argument("--mib", type=int, default=60, help="size of the large inputs (60)")
    wants.add_argument("--rounds", type=int, default=5, help="runs of a case, of which the best counts (5)")
    wants.add_argument("--marks", type=int, default=2000, help="how many marks stand far to the right (2000)")
    wants.add_argument("--processor", action="store_true", help="the time of a processor in place of the wall's")
    wants.add_argument("program", nargs="?", help="the program to time")
    given = wants.parse_args()
    filecheck.BY_PROCESSOR[0] = given.processor
    ours = os.path.abspath(given.program or filecheck.built("filecheck"))
    os.environ.pop("FILECHECK_OPTS", None)
    other = next(iter(filecheck.other_programs()), None)
    if other is None:
        print("LLVM's FileCheck isn't installed.")
    print("\n| case | time | memory | beside | memory | ratio | at most |\n|---|---|---|---|---|---|---|")
    with tempfile.TemporaryDirectory() as folder:
        at = lambda name: os.path.join(folder, name)
        for title, command, made, output, due in making(ours, at, given.rounds):
            if other is not None:
                pair = [command, [other, "--dump-input=never", made]]
                row(title, best_of(folder, pair, output, [0, 0], given.rounds), due)

        with open(at("not"), "w") as out:
            out.write(f"CHECK: .globl\nCHECK-NOT: call excluded\nCHECK: {filecheck.NEEDLE}\n")
        write_faulty(at("faulty"), given.mib * MIB)
        pair = [[ours, at("not"), "--dump-input=fail"], [ours, at("not")]]
        row(f"{given.mib} MiB with one fault, `fail` beside none", best_of(folder, pair, at("faulty"), [1, 1], given.rounds), "1.2")
        if other is not None:
            pair = [[ours, at("not"), "--dump-input=always"], [other, at("not"), "--dump-input=always", "--dump-input-filter=all"]]
            row(f"{given.mib} MiB with one fault, `always`", best_of(folder, pair, at("faulty"), [1, 1], given.rounds), "1")

        write_far(at("far"), 1_000_000)
        for count in (1, given.marks):
            with open(at("many"), "w") as out:
                out.write("CHECK-NOT: b\n" * count)
            pair = [[ours, at("many"), "--dump-input=fail"], [ours, at("many")]]
            row(f"{count:,} marks at column 1,000,000, beside none", best_of(folder, pair, at("far"), [1, 1], 1), "")


if __name__ == "__main__":
    main()
