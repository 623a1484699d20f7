#!/usr/bin/env python3
"""Times filecheck, and LLVM's FileCheck beside it where that is installed.

    benches/filecheck.py [--mib N] [--rounds N] [PROGRAM]

PROGRAM is the program to time; without it, the one that ./run builds. In each round the two programs run in
alternation on the same files. Time is wall time, the best of the rounds; memory is the greatest resident set.

The second table has texts of five shapes, and beside each the floor: the time to read the file into fresh memory, to
search it once with memmem and to copy it once with memcpy, as a C program does them. Without a C compiler there is no
floor.
"""
import argparse
import glob
import os
import shutil
import subprocess
import sys
import tempfile
import threading
import time

TOP = os.path.dirname(os.path.dirname(os.path.realpath(__file__)))
MIB = 1 << 20
NEEDLE = "call frame_of_the_needle"
LINES = [
    "\t.globl\tfunction_{k}\n",
    "function_{k}:                           # @function_{k}\n",
    "\tpushq\t%rbp\n",
    "\tmovq\t%rsp, %rbp\n",
    "\tmovl\t${k}, -{k}(%rbp)\n",
    "\tcallq\thelper_{k}@PLT\n",
    "\taddl\t-{k}(%rbp), %eax\n",
    "\tpopq\t%rbp\n",
    "\tretq\n",
    "  %{k} = add nsw i32 %{k}, 1, !dbg !{k}\n",
]


# Texts of five shapes, each by the block that is repeated. What is sought stands at the end of each.
SHAPES = {
    "plain lines": "call of function {k} with value {k} and no more than that\n",
    "machine code, indented": "".join(LINES[:9]),
    "ends of lines by CRLF": "\taddl\t-{k}(%rbp), %eax\r\n\tmovq\t%rsp, %rbp\r\nfunction_{k}:\r\n",
    "LLVM IR, indented": "  %{k} = add nsw i32 %{k}, 1, !dbg !{k}\n"
    "  store i32 %{k}, i32* %{k}.addr, align 4\n  br label %for.body.{k}\n\n",
    "doubled blanks": "add  r{k},  r1,  #{k}   ; a  b  c\n",
}

# Reads a file into fresh memory, searches it once, and copies it once into memory that was touched before; prints the
# nanoseconds of each, the best of so many rounds.
FLOOR = """
#define _GNU_SOURCE
#include <fcntl.h>
#include <stdio.h>
#include <stdlib.h>
#include <string.h>
#include <sys/mman.h>
#include <sys/stat.h>
#include <time.h>
#include <unistd.h>

static double now(void) {
    struct timespec t;
    clock_gettime(CLOCK_MONOTONIC, &t);
    return t.tv_sec * 1e9 + t.tv_nsec;
}

int main(int count, char **words) {
    double best[3] = {1e18, 1e18, 1e18};
    struct stat about;
    if (count < 4 || stat(words[1], &about)) return 1;
    size_t size = about.st_size;
    char *to = malloc(size);
    memset(to, 1, size);
    for (int round = atoi(words[3]); round > 0; round--) {
        double times[4] = {now()};
        int file = open(words[1], O_RDONLY);
        char *text = mmap(NULL, size, PROT_READ | PROT_WRITE, MAP_PRIVATE | MAP_ANONYMOUS, -1, 0);
        size_t had = 0;
        ssize_t got;
        while ((got = read(file, text + had, size - had)) > 0) had += got;
        times[1] = now();
        const char *found = memmem(text, size, words[2], strlen(words[2]));
        times[2] = now();
        memcpy(to, text, size);
        times[3] = now();
        if (!found || had != size) return 1;
        for (int k = 0; k < 3; k++)
            if (times[k + 1] - times[k] < best[k]) best[k] = times[k + 1] - times[k];
        close(file);
        munmap(text, size);
    }
    printf("%f %f %f %d\\n", best[0], best[1], best[2], to[size - 1]);
    return 0;
}
"""


def write_input(path, size, with_needle):
    """Compiler-like text of `size` bytes; its last line may hold the needle."""
    last = ("\t" + NEEDLE.replace(" ", "\t", 1) + "\n" if with_needle else "").encode()
    left, k = size - len(last), 0
    with open(path, "wb") as out:
        while left > 0:
            block = "".join(LINES).replace("{k}", str(k % 100000)).encode()[:left]
            out.write(block)
            left, k = left - len(block), k + 1
        out.write(last)


def write_shape(path, size, block):
    """A text of about `size` bytes of one shape; the needle stands on its last line."""
    with open(path, "wb") as out:
        left, k = size, 0
        while left > 0:
            left, k = left - out.write(block.replace("{k}", str(k % 100000)).encode()), k + 1
        out.write(f"{NEEDLE}\n".encode())


def floor_program(folder):
    """The program that measures the floor, compiled; None where there is no C compiler."""
    compiler = shutil.which(os.environ.get("CC", "cc"))
    if compiler is None:
        return None
    source, made = os.path.join(folder, "floor.c"), os.path.join(folder, "floor")
    with open(source, "w") as out:
        out.write(FLOOR)
    subprocess.run([compiler, "-O2", "-o", made, source], check=True)
    return made


def write_many(checks, text, count):
    """As many directives as lines, each found on the next line."""
    with open(checks, "w") as out, open(text, "w") as lines:
        for k in range(count):
            out.write(f"; CHECK: op {k} value {k * k % 997}\n")
            lines.write(f"\top\t{k}\tvalue {k * k % 997}\n")


def write_next(checks, text, count):
    """A CHECK, and as many CHECK-NEXT, each for a line of plain text."""
    with open(checks, "w") as out, open(text, "w") as lines:
        for k in range(count + 1):
            out.write(f"; CHECK{'-NEXT' if k else ''}: op {k} value {k * k % 997}\n")
            lines.write(f"\top\t{k}\tvalue {k * k % 997}\n")


def write_counted(checks, text, count):
    """One directive that is met once on each of so many lines."""
    with open(checks, "w") as out, open(text, "w") as lines:
        out.write(f"; CHECK-COUNT-{count}: call puts\n")
        for k in range(count):
            lines.write(f"\tcall puts {k}\n")


def write_sparse(checks, text, count):
    """A check file of so many lines, of which each tenth is a directive."""
    with open(checks, "w") as out, open(text, "w") as lines:
        for k in range(count):
            if k % 10 == 9:
                out.write(f"; CHECK: op {k} value {k * k % 997}\n")
                lines.write(f"\top\t{k}\tvalue {k * k % 997}\n")
            else:
                out.write(f"  %{k} = add nsw i32 %{k - 1}, {k % 97} ; the check is below\n")


def write_prefixed(checks, text, prefix):
    """A check file of 100,000 lines, each a directive of one prefix behind words that begin like one."""
    with open(checks, "w") as out, open(text, "w") as lines:
        for k in range(100000):
            out.write(f"P PA {prefix}_ ; {prefix}: op {k}\n")
            lines.write(f"\top\t{k}\n")


def prefix_row(ours, at, rounds):
    """The time of ours with 1,000 prefixes and with one, on check files that differ in that one prefix alone."""
    many = ["PA" + chr(ord("A") + k // 100 % 10) + str(k) for k in range(1000)]
    write_prefixed(at("many checks"), at("many lines"), many[-1])
    words = [f"--check-prefixes={','.join(many[k:k + 100])}" for k in range(0, 1000, 100)]
    pair = [[ours, *words, "--allow-unused-prefixes", at("many checks")],
            [ours, f"--check-prefixes={many[-1]}", at("many checks")]]
    best = best_of(pair, at("many lines"), 0, rounds)
    print(f"\nA check file of 100,000 directives: {best[0] * 1000:.1f} ms with 1,000 prefixes, {best[1] * 1000:.1f} ms "
          f"with one, {best[0] / best[1]:.2f} times the time.", flush=True)


def other_programs(name="FileCheck"):
    """LLVM's program of a name, by its name or in the folder of the newest LLVM."""
    named = [shutil.which(name), shutil.which(f"{name}-14")]
    return [path for path in named + sorted(glob.glob(f"/usr/lib/llvm-*/bin/{name}"), reverse=True) if path]


def built(name):
    """The path of a program of ours, built where that is due."""
    ran = subprocess.run([os.path.join(TOP, "run"), "--build", name], stdout=subprocess.PIPE, text=True)
    if ran.returncode != 0:
        sys.exit(ran.returncode)
    return ran.stdout.strip()


# Whether a run's time is that of a processor, as where others use the machine, and not the wall's.
BY_PROCESSOR = [False]


def time_of(command, text, limit=None):
    """The time of one run in seconds, and its status. Past a limit by the wall it is ended."""
    with open(text, "rb") as source:
        begun = time.perf_counter()
        process = subprocess.Popen(command, stdin=source, stdout=subprocess.DEVNULL, stderr=subprocess.DEVNULL)
        watch = threading.Timer(limit or 0, process.kill)
        if limit:
            watch.start()
        _, status, usage = os.wait4(process.pid, 0)
        took = usage.ru_utime + usage.ru_stime if BY_PROCESSOR[0] else time.perf_counter() - begun
        watch.cancel()
    process.returncode = os.waitstatus_to_exitcode(status)
    return took, process.returncode


def run_once(command, text, status):
    """The time of one run in seconds."""
    took, ended = time_of(command, text)
    if ended != status:
        sys.exit(f"{command[0]}: status {ended} on {text}, not {status}")
    return took


def peak(command, text):
    """The greatest resident set of one run in KiB, by GNU time; None where that isn't installed."""
    if not os.path.exists("/usr/bin/time"):
        return None
    with tempfile.NamedTemporaryFile("r") as told, open(text, "rb") as source:
        subprocess.run(["/usr/bin/time", "-q", "-f", "%M", "-o", told.name] + command,
                       stdin=source, stdout=subprocess.DEVNULL, stderr=subprocess.DEVNULL)
        return int(told.read().split()[-1])


def best_of(commands, text, status, rounds):
    """The best time of each program, which run in alternation."""
    best = [float("inf")] * len(commands)
    for _ in range(rounds):
        for which, command in enumerate(commands):
            best[which] = min(best[which], run_once(command, text, status))
    return best


def shape_row(title, commands, text, floor, rounds):
    """The row of a text of one shape: nanoseconds a byte, and the ratios."""
    size = os.path.getsize(text)
    best = [seconds * 1e9 / size for seconds in best_of(commands, text, 0, rounds)]
    cells = [title, f"{best[0]:.2f}"]
    if len(commands) == 2:
        cells += [f"{best[1]:.2f}", f"{best[0] / best[1]:.2f}"]
    if floor is not None:
        told = subprocess.run([floor, text, NEEDLE, str(rounds)], stdout=subprocess.PIPE, text=True, check=True).stdout
        parts = [float(word) / size for word in told.split()[:3]]
        cells += [" + ".join(f"{part:.2f}" for part in parts), f"{best[0] / sum(parts):.2f}"]
    print("| " + " | ".join(cells) + " |", flush=True)


def row(title, commands, text, status, rounds):
    """Runs a case by all programs in alternation, and prints its row."""
    best = best_of(commands, text, status, rounds)
    memory = [peak(command, text) for command in commands]
    cells = [title]
    for seconds, kib in zip(best, memory):
        cells += [f"{seconds * 1000:.1f} ms", "?" if kib is None else f"{kib / 1024:.1f} MiB"]
    if len(commands) == 2:
        cells.append(f"{best[0] / best[1]:.2f}")
        cells.append("?" if None in memory else f"{memory[0] / memory[1]:.2f}")
    print("| " + " | ".join(cells) + " |", flush=True)


# The check files with many directives or many lines: the title of each, what writes it, and its size.
MANY = [
    ("50,000 directives on 50,000 lines", write_many, 50000),
    ("20,000 CHECK-NEXT of plain text", write_next, 20000),
    ("CHECK-COUNT-100000 on 100,000 lines", write_counted, 100000),
    ("a check file of 200,000 lines, one in ten a directive", write_sparse, 200000),
]
FIVE = ["--check-prefixes=CHECK,OTHER", "--comment-prefixes=COM,RUN", "--allow-unused-prefixes", "--strict-whitespace",
        "--allow-empty"]


def main():
    wants = argparse.ArgumentParser(description="Times filecheck beside LLVM's FileCheck.")
    wants.add_argument("--mib", type=int, default=60, help="size of the large inputs (60)")
    wants.add_argument("--rounds", type=int, default=5, help="runs of a case, of which the best counts (5)")
    wants.add_argument("program", nargs="?", help="the program to time")
    given = wants.parse_args()
    ours = given.program or built("filecheck")
    os.environ.pop("FILECHECK_OPTS", None)
    others = other_programs()[:1]
    if others:
        told = subprocess.run([others[0], "--version"], stdout=subprocess.PIPE, text=True).stdout.split("\n")
        print(f"Beside {others[0]}: " + next((line.strip() for line in told if "version" in line), "version unknown"))
        print("\n| case | ours | memory | LLVM | memory | time, ours / LLVM | memory, ours / LLVM |")
        print("|---|---|---|---|---|---|---|")
    else:
        print("LLVM's FileCheck isn't installed.\n\n| case | ours | memory |\n|---|---|---|")

    with tempfile.TemporaryDirectory() as folder:
        at = lambda name: os.path.join(folder, name)
        with open(at("checks"), "w") as out:
            out.write(f"; CHECK: {NEEDLE}\n")
        commands = lambda checks, *words: [[ours, *words, at(checks)]] + [
            [other, "--dump-input=never", *words, at(checks)] for other in others]

        write_input(at("nowhere"), given.mib * MIB, False)
        row(f"{given.mib} MiB, found nowhere", commands("checks"), at("nowhere"), 1, given.rounds)
        os.remove(at("nowhere"))
        for mib in (given.mib, given.mib // 2, given.mib // 4):
            write_input(at("end"), mib * MIB, True)
            row(f"{mib} MiB, found at the end", commands("checks"), at("end"), 0, given.rounds)
        for title, write, count in MANY:
            write(at("many checks"), at("many lines"), count)
            row(title, commands("many checks"), at("many lines"), 0, given.rounds)
        write_input(at("tiny"), 64, True)
        row("a tiny file, best of 300", commands("checks"), at("tiny"), 0, 300)
        write_shape(at("tiny"), 64, SHAPES["plain lines"])
        row("a tiny file and five options, best of 300", commands("checks", *FIVE), at("tiny"), 0, 300)

        prefix_row(ours, at, given.rounds)

        floor = floor_program(folder)
        titles = ["text, nanoseconds a byte", "ours"] + ["LLVM", "ours / LLVM"] * bool(others)
        titles += ["reading + memmem + memcpy", "ours / their sum"] * (floor is not None)
        print("\n| " + " | ".join(titles) + " |\n" + "|---" * len(titles) + "|")
        for title, block in SHAPES.items():
            write_shape(at("shape"), given.mib // 2 * MIB, block)
            shape_row(title, commands("checks"), at("shape"), floor, given.rounds)


if __name__ == "__main__":
    main()
