#!/usr/bin/env python3
"""Times filecheck on regular expressions that are nowhere, hostile, large or refer back, and LLVM's FileCheck beside it.

    benches/expressions.py [--mib N] [--rounds N] [--only WORD] [--limit SECONDS] [--processor] [PROGRAM]

PROGRAM is the program to time; without it, the one that ./run builds. Each case is one CHECK or CHECK-NOT; time is the
wall time of a whole run, reading included, the best of the rounds; with --processor it is that of a processor, for a
machine that others use. Nanoseconds a byte are those beyond a run on the same text that seeks plain text alone. A
program that takes longer than the limit is stopped, and isn't tried again. The last column tells whether ours keeps the
goal of the case.
"""
import argparse
import os
import tempfile

from filecheck import BY_PROCESSOR, MIB, SHAPES, built, other_programs, peak, time_of, write_input, write_shape

KIB = 1 << 10
# (A body has at most 65,536 bytes.)
LETTERS = "|".join("abcdefgh"[k % 8] for k in range(30000))
# What is nowhere in compiler-like text, and what has plain text that is nowhere in it.
NOWHERE = [
    "{{[a-z]+}} needle {{[0-9]+}} stands",
    "%{{[a-z0-9]+}} = addx i32 {{.*}}, 7",
    "{{^}}foo{{$}}",
    "{{.*}} needle {{.*}}, 7",
    "{{[a-z]+}} needle",
    "{{(define|declare) [^@]*@[A-Za-z0-9_.]+\\([^)]*\\)[^{]*nosuch}}",
    "[[X:%[0-9]+]] = frobnicate",
    "{{.*}} = add {{.*}} needle",
]
BRACKETS = [
    "{{[a-z]+[0-9]+[A-Z]+[0-9]+}}",
    "%{{[a-z0-9]+}} = {{[g-m]+}}",
    "{{(one|two|three)(four|five)+}}",
    "{{[[:upper:]][[:digit:]]{3}[[:upper:]]}}",
]
# An expression, its letter, and what it wants behind the letters, if it wants more. The last is larger than 100,000,
# which ours refuses.
HOSTILE = [
    ("`(a*)*b`", "(a*)*b", "a", "b"),
    ("`(x+x+)+y`", "(x+x+)+y", "x", "y"),
    ("`(a|aa|b?)*c`", "(a|aa|b?)*c", "a", "c"),
    ("`(a?){255}a{255}`", "(a?){255}a{255}b", "a", "b"),
    ("30,000 alternatives", f"({LETTERS})!", "a", "!"),
    ("`.*` thirty times", ".*" * 30 + "b", "a", "b"),
    ("`((a{100}){100}){10}`", "(((a{100}){100}){10})", "a", ""),
]


# Nine recalls of three definitions.
RECALLS = "[[A:[a-z]+]] [[B:[a-z]+]] [[C:[a-z]+]] [[A]] [[B]] [[C]] [[C]] [[B]] [[A]] [[B]] [[A]] [[C]]"
RECALLED = "foo bar baz foo bar baz baz bar foo bar foo"
# Expressions with references: a directive's body, its status, a text, and the most seconds and MiB.
REFERRING = [
    ("`[[X:x]]{{(aa?)+}}[[X]]b` in an x, 42 a and a b", "[[X:x]]{{(aa?)+}}[[X]]b", 1, "x" + "a" * 42 + "b", 0.01, 4),
    ("`[[X:x]]{{(aa?)+}}[[X]]b` in an x, 42 a, an x and a b", "[[X:x]]{{(aa?)+}}[[X]]b", 0, "x" + "a" * 42 + "xb", 0.01, 4),
    ("`[[X:a+]][[X]]b` in 2,000 a", "[[X:a+]][[X]]b", 1, "a" * 2000, 0.01, 4),
    ("`[[X:a+]][[X]]b` in 2,000 a, a blank and a b", "[[X:a+]][[X]]b", 1, "a" * 2000 + " b", 0.01, 4),
    ("`[[X:a+]][[X]]b` in 2,000 a and a b", "[[X:a+]][[X]]b", 0, "a" * 2000 + "b", 0.01, 4),
    ("`(a*)*\\1b` in 2,000 a", "{{(a*)*\\1b}}", 1, "a" * 2000, 0.05, 16),
    ("`(a*)*\\1b` in 2,000 a and a b", "{{(a*)*\\1b}}", 0, "a" * 2000 + "b", 2, 16),
    ("`(x+)(y+)\\2\\1z` in 1,000 bytes", "{{(x+)(y+)\\2\\1z}}", 0, "x" * 250 + "y" * 500 + "x" * 249 + "z", 0.05, 16),
    ("`(x+)(y+)\\2\\1z` in 1,000 bytes, nowhere", "{{(x+)(y+)\\2\\1z}}", 1, "x" * 250 + "y" * 499 + "x" * 249 + " z", 0.05, 16),
    ("nine recalls of three definitions", RECALLS, 0, RECALLED + " baz", 0.05, 16),
    ("nine recalls of three definitions, nowhere", RECALLS, 1, RECALLED + " foo", 0.05, 16),
    ("nine recalls of three `a+` in 60 a and a b", "[[A:a+]][[B:a+]][[C:a+]][[A]][[B]][[C]][[C]][[B]][[A]][[B]][[A]][[C]]b", 0,
     "a" * 60 + "b", 0.05, 16),
]
# LLVM IR in which one line alone adds to what it defines.
ADDS = "  %r{k} = add i32 %r{k}0, 1\n  store i32 %r{k}, ptr %p{k}, align 4\n  br label %for.body.{k}\n\n"
ADDED = "[[R:%[a-z0-9]+]] = add i32 [[R]], 1"


def write_text(path, text):
    with open(path, "w") as out:
        out.write(text + "\n")


def write_adds(path, is_there):
    """One MiB of LLVM IR, at the end of which a line may add to what it defines."""
    write_shape(path, MIB, ADDS)
    with open(path, "a") as out:
        out.write("  %last = add i32 %last, 1\n" if is_there else "")


def write_line(path, letter, size, end):
    """One line of letters, and what stands behind them."""
    with open(path, "w") as out:
        out.write(letter * (size - len(end)) + end + "\n")


def cases(mib):
    """Title, directive, whether it passes, what writes the text, and the most: seconds, nanoseconds a byte, a part of
    LLVM's time and MiB; None where nothing is promised."""
    lines, ir = lambda path: write_input(path, mib * MIB, False), lambda path: write_shape(path, mib * MIB, IR)
    for body in NOWHERE:
        yield f"NOT `{body}`, plain text nowhere", f"CHECK-NOT: {body}", 0, lines, (None, 1, None, None)
    for body in BRACKETS:
        yield f"NOT `{body}`", f"CHECK-NOT: {body}", 0, lines, (None, 8, 0.03, None)
        yield f"NOT `{body}`, IR", f"CHECK-NOT: {body}", 0, ir, (None, 8, 0.03, None)
    for title, ere, letter, end in HOSTILE:
        if title == HOSTILE[-1][0]:
            yield f"{title}, refused", f"CHECK: {{{{{ere}}}}}", 2, short, (1, None, None, None)
            continue
        found = lambda path, letter=letter, end=end: write_line(path, letter, 64 * KIB, end)
        other = lambda path, letter=letter: write_line(path, letter, MIB, "")
        yield f"{title} in 64 KiB", f"CHECK: {{{{{ere}}}}}", 0, found, (1, None, None, None)
        if end:
            yield f"NOT {title} in 1 MiB", f"CHECK-NOT: {{{{{ere}}}}}", 0, other, (1, None, None, None)
    span = lambda path: write_line(path, "a", 64 * KIB, "")
    yield "`(a*)(a*)(a*)` over 64 KiB", "CHECK: [[X:(a*)(a*)(a*)]]", 0, span, (1, None, None, None)
    yield "three variables over 64 KiB", "CHECK: [[X:a*]][[Y:a*]][[Z:a*]]", 0, span, (1, None, None, None)
    one = lambda path: write_shape(path, MIB, IR)
    yield "NOT `%[[R:[a-z]+]] = %[[R]]` in 1 MiB", "CHECK-NOT: %[[R:[a-z]+]] = %[[R]]", 0, one, (0.05, None, None, None)
    yield "NOT `[[R:[a-z]+]] = [[R]]x` in 1 MiB", "CHECK-NOT: [[R:[a-z]+]] = [[R]]x", 0, one, (None, None, None, None)
    yield "NOT `[[X:%.*]] .. [[X]]` in 1 MiB", "CHECK-NOT: [[X:%.*]] .. [[X]]", 0, one, (None, None, None, None)
    for title, body, status, text, seconds, mib_most in REFERRING:
        yield title, f"CHECK: {body}", status, lambda path, text=text: write_text(path, text), (seconds, None, None, mib_most)
    yield f"`{ADDED}` at the end of 1 MiB", f"CHECK: {ADDED}", 0, lambda path: write_adds(path, True), (None, None, 1, None)
    yield f"NOT `{ADDED}` in 1 MiB", f"CHECK-NOT: {ADDED}", 0, lambda path: write_adds(path, False), (None, None, 1, None)
    yield "an expression of size 98,000", "CHECK-NOT: {{((([ab]{95}c){250}){4})}}", 0, short, (0.1, None, None, 200)
    yield "16,000 sets", f"CHECK-NOT: {{{{{'[ab]' * 16000}}}}}", 0, short, (0.1, None, None, 200)


IR = SHAPES["LLVM IR, indented"]


def short(path):
    write_line(path, "a", 64, "")


def timed(command, text, status, rounds, limit):
    """The best time of a command; 'over' where it takes longer than the limit, and its status where it's another."""
    best = float("inf")
    for _ in range(rounds):
        took, ended = time_of(command, text, limit)
        if ended < 0:
            return f"over {limit:g} s"
        if ended != status:
            return f"status {ended}"
        best = min(best, took)
    return best


def shown(took):
    return took if isinstance(took, str) else f"{took * 1000:.1f} ms"


def keeps(most, took, each, part, memory):
    """Whether the figures keep what is promised; nothing where nothing is."""
    pairs = [(bound, figure) for bound, figure in zip(most, (took, each, part, memory)) if bound is not None]
    if not pairs:
        return ""
    held = all(isinstance(figure, float) and figure <= bound for bound, figure in pairs if figure is not None)
    return "yes" if held else "no"


def main():
    wants = argparse.ArgumentParser(description="Times filecheck on expressions beside LLVM's FileCheck.")
    wants.add_argument("--mib", type=int, default=60, help="size of the large inputs (60)")
    wants.add_argument("--rounds", type=int, default=3, help="runs of a case, of which the best counts (3)")
    wants.add_argument("--only", default="", help="the cases whose title has this")
    wants.add_argument("--limit", type=float, default=60, help="seconds after which a program is stopped (60)")
    wants.add_argument("--processor", action="store_true", help="the time of a processor in place of the wall's")
    wants.add_argument("program", nargs="?", help="the program to time")
    given = wants.parse_args()
    BY_PROCESSOR[0] = given.processor
    ours = given.program or built("filecheck")
    os.environ.pop("FILECHECK_OPTS", None)
    print("| case | ours | ns a byte | memory | LLVM | ours / LLVM | goal kept |\n" + "|---" * 7 + "|")
    with tempfile.TemporaryDirectory() as folder:
        checks, plain, text = (os.path.join(folder, name) for name in ["checks", "plain", "text"])
        with open(plain, "w") as out:
            out.write("CHECK-NOT: @nowhere@\n")
        for title, directive, status, write, most in cases(given.mib):
            if given.only not in title:
                continue
            write(text)
            with open(checks, "w") as out:
                out.write(directive + "\n")
            took = timed([ours, checks], text, status, given.rounds, given.limit)
            told = [timed([other, "--dump-input=never", checks], text, status, given.rounds, given.limit)
                    for other in other_programs()[:1]]
            kib = None if isinstance(took, str) else peak([ours, checks], text)
            memory = None if kib is None else kib / 1024
            number = isinstance(took, float)
            reading = timed([ours, plain], text, 0, given.rounds, given.limit)
            long = number and isinstance(reading, float) and os.path.getsize(text) >= MIB
            each = max(0.0, took - reading) * 1e9 / os.path.getsize(text) if long else None
            part = took / told[0] if number and told and isinstance(told[0], float) else None
            print("| " + " | ".join([
                title.replace("|", "\\|"), shown(took), "" if each is None else f"{each:.2f}", "?" if memory is None else f"{memory:.1f} MiB",
                shown(told[0]) if told else "not installed", "" if part is None else f"{part:.3f}",
                keeps(most, took, each, part, memory),
            ]) + " |", flush=True)


if __name__ == "__main__":
    main()
