#!/usr/bin/env python3
"""Times filecheck on patterns, groups, regions and blocks, and LLVM's FileCheck beside it where that is installed.

    benches/patterns.py [--mib N] [--rounds N] [--only WORD] [--processor] [PROGRAM]

PROGRAM is the program to time; without it, the one that ./run builds. It measures as benches/filecheck.py does.
"""
import argparse
import os
import tempfile

from filecheck import BY_PROCESSOR, MIB, built, other_programs, row, write_input


def write_generated(checks, text, count, value="[0-9]+"):
    """The check file and the input of --generate; another expression may stand for the value."""
    with open(checks, "w") as out, open(text, "w") as lines:
        for k in range(1, count + 1):
            out.write("CHECK: op 1 val [[#V:]]\n" if k == 1 else f"CHECK-NEXT: op {k} val {{{{{value}}}}}\n")
            lines.write(f"op {k} val {(k * k + 7) % 1000}\n")


def write_counted(checks, text, count, body):
    """One COUNT, and the input of --generate, in which its body stands so often."""
    write_generated(checks, text, count)
    with open(checks, "w") as out:
        out.write(f"CHECK-COUNT-{count}: {body}\n")


def write_captures(checks, text, count):
    """Lines of 550 bytes as LLVM IR has them, with three captures each, which the next line uses."""
    with open(checks, "w") as out, open(text, "w") as lines:
        for k in range(count):
            filler = "i32 noundef signext, " * 24
            out.write(f"; CHECK{'-NEXT' if k else ''}: [[A{k}:%.*]] = call [[B{k}:%.*]] @f{k}({filler}[[C{k}:%.*]])\n")
            lines.write(f"  %a{k} = call %b{k} @f{k}({filler}%c{k})\n")


def write_regex(checks, text, pattern, size):
    """An expression that is met on the last line of a large text."""
    with open(checks, "w") as out:
        out.write(f"; CHECK: {pattern}\n")
    write_input(text, size, True)


def write_group(checks, text, numbers, lines):
    """A group of DAGs, one for each number, on lines in order."""
    with open(checks, "w") as out:
        out.writelines(f"CHECK-DAG: op {k};\n" for k in numbers)
    with open(text, "w") as out:
        out.writelines(f"op {k};\n" for k in lines)


def write_blocks(checks, text, count):
    """Blocks by labels, each with thirty directives that define and use texts and numbers."""
    with open(checks, "w") as out, open(text, "w") as lines:
        for k in range(count):
            out.write(f"; CHECK-LABEL: function_{k}:\n")
            lines.write(f"function_{k}:\n")
            for j in range(15):
                out.write(f"; CHECK: mov [[R{j}:r[0-9]+]], #[[#N{j}:]]\n; CHECK-NEXT: add [[R{j}]], #[[#N{j}+1]]\n")
                lines.write(f"\tmov r{j}, #{k + j}\n\tadd r{j}, #{k + j + 1}\n")


def write_variables(checks, text, count):
    """Text variables, each of which is defined once and then, behind all definitions, used once."""
    with open(checks, "w") as out, open(text, "w") as lines:
        for k in range(count):
            out.write(f"CHECK: mov [[V{k}:r[0-9]+]], #{k}\n")
            lines.write(f"mov r{k * 7 % 9973}, #{k}\n")
        for k in range(count):
            out.write(f"CHECK: add [[V{k}]], #{k}\n")
            lines.write(f"add r{k * 7 % 9973}, #{k}\n")


def write_nots(checks, text, bodies, size, line):
    """NOTs on all of a text of one line, again and again."""
    with open(checks, "w") as out:
        out.writelines(f"CHECK-NOT: {body}\n" for body in bodies)
    with open(text, "wb") as out:
        out.write((line.encode() + b"\n") * (size // (len(line) + 1)))


def cases(mib):
    """Title, status, and what writes the check file and the input."""
    group = range(2000)
    return [
        ("20,000 CHECK-NEXT with `{{[0-9]+}}`", 0, lambda c, t: write_generated(c, t, 20000)),
        ("20,000 CHECK-NEXT with `{{[a-z]+|[0-9]+}}`", 0, lambda c, t: write_generated(c, t, 20000, "[a-z]+|[0-9]+")),
        ("CHECK-COUNT-100000 of ` val `", 0, lambda c, t: write_counted(c, t, 100000, " val ")),
        ("CHECK-COUNT-100000 of `val {{[0-9]+}}`", 0, lambda c, t: write_counted(c, t, 100000, "val {{[0-9]+}}")),
        ("CHECK-COUNT-100000 of `val {{[a-z]+|[0-9]+}}`", 0,
         lambda c, t: write_counted(c, t, 100000, "val {{[a-z]+|[0-9]+}}")),
        ("150 CHECK-NEXT of 550 bytes, three captures each", 0, lambda c, t: write_captures(c, t, 150)),
        (f"`call {{{{frame_.*needle}}}}` at the end of {mib} MiB", 0,
         lambda c, t: write_regex(c, t, "call {{frame_.*needle}}", mib * MIB)),
        (f"`{{{{[a-z]+_of_the_needle}}}}` at the end of {mib} MiB", 0,
         lambda c, t: write_regex(c, t, "{{[a-z]+_of_the_needle}}", mib * MIB)),
        ("2,000 DAGs in order", 0, lambda c, t: write_group(c, t, group, group)),
        ("2,000 DAGs in reverse", 0, lambda c, t: write_group(c, t, reversed(group), group)),
        ("2,000 DAGs, all equal", 0, lambda c, t: write_group(c, t, [7] * 2000, [7] * 2000)),
        ("200 LABEL blocks of 31 directives", 0, lambda c, t: write_blocks(c, t, 200)),
        ("2,000 text variables, each defined and used once", 0, lambda c, t: write_variables(c, t, 2000)),
        ("4,000 text variables, each defined and used once", 0, lambda c, t: write_variables(c, t, 4000)),
        ("2,000 plain NOTs on 10 MiB", 0,
         lambda c, t: write_nots(c, t, [f"call of function_{k};" for k in range(2000)], 10 * MIB, "\tcallq\thelper@PLT")),
        ("20 NOTs with `{{ }}` whose plain text is nowhere in 10 MiB", 0,
         lambda c, t: write_nots(c, t, [f"{{{{[a-z]+}}}} needle{k} {{{{[0-9]+}}}}" for k in range(20)], 10 * MIB, "\tcallq\thelper@PLT")),
        ("5 NOTs with `{{ }}` whose plain text is on every line of 10 MiB", 0,
         lambda c, t: write_nots(c, t, [f"callq {{{{[0-9]+}}}}{k}" for k in range(5)], 10 * MIB, "\tcallq\thelper@PLT")),
    ]


def main():
    wants = argparse.ArgumentParser(description="Times filecheck's patterns beside LLVM's FileCheck.")
    wants.add_argument("--mib", type=int, default=60, help="size of the large inputs (60)")
    wants.add_argument("--rounds", type=int, default=5, help="runs of a case, of which the best counts (5)")
    wants.add_argument("--only", default="", help="the cases whose title has this")
    wants.add_argument("--processor", action="store_true", help="the time of a processor in place of the wall's")
    wants.add_argument("program", nargs="?", help="the program to time")
    given = wants.parse_args()
    BY_PROCESSOR[0] = given.processor
    ours = given.program or built("filecheck")
    os.environ.pop("FILECHECK_OPTS", None)
    others = other_programs()[:1]
    titles = ["case", "ours", "memory"] + ["LLVM", "memory", "time, ours / LLVM", "memory, ours / LLVM"] * bool(others)
    print("| " + " | ".join(titles) + " |\n" + "|---" * len(titles) + "|")
    with tempfile.TemporaryDirectory() as folder:
        checks, text = os.path.join(folder, "checks"), os.path.join(folder, "text")
        commands = [[ours, checks]] + [[other, "--dump-input=never", checks] for other in others]
        for title, status, write in cases(given.mib):
            if given.only in title:
                write(checks, text)
                row(title, commands, text, status, given.rounds)


if __name__ == "__main__":
    main()
