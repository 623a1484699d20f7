#!/usr/bin/env python3
"""Times how lit finds tests, beside LLVM's lit where it is installed.

    benches/discovery.py [--rounds N] [--lit LIT] [PROGRAM]

PROGRAM is the lit to time; without it, the one that ./run builds. LIT is LLVM's lit.py; without it, one is looked for. Wall
time, the best of the rounds; memory is the greatest resident set.

The second table is of lit alone: what 40,000 tests keep of which `--select` keeps none, so that each is made and nothing is
run. Of a test's share of the memory its six texts are taken away: its name, and the paths of its file, of that file's
directory, of the one in which it runs, of the one for its temporary files, and of these.
"""
import argparse
import glob
import os
import sys
import tempfile

from filecheck import best_of, built, peak, row

FOLDERS = 200
FILES = 100

# The suite of many tests, and how many tools, substitutions and features each of them has.
MANY = 400
TOOLS, SUBSTITUTIONS, FEATURES = 100, 50, 50

SUITE = 'version = 1\nname = "demo"\nsuffixes = [".txt"]\nexcludes = ["Inputs"]\n'

PYTHON = """import lit.formats
config.name = "demo"
config.test_format = lit.formats.ShTest()
config.suffixes = [".txt"]
config.excludes = ["Inputs"]
"""


def write(path, text):
    with open(path, "w", encoding="utf-8") as made:
        made.write(text)


def wide_suite(parts):
    """A suite with tools, substitutions and features; with parts, each eighth of its folders has some of its own."""
    lines = [f"version = {2 if parts else 1}", 'name = "demo"', 'suffixes = [".txt"]']
    lines.append("features = [" + ", ".join(f'"feature-number-{k}"' for k in range(FEATURES)) + "]")
    lines.append("substitutions = [" + ", ".join(f'["%name{k:02}", "some --option={k}"]' for k in range(SUBSTITUTIONS)) + "]")
    if parts:
        own = (f'{{path = "p{k}", features = ["part-{k}"], substitutions = [["%part", "{k}"]]}}' for k in range(8))
        lines.append("parts = [" + ", ".join(own) + "]")
    lines.append("[tools]")
    lines += [f'tool-number-{k} = "../build/bin/tool-number-{k}"' for k in range(TOOLS)]
    return "\n".join(lines) + "\n"


def many(top, name, text):
    """A suite of 40,000 tests in 400 folders, and how many bytes the six texts of one have."""
    for folder in range(MANY):
        where = os.path.join(top, name, f"p{folder // 50}", f"d{folder:03}")
        os.makedirs(where)
        for one in range(FILES):
            write(os.path.join(where, f"t{one:02}.txt"), "RUN: true\n")
    write(os.path.join(top, name, "lit.suite.toml"), text)
    file = "t00.txt"
    texts = ["demo :: p0/d000/" + file, f"{where}/{file}", where, where, f"{where}/Output", f"{where}/Output/{file}.tmp"]
    return sum(len(text) for text in texts)


def kept(ours, top, rounds):
    """Prints what tests keep: of a suite that has nothing, of one that has much, and of one whose parts have some too."""
    print(f"\n| {MANY * FILES:,} tests | time | memory | bytes a test | its texts | beside them |\n|---|---|---|---|---|---|")
    for name, title, text in [
        ("bare", "a suite of suffixes alone", SUITE),
        ("wide", f"{TOOLS} tools, {SUBSTITUTIONS} substitutions, {FEATURES} features", wide_suite(False)),
        ("parts", "the same, with a feature and a substitution more by eight parts", wide_suite(True)),
    ]:
        texts = many(top, name, text)
        command = [ours, "--select=no test has this", name]
        [seconds] = best_of([command], os.devnull, 2, rounds)
        kib = peak(command, os.devnull)
        cells = [title, f"{seconds * 1000:.1f} ms"]
        if kib is None:
            cells += ["?"] * 4
        else:
            each = kib * 1024 // (MANY * FILES)
            cells += [f"{kib / 1024:.1f} MiB", f"{each:,}", f"{texts}", f"{each - texts:,}"]
        print("| " + " | ".join(cells) + " |", flush=True)


def tree(top):
    """Two trees of 20,000 tests in 200 folders: one for each lit."""
    for name, file, text in [("ours", "lit.suite.toml", SUITE), ("llvm", "lit.cfg", PYTHON)]:
        for folder in range(FOLDERS):
            where = os.path.join(top, name, f"d{folder:03}")
            os.makedirs(where)
            for one in range(FILES):
                write(os.path.join(where, f"t{one:02}.txt"), "RUN: true\n")
        write(os.path.join(top, name, file), text)


def main():
    wants = argparse.ArgumentParser(description="Times how lit finds tests, beside LLVM's.")
    wants.add_argument("--rounds", type=int, default=5, help="runs, of which the best counts (5)")
    wants.add_argument("--lit", default=None, help="LLVM's lit.py")
    wants.add_argument("program", nargs="?", help="the lit to time")
    given = wants.parse_args()
    ours = os.path.abspath(given.program or built("lit"))
    found = [os.path.abspath(given.lit)] if given.lit else sorted(glob.glob("/usr/lib/llvm-*/build/utils/lit/lit.py"))[-1:]
    print("| case | ours | memory | LLVM | memory | time, ours / LLVM | memory, ours / LLVM |\n|---|---|---|---|---|---|---|")
    with tempfile.TemporaryDirectory() as top:
        tree(top)
        # As users do, each lit is run from above the tests.
        os.chdir(top)
        for case, path in [("20,000 tests in 200 folders", ""), ("one test, named directly", "d100/t50.txt")]:
            runs = [[ours, "--show-tests", os.path.join("ours", path)]]
            runs += [[sys.executable, one, "--show-tests", os.path.join("llvm", path)] for one in found]
            row(case, runs, os.devnull, 0, given.rounds)
        kept(ours, top, given.rounds)


if __name__ == "__main__":
    main()
