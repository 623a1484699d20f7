#!/usr/bin/env python3
"""Times reports in JSON: what they cost a run of lit, and how long lit_changes takes for two of them.

    benches/reports.py [--tests N] [--rounds N] [--programs FOLDER]

The suite has 40,000 tests by default, which no command runs for, since they require what isn't there. In each round the commands
of a row run in alternation. Time is wall time, the best of the rounds; memory is the greatest resident set. What the report in JSON
costs is the time and the memory of its run less those of a run with -q. The two reports that are compared differ in each tenth test; beside
lit_changes stands Python, which reads both and does no more. The programs are those that ./run builds, or with --programs those in a folder.
"""
import argparse
import json
import os
import subprocess
import sys
import tempfile
import time

TOP = os.path.dirname(os.path.dirname(os.path.realpath(__file__)))
NAME = "lib/target/backend/lowering/vector/shuffle-of-{:05}.txt"
READ = "import json, sys; [json.load(open(it, encoding='utf-8')) for it in sys.argv[1:]]"


def run_once(command, out, status):
    """The time of one run in seconds, and its greatest resident set in MiB."""
    with open(out, "wb") as it:
        begun = time.perf_counter()
        process = subprocess.Popen(command, stdin=subprocess.DEVNULL, stdout=it)
        _, ended, usage = os.wait4(process.pid, 0)
        took = time.perf_counter() - begun
    process.returncode = os.waitstatus_to_exitcode(ended)
    if process.returncode != status:
        sys.exit(f"{command}: status {process.returncode}, not {status}")
    return took, usage.ru_maxrss / 1024


def best_of(commands, out, statuses, rounds):
    """The best time and the memory of each command."""
    best = [(float("inf"), 0.0)] * len(commands)
    for _ in range(rounds):
        for which, (command, status) in enumerate(zip(commands, statuses)):
            took, memory = run_once(command, f"{out}.{which}", status)
            best[which] = min(best[which][0], took), max(best[which][1], memory)
    return best


def shown(title, best, due):
    cells = [title] + [cell for seconds, memory in best for cell in (f"{seconds * 1000:.0f} ms", f"{memory:.0f} MiB")]
    print("| " + " | ".join(cells + [due]) + " |", flush=True)


def write_suite(folder, tests):
    os.makedirs(f"{folder}/{os.path.dirname(NAME)}")
    with open(f"{folder}/lit.suite.toml", "w", encoding="utf-8") as it:
        it.write('version = 1\nname = "bench"\nsuffixes = [".txt"]\n')
    for number in range(tests):
        with open(f"{folder}/{NAME.format(number)}", "w", encoding="utf-8") as it:
            it.write("RUN: true\nREQUIRES: nothing-has-it\n")


def write_report(path, tests, step):
    """A report of so many tests, of which each of a step failed."""
    entries = [{"name": f"bench :: {NAME.format(number)}", "path": f"/work/bench/{NAME.format(number)}",
                "result": "FAIL" if step and number % step == 0 else "PASS"} for number in range(tests)]
    results = [entry["result"] for entry in entries]
    counts = {result: results.count(result) for result in sorted(set(results))}
    with open(path, "w", encoding="utf-8") as it:
        it.write(json.dumps({"counts": counts, "tests": entries, "version": 1}, separators=(",", ":")) + "\n")


def programs(folder):
    names = ["lit", "lit_changes"]
    if folder:
        return [os.path.join(os.path.abspath(folder), name) for name in names]
    built = subprocess.run([f"{TOP}/run", "--build", *names], stdout=subprocess.PIPE, text=True, check=True)
    return built.stdout.split()


def main():
    words = argparse.ArgumentParser(usage=__doc__.split("\n\n")[1].strip())
    words.add_argument("--tests", type=int, default=40_000)
    words.add_argument("--rounds", type=int, default=5)
    words.add_argument("--programs")
    asked = words.parse_args()
    lit, lit_changes = programs(asked.programs)
    with tempfile.TemporaryDirectory() as room:
        write_suite(f"{room}/s", asked.tests)
        print("| case | one | memory | other | memory | due |\n|---|---|---|---|---|---|")
        best = best_of([[lit, "--json", f"{room}/s"], [lit, "-q", f"{room}/s"]], f"{room}/out", (0, 0), asked.rounds)
        shown(f"lit --json over {asked.tests} tests, and lit -q", best, "")
        (seconds, memory), (plain, least) = best
        print(f"The report in JSON costs {(seconds - plain) * 1000:.0f} ms, due are 300, and {memory - least:.0f} MiB, due are 200.", flush=True)
        for name, step in (("old", 0), ("new", 10)):
            write_report(f"{room}/{name}.json", asked.tests, step)
        pair = [f"{room}/old.json", f"{room}/new.json"]
        best = best_of([[lit_changes, *pair], [sys.executable, "-c", READ, *pair]], f"{room}/out", (1, 0), asked.rounds)
        shown("lit_changes over two reports, and Python, which reads them", best, "500 ms")


if __name__ == "__main__":
    main()
