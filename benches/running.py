#!/usr/bin/env python3
"""Times how lit runs tests, beside LLVM's lit where it is installed, and beside the floor.

    benches/running.py [--rounds N] [--lit LIT] [--tests N] [--programs FOLDER] [--only WORD] [--processor] [--ahead]

The programs are those that ./run builds, or with --programs those in a folder, under their names. LIT is LLVM's lit.py;
without it, one is looked for. It runs the same tests in its own shell, with one worker, and its own FileCheck. The floor is
a C program that starts the same commands by posix_spawn, one after the other, hands each the output of the one before, and
reads both streams to their end; without a C compiler there is none. The floor that does as much also keeps what it reads, as a report
may have to show it, and asks for the kind of each name in the test's folder. For many tests of one command there is one more C
program, which makes the very calls of the system that lit makes, in their order. Wall time, the best of the rounds, in which all run
in alternation, and of the ratio to the floor also that of the medians; with --processor it is the time of a processor, of all commands
too. With --ahead all run at a real-time priority, so that other processes don't come between; that is for the superuser. Memory is
the greatest resident set of a process. A goal is the greatest ratio that is wanted.
"""
import argparse
import glob
import os
import random
import shutil
import statistics
import subprocess
import sys
import tempfile

from filecheck import BY_PROCESSOR, MIB, built, other_programs, peak, run_once

SUITE = """version = 1
name = "demo"
suffixes = [".txt"]
excludes = ["inputs"]
[tools]
FileCheck = "{filecheck}"
"""

PYTHON = """import lit.formats
config.name = "demo"
config.test_format = lit.formats.ShTest(execute_external=False)
config.suffixes = [".txt"]
config.excludes = ["inputs"]
config.environment["PATH"] = "{path}"
"""

# The floor: `floor [as-much FOLDER] THREADS TIMES WORD .. [| WORD ..] ..` runs a pipe so many times, in as many threads, each of which takes
# the next. Where it does as much as lit, it asks for the kind of each name in the folder first, and keeps what it reads.
FLOOR = r"""
#define _GNU_SOURCE
#include <dirent.h>
#include <errno.h>
#include <fcntl.h>
#include <limits.h>
#include <poll.h>
#include <pthread.h>
#include <spawn.h>
#include <stdatomic.h>
#include <stdio.h>
#include <stdlib.h>
#include <string.h>
#include <signal.h>
#include <sys/stat.h>
#include <sys/wait.h>
#include <unistd.h>

extern char **environ;
enum { ROOM = 5 << 20, PIECE = 1 << 16 };
struct text {
    char *at;
    size_t size, room;
};
static _Thread_local struct text texts[3];
static int times, count, keeps;
static char **words;
static atomic_int next;

// Room for a text: memory of its own, where texts are kept.
static void begin(struct text *text) {
    text->size = 0;
    if (text->room && !keeps) return;
    text->room = keeps ? PIECE : ROOM;
    if (!(text->at = malloc(text->room))) exit(2);
}

// Reads once.
static ssize_t more(int from, struct text *to) {
    if (keeps && to->room - to->size < PIECE && !(to->at = realloc(to->at, to->room *= 2))) exit(2);
    ssize_t got = read(from, to->at + to->size, to->room - to->size);
    if (got > 0) to->size += got;
    return got;
}

// Runs a command with an input; its output goes to `out`.
static void stage(char **words, const char *in, size_t size, struct text *out) {
    int to[2], from[2], errors[2], status;
    if (pipe2(to, O_CLOEXEC) || pipe2(from, O_CLOEXEC) || pipe2(errors, O_CLOEXEC)) exit(2);
    posix_spawn_file_actions_t actions;
    posix_spawn_file_actions_init(&actions);
    posix_spawn_file_actions_adddup2(&actions, to[0], 0);
    posix_spawn_file_actions_adddup2(&actions, from[1], 1);
    posix_spawn_file_actions_adddup2(&actions, errors[1], 2);
    pid_t child;
    if (posix_spawnp(&child, words[0], &actions, NULL, words, environ)) exit(2);
    posix_spawn_file_actions_destroy(&actions);
    close(to[0]), close(from[1]), close(errors[1]);
    fcntl(to[1], F_SETFL, O_NONBLOCK);
    size_t fed = 0;
    begin(out), begin(&texts[2]);
    struct pollfd polled[3] = {{to[1], POLLOUT, 0}, {from[0], POLLIN, 0}, {errors[0], POLLIN, 0}};
    if (size == 0) close(to[1]), polled[0].fd = -1;
    while (polled[1].fd >= 0 || polled[2].fd >= 0) {
        poll(polled, 3, -1);
        if (polled[0].fd >= 0 && polled[0].revents) {
            ssize_t wrote = write(to[1], in + fed, size - fed);
            if (wrote > 0) fed += wrote;
            if (wrote < 0 || fed == size) close(to[1]), polled[0].fd = -1;
        }
        for (int stream = 1; stream < 3; stream++) {
            if (polled[stream].fd < 0 || !polled[stream].revents) continue;
            if (more(polled[stream].fd, stream == 1 ? out : &texts[2]) <= 0) close(polled[stream].fd), polled[stream].fd = -1;
        }
    }
    if (polled[0].fd >= 0) close(to[1]);
    if (waitpid(child, &status, 0) != child || status != 0) exit(1);
}

static void *work(void *unused) {
    while (atomic_fetch_add(&next, 1) < times) {
        const char *had = NULL;
        size_t size = 0;
        int which = 0;
        for (int at = 0; at < count;) {
            char *command[32] = {0};
            for (int word = 0; at < count && strcmp(words[at], "|") != 0 && word < 31; word++) command[word] = words[at++];
            at++;
            stage(command, had, size, &texts[which]);
            had = texts[which].at, size = texts[which].size;
            which = 1 - which;
        }
    }
    return unused;
}

// Asks for the kind of each name in a folder.
static void list(const char *folder) {
    DIR *opened = opendir(folder);
    struct dirent *entry;
    struct stat found;
    if (!opened) exit(2);
    while ((entry = readdir(opened)))
        if (fstatat(dirfd(opened), entry->d_name, &found, AT_SYMLINK_NOFOLLOW)) exit(2);
    closedir(opened);
}

// Asks what stands at a path; there may be nothing.
static void look(int at, const char *path, int how) {
    struct statx found;
    if (statx(at, path, how, STATX_ALL, &found) && errno != ENOENT) exit(2);
}

// Starts a program of the path, and has what it writes read by 256 bytes.
static void start(const char *folder, char *name) {
    int to[2], from[2], errors[2], status;
    char *command[] = {name, NULL}, at[PATH_MAX], piece[256];
    struct statx found;
    if (pipe2(to, O_CLOEXEC) || pipe2(from, O_CLOEXEC) || pipe2(errors, O_CLOEXEC)) exit(2);
    look(AT_FDCWD, folder, 0);
    for (const char *path = getenv("PATH");; path = strchrnul(path, ':') + 1) {
        snprintf(at, sizeof at, "%.*s/%s", (int)(strchrnul(path, ':') - path), path, name);
        if (!statx(AT_FDCWD, at, 0, STATX_ALL, &found)) break;
        if (!*strchrnul(path, ':')) exit(2);
    }
    posix_spawn_file_actions_t actions;
    posix_spawnattr_t manner;
    sigset_t signals;
    posix_spawn_file_actions_init(&actions), posix_spawnattr_init(&manner), sigemptyset(&signals);
    posix_spawn_file_actions_adddup2(&actions, to[0], 0);
    posix_spawn_file_actions_adddup2(&actions, from[1], 1);
    posix_spawn_file_actions_adddup2(&actions, errors[1], 2);
    posix_spawn_file_actions_addchdir_np(&actions, folder);
    posix_spawn_file_actions_addclosefrom_np(&actions, 3);
    posix_spawnattr_setsigmask(&manner, &signals), sigaddset(&signals, SIGPIPE), posix_spawnattr_setsigdefault(&manner, &signals);
    posix_spawnattr_setflags(&manner, POSIX_SPAWN_SETSIGDEF | POSIX_SPAWN_SETSIGMASK);
    pid_t child;
    if (posix_spawn(&child, at, &actions, &manner, command, environ)) exit(2);
    posix_spawn_file_actions_destroy(&actions);
    close(to[0]), close(from[1]), close(errors[1]), close(to[1]);
    struct pollfd polled[2] = {{from[0], POLLIN, 0}, {errors[0], POLLIN, 0}};
    poll(polled, 2, -1);
    while (read(errors[0], piece, sizeof piece) > 0) {}
    close(errors[0]);
    while (read(from[0], piece, sizeof piece) > 0) {}
    close(from[0]);
    if (waitpid(child, &status, 0) != child || status != 0) exit(1);
}

// Makes lit's calls for a test: it reads the test, sees to the folder of its output, and starts its command.
static void same_calls(const char *folder, int number, char *name) {
    char path[PATH_MAX], text[4096];
    snprintf(path, sizeof path, "%s/t%04d.txt", folder, number);
    int test = open(path, O_RDONLY | O_NOCTTY | O_CLOEXEC);
    if (test < 0) exit(2);
    look(test, "", AT_EMPTY_PATH);
    while (read(test, text, sizeof text) > 0) {}
    close(test);
    snprintf(path, sizeof path, "%s/Output", folder);
    mkdir(path, 0777);
    look(AT_FDCWD, path, 0);
    start(folder, name);
}

int main(int given, char **all) {
    pthread_t others[64];
    signal(SIGPIPE, SIG_IGN);
    if (given == 5 && strcmp(all[1], "same-calls") == 0) {
        for (int number = 0; number < atoi(all[3]); number++) same_calls(all[2], number, all[4]);
        return 0;
    }
    if (given > 3 && strcmp(all[1], "as-much") == 0) keeps = 1, list(all[2]), given -= 2, all += 2;
    int threads = atoi(all[1]);
    if (threads < 1 || threads > 64) exit(2);
    times = atoi(all[2]), words = all + 3, count = given - 3;
    for (int at = 1; at < threads; at++)
        if (pthread_create(&others[at], NULL, work, NULL)) exit(2);
    work(NULL);
    for (int at = 1; at < threads; at++) pthread_join(others[at], NULL);
    return 0;
}
"""


def write(path, text):
    os.makedirs(os.path.dirname(path), exist_ok=True)
    with open(path, "w", encoding="utf-8") as made:
        made.write(text)


def checks(number):
    """A check file for a small input that a compiler might have written, and that input."""
    lines = [f"f{k}:\n\tmov r{k}, #{number + k}\n\tadd r{k}, r{k}, #1\n\tret\n" for k in range(8)]
    made = "".join(f"CHECK-LABEL: f{k}:\nCHECK: mov [[R:r[0-9]+]], #[[#N:]]\nCHECK-NEXT: add [[R]], [[R]], #1\n" for k in range(8))
    return made, "".join(lines)


def trees(top, tests, filecheck, path):
    """The same tests for both lits, in folders of their own."""
    for name, file, text in [("ours", "lit.suite.toml", SUITE.format(filecheck=filecheck)), ("llvm", "lit.cfg", PYTHON.format(path=path))]:
        at = os.path.join(top, name)
        for folder, one in [("true", "RUN: true\n"), ("alone", "RUN: true\n"), ("wide", "RUN: head -c 3900000 %S/../inputs/large\n" * 4),
                            ("piped", "RUN: head -c 2600000 %S/../inputs/large | cat | cat | wc -c\n")]:
            for number in range(tests if folder == "true" else 1):
                write(os.path.join(at, folder, f"t{number:04}.txt"), one)
        for number in range(tests // 2):
            made, given = checks(number)
            write(os.path.join(at, "checks", f"t{number:04}.txt"), f"RUN: cat %S/../inputs/i{number:04} | FileCheck %s\n" + made)
            write(os.path.join(at, "inputs", f"i{number:04}"), given)
        write(os.path.join(at, "inputs", "large"), "a line of a text that is handed on and on\n" * (4 * MIB // 42))
        write(os.path.join(at, file), text)


def floor_program(top):
    compiler = shutil.which(os.environ.get("CC", "cc"))
    if compiler is None:
        return None
    source, made = os.path.join(top, "floor.c"), os.path.join(top, "floor")
    write(source, FLOOR)
    subprocess.run([compiler, "-O2", "-pthread", "-o", made, source], check=True)
    return made


def table_row(case, goals, commands, rounds):
    """Runs a case by ours, the floor, the floor that does as much, the one that makes the same calls and LLVM's, those that there are, and
    prints its row."""
    there = [command for command in commands if command]
    # What runs before another leaves it warm or cold caches: so each round has an order of its own.
    draw = random.Random(1)
    runs = []
    for _ in range(rounds):
        took = {at: run_once(there[at], os.devnull, 0) for at in draw.sample(range(len(there)), len(there))}
        runs.append([took[at] for at in range(len(there))])
    all_times = dict(zip(map(id, there), zip(*runs)))
    memory = {id(command): peak(command, os.devnull) for command in there}
    ours, floor, much, same, llvm = [(min(all_times[id(command)]), memory[id(command)]) if command else (None, None)
                                     for command in commands]
    middle = [statistics.median(all_times[id(command)]) if command else None for command in commands]

    def ratio(one, other):
        return f"{one / other:.2f}" if one and other else "?"

    def shown(pair):
        return [f"{pair[0] * 1000:.1f} ms" if pair[0] else "?", f"{pair[1] / 1024:.1f} MiB" if pair[1] else "?"]

    cells = [case, *shown(ours), *shown(llvm), f"{ratio(ours[0], llvm[0])} (goal {goals[0]})",
             ratio(ours[1], llvm[1]) + (f" (goal {goals[1]})" if goals[1] else ""), shown(floor)[0],
             f"{ratio(ours[0], floor[0])}, medians {ratio(*middle[:2])} (goal 1.3)", shown(much)[0], ratio(ours[0], much[0]), ratio(ours[0], same[0]),
             ratio(same[0], floor[0])]
    print("| " + " | ".join(cells) + " |", flush=True)


def main():
    wants = argparse.ArgumentParser(description="Times how lit runs tests, beside LLVM's.")
    wants.add_argument("--rounds", type=int, default=5, help="runs, of which the best counts (5)")
    wants.add_argument("--tests", type=int, default=1000, help="tests of the first case, and twice those of the second (1000)")
    wants.add_argument("--lit", default=None, help="LLVM's lit.py")
    wants.add_argument("--programs", help="the folder in which lit and filecheck stand")
    wants.add_argument("--only", default="", help="the cases whose title has this")
    wants.add_argument("--processor", action="store_true", help="the time of a processor in place of the wall's")
    wants.add_argument("--ahead", action="store_true", help="at a real-time priority")
    given = wants.parse_args()
    BY_PROCESSOR[0] = given.processor
    if given.ahead:
        os.sched_setscheduler(0, os.SCHED_RR, os.sched_param(10))
    program, filecheck = [os.path.join(os.path.abspath(given.programs), name) if given.programs else built(name) for name in ("lit", "filecheck")]
    found = [os.path.abspath(given.lit)] if given.lit else sorted(glob.glob("/usr/lib/llvm-*/build/utils/lit/lit.py"))[-1:]
    others = other_programs()[:1]
    path = ":".join([os.path.dirname(os.path.realpath(one)) for one in others] + [os.environ["PATH"]])
    print("| case | ours | memory | LLVM | memory | time, ours / LLVM | memory, ours / LLVM | floor | time, ours / floor "
          "| floor that does as much | time, ours / that | time, ours / the same calls | the same calls / floor |")
    print("|---" * 13 + "|")
    with tempfile.TemporaryDirectory() as top:
        trees(top, given.tests, filecheck, path)
        os.chdir(top)
        floor = floor_program(top)

        def case(title, goals, where, times, pipe):
            if given.only not in title:
                return
            ours = [program, "-q", os.path.join("ours", where)]
            llvm = [sys.executable, found[0], "-q", "-j1", os.path.join("llvm", where)] if found else None
            least = [floor, "1", str(times), *pipe] if floor else None
            much = [floor, "as-much", os.path.join("ours", where.split(os.sep)[0]), *least[1:]] if floor else None
            same = [floor, "same-calls", os.path.join("ours", where), str(times), *pipe] if floor and where == "true" else None
            table_row(title, goals, [ours, least, much, same, llvm], given.rounds)

        large = os.path.join("ours", "inputs", "large")
        case(f"{given.tests:,} tests `RUN: true`", ("0.35", "0.25"), "true", given.tests, ["true"])
        case(f"{given.tests // 2:,} tests with a pipe into FileCheck", ("0.5", ""), "checks", given.tests // 2,
             ["cat", os.path.join("ours", "inputs", "i0000"), "|", filecheck, os.path.join("ours", "checks", "t0000.txt")])
        case(f"one test, named directly, among {given.tests:,}", ("0.1", ""), os.path.join("true", "t0007.txt"), 1, ["true"])
        case("one test, named directly, alone in its folder", ("0.1", ""), os.path.join("alone", "t0000.txt"), 1, ["true"])
        case("a test with an output of 15 MiB", ("1.0", ""), "wide", 4, ["head", "-c", "3900000", large])
        case("a test that hands 15 MiB through three pipes", ("1.0", ""), "piped", 1,
             ["head", "-c", "2600000", large, "|", "cat", "|", "cat", "|", "wc", "-c"])


if __name__ == "__main__":
    main()
