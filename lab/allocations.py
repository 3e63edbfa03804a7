#!/usr/bin/env python3
"""Each allocation refused in turn, in the built program: every command on files of every form, on good ones and on refused ones.

Usage: lab/allocations.py [PROGRAM]      (by default crates/p6bench/out/p6bench, made by `rt run` there or by `rt ci`)

A small library that is loaded before the C library counts the calls that ask for memory, and refuses the N-th, for N = 1, 2, ..
to the last one and two numbers past it; and again the N-th and all behind it. A refused allocation must end the call with status 8
and `out of memory` alone on standard error, with nothing on standard output and no dump; a number past the last one must change
nothing. Prints a line a form, and then each answer that is neither. Needs a C compiler, as cc.
"""

import collections
import os
import subprocess
import sys
import tempfile

sys.dont_write_bytecode = True
from common import TOP, built_program

DATA = os.path.join(TOP, "crates", "p6bench", "data")
ROWS = os.path.join(TOP, "crates", "rows_benches", "data")
TRIALS = os.path.join(TOP, "crates", "rows_trials", "data")
TEXTS = os.path.join(TOP, "crates", "rows_texts", "data")
RUNS = ("dirty_victim_written_back", "deferred_and_replied", "deferred_with_upgrades", "locked_item_retried", "upgrade_lost_and_made_again", "empty_run", "mixed_05")
REFUSED = (8, b"", b"out of memory\n", None)

LIBRARY = r"""
#define _GNU_SOURCE
#include <dlfcn.h>
#include <errno.h>
#include <fcntl.h>
#include <stdio.h>
#include <stdlib.h>
#include <unistd.h>

static long calls, refused, to_the_end;
static void *(*plain)(size_t), *(*cleared)(size_t, size_t), *(*moved)(void *, size_t), *(*aligned)(size_t, size_t);
static int (*placed)(void **, size_t, size_t);

__attribute__((constructor)) static void begin(void) {
    plain = dlsym(RTLD_NEXT, "malloc");
    cleared = dlsym(RTLD_NEXT, "calloc");
    moved = dlsym(RTLD_NEXT, "realloc");
    aligned = dlsym(RTLD_NEXT, "aligned_alloc");
    placed = dlsym(RTLD_NEXT, "posix_memalign");
    calls = 0;
    refused = atol(getenv("REFUSED"));
    to_the_end = atol(getenv("TO_THE_END"));
}

static int is_refused(void) {
    calls++;
    if (refused == 0 || calls < refused || (calls > refused && !to_the_end))
        return 0;
    errno = ENOMEM;
    return 1;
}

/* Before begin has run, memory comes from here. */
static char early[65536];
static size_t used;

static void *from_early(size_t n) {
    void *at = early + used;
    used += (n + 15) / 16 * 16;
    return used <= sizeof early ? at : NULL;
}

void *malloc(size_t n) { return !plain ? from_early(n) : is_refused() ? NULL : plain(n); }
void *calloc(size_t k, size_t n) { return !cleared ? from_early(k * n) : is_refused() ? NULL : cleared(k, n); }
void *realloc(void *at, size_t n) { return is_refused() ? NULL : moved(at, n); }
void *aligned_alloc(size_t k, size_t n) { return is_refused() ? NULL : aligned(k, n); }
int posix_memalign(void **at, size_t k, size_t n) { return is_refused() ? ENOMEM : placed(at, k, n); }

__attribute__((destructor)) static void end(void) {
    char text[32];
    int file = open(getenv("COUNTED"), O_WRONLY | O_CREAT | O_TRUNC, 0600);
    if (write(file, text, snprintf(text, sizeof text, "%ld", calls)) < 0)
        _exit(99);
    close(file);
}
"""


def written(folder, name, text):
    path = os.path.join(folder, name)
    with open(path, "wb") as file:
        file.write(text)
    return path


def forms(folder):
    """What is called, by a name: words, where DUMP stands for the name of a dump."""
    first = os.path.join(DATA, "first.bench")
    dump = os.path.join(DATA, "first.vcd")
    with open(first, "rb") as file:
        bench = file.read()
    with open(dump, "rb") as file:
        whole = file.read()
    head = whole.split(b"#5\n")[0]
    clocks = b"".join(b"#%d0\n0!\n#%d5\n1!\n" % (clock, clock) for clock in range(1, 8000))
    accesses = b"".join(b"ld 1 %x\nst 2 %x r+1\n" % (32 * line, 32 * line + 2) for line in range(150))
    many = b"p6bench 1\nagents 1\nclocks 2000\ncache 1024\nahead 1\n" + b"mem 40 07\n" * 300 + b"agent 0\n" + accesses + b"end\n"
    long = written(folder, "long.vcd", head + clocks)
    calls = {
        "run of 300 accesses with a dump": ["run", written(folder, "many.bench", many), "DUMP"],
        "run of a file that is refused": ["run", written(folder, "bad.bench", bench.replace(b"ld 1 40", b"ld 2 41")), "DUMP"],
        "run of a file that is not there": ["run", os.path.join(folder, "none"), "DUMP"],
        "gen": ["gen", "0", "4", "8"],
        "gen of 400 items": ["gen", "7", "4", "100"],
        "gen of too many agents": ["gen", "0", "5", "8"],
        "bad words": ["run", "-x"],
        "one word": ["run"],
    }
    for name in RUNS:
        calls["run of %s" % name] = ["run", os.path.join(ROWS, name + ".bench")]
        calls["run of %s with a dump" % name] = ["run", os.path.join(ROWS, name + ".bench"), "DUMP"]
    dumps = {
        "a load": dump,
        "upgrades and deferrals": os.path.join(TRIALS, "deferred_with_upgrades.vcd"),
        "other tools' variables": os.path.join(TEXTS, "scopes.vcd"),
        "190 KB": long,
        "a broken rule": written(folder, "no_ads.vcd", whole.replace(b"\n0)\n", b"\n1)\n")),
        "a foul clock": written(folder, "foul.vcd", fouled(os.path.join(TRIALS, "dirty_victim_written_back.vcd"))),
        "a fault": written(folder, "bad.vcd", head + clocks + b"x"),
    }
    for name, path in dumps.items():
        for verb, words in (("check", []), ("audit", []), ("show", []), ("find", ["ADS/RS0/<3:DRDY"]), ("wave", ["0", "63"])):
            calls["%s of %s" % (verb, name)] = [verb, path, *words]
    return calls


def fouled(path):
    """A dump whose line comes from memory at last with a 0, where 1 was written back."""
    with open(path, "rb") as file:
        start, found, rest = file.read().rpartition(b"1" * 63 + b"0 4\n")
    assert found
    return start + b"1" * 64 + b" 4\n" + rest


def answered(program, library, words, number, folder, to_the_end=False):
    """Status, standard output, standard error and dump of a call whose allocation of this number is refused, and where that is asked for all behind
    it; and their count."""
    dump, count = os.path.join(folder, "dump.vcd"), os.path.join(folder, "count")
    named = [dump if word == "DUMP" else word for word in words]
    env = {"LD_PRELOAD": library, "REFUSED": str(number), "TO_THE_END": str(int(to_the_end)), "COUNTED": count}
    done = subprocess.run([program, *named], env=env, capture_output=True, timeout=60)
    text = None
    if os.path.exists(dump):
        with open(dump, "rb") as file:
            text = file.read()
        os.remove(dump)
    with open(count) as file:
        return (done.returncode, done.stdout, done.stderr, text), int(file.read())


def tried(program, library, name, words, folder):
    """Tries a form, prints its line, and answers whether every call ended as it must."""
    whole, total = answered(program, library, words, 0, folder)
    counts, odd = collections.Counter(), []
    for number in [n for number in range(1, total + 3) for n in (number, -number)]:
        answer, _ = answered(program, library, words, abs(number), folder, number < 0)
        counts[answer[0]] += 1
        if answer != (REFUSED if abs(number) <= total else whole):
            odd.append((number, answer))
    answers = ", ".join(f"{count} of status {status}" for status, count in sorted(counts.items()))
    print(f"{name}: {total} allocations and 2 past them, each refused alone and with all behind it: {answers}; {len(odd)} odd")
    for number, (status, out, error, text) in odd:
        print(f"  {number}: status {status}, {out[:200]!r}, {error[:200]!r}, {'no dump' if text is None else len(text)}")
    return total > 0 and not odd


def main():
    program = built_program(sys.argv[1] if len(sys.argv) > 1 else None)
    with tempfile.TemporaryDirectory() as folder:
        library = os.path.join(folder, "refuse.so")
        source = written(folder, "refuse.c", LIBRARY.encode())
        subprocess.run(["cc", "-O1", "-shared", "-fPIC", "-o", library, source, "-ldl"], check=True)
        right = [tried(program, library, name, words, folder) for name, words in forms(folder).items()]
    return 0 if all(right) else 1


if __name__ == "__main__":
    sys.exit(main())
