#!/usr/bin/env python3
"""Each call of the system in turn, failing or doing less than was asked, in the built program.

Usage: lab/calls.py [PROGRAM]      (by default crates/p6bench/out/p6bench, made by `rt run` there or by `rt ci`)

A small library that is loaded before the C library counts the calls of each kind, and has the N-th fail (as a broken disk, as a full one, as one
that was interrupted) or, of reading and writing, move one byte alone; or every one of them. What must hold: a status that the documents have, with its
line; with status 0 (and 1, 10, 11) standard output and the dump are whole; with 5 nothing was written and there is no dump; with 6 standard output has
a first part of its text; with 7 the log is whole and the dump has a first part of its text; what moves one byte at a time changes nothing. Prints a
line a form, and then each answer that is none of these. Needs a C compiler, as cc.
"""

import collections
import errno
import os
import subprocess
import sys
import tempfile

sys.dont_write_bytecode = True
from common import TOP, built_program

LIBRARY = r"""
#define _GNU_SOURCE
#include <dlfcn.h>
#include <errno.h>
#include <fcntl.h>
#include <stdarg.h>
#include <stdio.h>
#include <stdlib.h>
#include <string.h>
#include <sys/stat.h>
#include <unistd.h>

/* The kind of call that is counted, which one of them is meant (0: every one), and the error that it has (0: it moves one byte). */
static const char *kind;
static long calls, meant;
static int error;

#define PLAIN(name) ((__typeof__(name) *)dlsym(RTLD_NEXT, #name))

__attribute__((constructor)) static void begin(void) {
    kind = getenv("KIND");
    meant = atol(getenv("MEANT"));
    error = atoi(getenv("ERROR"));
    calls = 0;
}

static int is_meant(const char *name) {
    return kind && strcmp(kind, name) == 0 && (++calls == meant || meant == 0);
}

#define FAIL_IF_MEANT(name) if (is_meant(name)) { errno = error; return -1; }

ssize_t read(int file, void *at, size_t n) {
    if (!is_meant("read"))
        return PLAIN(read)(file, at, n);
    if (!error)
        return PLAIN(read)(file, at, n > 1 ? 1 : n);
    errno = error;
    return -1;
}

ssize_t write(int file, const void *at, size_t n) {
    if (!is_meant("write"))
        return PLAIN(write)(file, at, n);
    if (!error)
        return PLAIN(write)(file, at, n > 1 ? 1 : n);
    errno = error;
    return -1;
}

int open(const char *name, int flags, ...) {
    va_list more;
    va_start(more, flags);
    int mode = flags & O_CREAT ? va_arg(more, int) : 0;
    va_end(more);
    FAIL_IF_MEANT("open")
    return PLAIN(open)(name, flags, mode);
}

int close(int file) {
    if (is_meant("close")) {
        PLAIN(close)(file);
        errno = error;
        return -1;
    }
    return PLAIN(close)(file);
}

int ftruncate(int file, off_t length) {
    FAIL_IF_MEANT("ftruncate")
    return PLAIN(ftruncate)(file, length);
}

int statx(int folder, const char *restrict name, int flags, unsigned mask, struct statx *restrict to) {
    FAIL_IF_MEANT("statx")
    return PLAIN(statx)(folder, name, flags, mask, to);
}

__attribute__((destructor)) static void end(void) {
    char text[32];
    long count = calls;
    kind = 0;
    int file = open(getenv("COUNTED"), O_WRONLY | O_CREAT | O_TRUNC, 0600);
    if (PLAIN(write)(file, text, snprintf(text, sizeof text, "%ld", count)) < 0)
        _exit(99);
    close(file);
}
"""

ERRORS = {"read": (errno.EIO, errno.EINTR, 0), "write": (errno.EIO, errno.ENOSPC, errno.EPIPE, errno.EINTR, 0), "open": (errno.EACCES, errno.EINTR),
          "close": (errno.EIO,), "ftruncate": (errno.EIO,), "statx": (errno.EACCES,)}
LINES = {5: b"read fault\n", 6: b"write fault\n", 7: b"dump fault\n"}
OLD = b"what the dump held before\n"


def forms():
    runs = [os.path.join(TOP, "crates/rows_benches/data", name + ".bench") for name in ("dirty_victim_written_back", "mixed_05")]
    dumps = [os.path.join(TOP, name) for name in ("crates/p6bench/data/first.vcd", "crates/rows_texts/data/scopes.vcd", "examples/first.bench")]
    calls = [["run", run, *dump] for run in runs for dump in ((), ("DUMP",), ("/dev/stdout",))] + [["gen", "7", "2", "8"]]
    return calls + [[verb, dump, *words] for dump in dumps for verb, words in (("check", ()), ("audit", ()), ("show", ()), ("find", ("ADS/HITM",)), ("wave", ("0", "63")))]


def answered(program, library, words, kind, meant, error, folder):
    """Status, standard output, standard error and the dump, and how many calls of this kind there were. The dump's file holds something before."""
    dump, count, out = (os.path.join(folder, name) for name in ("dump.vcd", "count", "out"))
    with open(dump, "wb") as file:
        file.write(OLD)
    env = {"LD_PRELOAD": library, "KIND": kind, "MEANT": str(meant), "ERROR": str(error), "COUNTED": count}
    with open(out, "wb") as file:
        done = subprocess.run([program, *[dump if word == "DUMP" else word for word in words]], env=env, stdout=file, stderr=subprocess.PIPE, timeout=60)
    texts = []
    for name in (out, dump):
        with open(name, "rb") as file:
            texts.append(file.read())
    with open(count) as file:
        return (done.returncode, texts[0], done.stderr, texts[1]), int(file.read())


def is_right(answer, whole, kind, error):
    (status, out, line, dump), (good, all_out, good_line, all_dump) = answer, whole
    if answer == whole:
        return True
    if (kind, error) in (("read", 0), ("write", 0)):
        return False
    if status == good:  # the line on standard error was not written
        return kind == "write" and (out, dump) == (all_out, all_dump) and good_line.startswith(line)
    if status not in LINES or (line != LINES[status] and (kind != "write" or line)):
        return False
    if status == 5:
        return out == b"" and dump == OLD
    if status == 6:
        return all_out.startswith(out) and out != all_out and dump == OLD
    return all_out.startswith(out) and out.endswith(b"\n") and b"end clocks=" in out and (dump == OLD or all_dump.startswith(dump))


def tried(program, library, words, kind, error, folder):
    """Tries each call of a kind in turn, and then all of them; prints a line, and answers whether all was right."""
    whole, _ = answered(program, library, words, kind, -1, error, folder)
    total = answered(program, library, words, kind, -1, error, folder)[1]
    counts, odd = collections.Counter(), []
    for number in range(0 if error != errno.EINTR else 1, total + 1):  # one that is interrupted is made again, so not all of them
        answer, _ = answered(program, library, words, kind, number, error, folder)
        counts[answer[0]] += 1
        if not is_right(answer, whole, kind, error):
            odd.append((number, answer))
    name = " ".join(os.path.basename(word) for word in words)
    answers = ", ".join(f"{count} of status {status}" for status, count in sorted(counts.items()))
    print(f"{name}, {kind} {errno.errorcode.get(error, 'of one byte')}: {total} calls: {answers}; {len(odd)} odd", flush=True)
    for number, (status, out, line, dump) in odd:
        print(f"  {number}: status {status}, {out[-60:]!r}, {line!r}, the dump {dump[-60:]!r}")
    return not odd


def main():
    program = built_program(sys.argv[1] if len(sys.argv) > 1 else None)
    with tempfile.TemporaryDirectory() as folder:
        source, library = os.path.join(folder, "calls.c"), os.path.join(folder, "calls.so")
        with open(source, "w") as file:
            file.write(LIBRARY)
        subprocess.run(["cc", "-O1", "-w", "-shared", "-fPIC", "-o", library, source, "-ldl"], check=True)
        right = [tried(program, library, words, kind, error, folder) for words in forms() for kind, errors in ERRORS.items() for error in errors]
    print(f"{len(right)} forms, {right.count(False)} with an odd answer")
    return 0 if all(right) else 1


if __name__ == "__main__":
    sys.exit(main())
