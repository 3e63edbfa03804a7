#!/usr/bin/env python3
"""Names of files: the dump under the names of standard output, of the bench file and of others, through the built program.

Usage: lab/names.py [PROGRAM]

A run that ends with status 0 must have lost nothing: neither its log, nor its dump, nor what a file held that was not to be
replaced. One that ends with another status must say why, and have left the whole log. Prints each case, and what was wrong.
"""

import os
import pty
import socket
import subprocess
import sys
import tempfile

sys.dont_write_bytecode = True
from common import TOP, built_program

BENCH = os.path.join(TOP, "examples/first.bench")
OLD = b"what the file held\n"
REFUSED = b"dump fault\n"


class Case:
    """One run in a folder of its own, which holds `a.bench`; `log` and `dump` are what a plain run gives."""

    def __init__(self, program, log, dump, folder):
        self.program, self.log, self.dump, self.folder = program, log, dump, folder

    def path(self, name):
        return os.path.join(self.folder, name)

    def held(self, name):
        with open(self.path(name), "rb") as file:
            return file.read()

    def put(self, name, text):
        with open(self.path(name), "wb") as file:
            file.write(text)

    def run(self, dump, bench="a.bench", out=subprocess.PIPE, **others):
        """The status, standard output where it is a pipe, and standard error."""
        words = [self.program, "run", bench, dump]
        done = subprocess.run(words, cwd=self.folder, stdout=out, stderr=subprocess.PIPE, timeout=60, **others)
        return done.returncode, done.stdout, done.stderr

    def into(self, mode, file, dump, **others):
        """The same with standard output redirected to a file, as by `>` (w) or `>>` (a)."""
        with open(self.path(file), mode + "b") as out:
            status, _, line = self.run(dump, out=out, **others)
        return status, line, self.held(file)


def standard_output(case):
    """The names of standard output: the log, then the dump, wherever it goes."""
    both = case.log + case.dump
    for name in ("/dev/stdout", "/dev/fd/1", "/proc/self/fd/1"):
        yield name + " is a pipe", case.run(name), (0, both, b"")
        yield name + " is a new file", case.into("w", "new.txt", name), (0, b"", both)
        case.put("old.txt", OLD)
        yield name + " is behind a file", case.into("a", "old.txt", name), (0, b"", OLD + both)
        yield name + " is a terminal", at_terminal(case, name), (0, both)
        yield name + " is a socket", at_socket(case, name), (0, both)
    yield "/dev/null twice", case.into("w", "/dev/null", "/dev/null"), (0, b"", b"")
    yield "no standard output", case.run("d.vcd", out=None, preexec_fn=lambda: os.close(1)), (6, None, b"write fault\n")


def same_file(case):
    """The dump under a name of the file that standard output goes to."""
    both = case.log + case.dump
    for name in ("log.txt", "./log.txt", case.path("log.txt"), "hard.txt", "soft.txt"):
        for mode, before in (("w", b""), ("a", OLD)):
            for old in ("log.txt", "hard.txt", "soft.txt"):
                if os.path.lexists(case.path(old)):
                    os.remove(case.path(old))
            case.put("log.txt", OLD)
            os.link(case.path("log.txt"), case.path("hard.txt"))
            os.symlink("log.txt", case.path("soft.txt"))
            yield "%s, standard output in mode %s" % (name, mode), case.into(mode, "log.txt", name), (0, b"", before + both)


def two_runs(case):
    """Two runs one after another in one redirection."""
    with open(case.path("two.txt"), "wb") as out:
        statuses = [case.run("/dev/stdout", out=out)[0] for _ in range(2)]
    yield "two runs to one file", (statuses, case.held("two.txt")), ([0, 0], (case.log + case.dump) * 2)


def bench_file(case):
    """The dump under a name of the bench file: refused, with the log and the bench whole."""
    bench = case.held("a.bench")
    os.link(case.path("a.bench"), case.path("hard.bench"))
    os.symlink("a.bench", case.path("soft.bench"))
    for name in ("a.bench", "./a.bench", case.path("a.bench"), "hard.bench", "soft.bench"):
        yield "the bench file as %s" % name, case.run(name) + (case.held("a.bench"),), (7, case.log, REFUSED, bench)
    for words in (("/dev/stdin", "/dev/stdin"), ("/dev/stdin", "a.bench"), ("a.bench", "/dev/stdin")):
        with open(case.path("a.bench"), "rb") as given:
            answer = case.run(words[1], bench=words[0], stdin=given)
        yield "the bench %s, the dump %s" % words, answer + (case.held("a.bench"),), (7, case.log, REFUSED, bench)
    wanted = (0, b"", bench + case.log + case.dump)
    yield "the bench file behind which the log goes", case.into("a", "a.bench", "/dev/stdout"), wanted


def others(case):
    """Other names."""
    case.put("old.vcd", OLD * 500)
    yield "a file that is longer", case.run("old.vcd") + (case.held("old.vcd"),), (0, case.log, b"", case.dump)
    yield "a new file", case.run("new.vcd") + (case.held("new.vcd"),), (0, case.log, b"", case.dump)
    for mode, before in (("w", b""), ("a", OLD)):
        case.put("third", OLD)
        with open(case.path("third"), mode + "b") as third:
            name = "/dev/fd/%d" % third.fileno()
            answer = case.run(name, pass_fds=[third.fileno()])
        yield "a descriptor in mode %s" % mode, answer + (case.held("third"),), (0, case.log, b"", before + case.dump)
    case.put("given", OLD)
    with open(case.path("given"), "rb") as given:
        answer = case.run("/dev/stdin", stdin=given)
    yield "standard input's file", answer + (case.held("given"),), (0, case.log, b"", OLD + case.dump)
    yield "a full disk", case.run("/dev/full"), (7, case.log, REFUSED)
    yield "a folder", case.run("."), (7, case.log, REFUSED)
    yield "no such folder", case.run("none/d.vcd"), (7, case.log, REFUSED)
    with open("/dev/full", "wb") as full:
        yield "standard output is full", case.run("/dev/stdout", out=full)[::2], (6, b"write fault\n")


def at_terminal(case, name):
    ours, theirs = pty.openpty()
    child = subprocess.Popen([case.program, "run", "a.bench", name], cwd=case.folder, stdout=theirs)
    os.close(theirs)
    text = b""
    while True:
        try:
            piece = os.read(ours, 65536)
        except OSError:
            break
        if not piece:
            break
        text += piece
    os.close(ours)
    return child.wait(), text.replace(b"\r\n", b"\n")


def at_socket(case, name):
    ours, theirs = socket.socketpair()
    child = subprocess.Popen([case.program, "run", "a.bench", name], cwd=case.folder, stdout=theirs)
    theirs.close()
    text = b""
    while True:
        piece = ours.recv(65536)
        if not piece:
            break
        text += piece
    ours.close()
    return child.wait(), text


def short(answer):
    return repr(tuple(part if not isinstance(part, bytes) or len(part) < 40 else "%d bytes" % len(part) for part in answer))


def main():
    program = built_program(*sys.argv[1:2])
    bad = count = 0
    with tempfile.TemporaryDirectory() as plain:
        with open(BENCH, "rb") as file:
            bench = file.read()
        first = Case(program, b"", b"", plain)
        first.put("a.bench", bench)
        status, log, _ = first.run("d.vcd")
        assert status == 0, status
        dump = first.held("d.vcd")
    for group in (standard_output, same_file, two_runs, bench_file, others):
        with tempfile.TemporaryDirectory() as folder:
            case = Case(program, log, dump, folder)
            case.put("a.bench", bench)
            for name, answer, wanted in group(case):
                count += 1
                right = answer == wanted
                bad += not right
                print("%-55s %s" % (name, "as it should be" if right else "WRONG: %s, not %s" % (short(answer), short(wanted))))
    print("%d cases, %d wrong" % (count, bad))
    sys.exit(1 if bad else 0)


if __name__ == "__main__":
    main()
