#!/usr/bin/env python3
"""Runs the gate once, and tells what it takes of each crate.

Usage: lab/gate_times.py TIMES             runs .ci/run, writes what it took into the file TIMES, and the table into docs/proof/times.md
       lab/gate_times.py --table TIMES     writes the table from an earlier run, and runs nothing

While the gate runs, /proc is looked at every two seconds: each process of it counts for the crate that it works on, as proof, as tests (the crate is proved
once more with them) or as edits, and a compiler for the one that called it. A process that ends between two looks loses its last two seconds at most. The
gate takes up again what an earlier run on this machine passed, so a whole one is measured on a new machine, with nothing else running.
The status is that of the gate.
"""

import collections
import glob
import json
import os
import re
import resource
import subprocess
import sys
import time

from common import TOP, libraries

PAGE = os.path.join(TOP, "docs/proof/times.md")
HEADING = "| Crate | Tests | Stored runs | Edits | Seconds of a processor: proof | tests | edits |\n|---|---|---|---|---|---|---|\n"
KINDS = ("proof", "tests", "edits")
TICKS = os.sysconf("SC_CLK_TCK")


def crates():
    """The crates of crates.txt, each behind those that it stands on."""
    below = libraries()
    order = []

    def put(name):
        if name in below and name not in order:
            for need in below[name]:
                put(need)
            order.append(name)

    for name in below:
        put(name)
    return order


class Watch:
    """What was seen of the processes of the gate."""

    def __init__(self, first):
        self.first = first
        self.parents = {}
        self.works = {}
        self.seconds = {}

    def look(self):
        for pid in map(int, filter(str.isdigit, os.listdir("/proc"))):
            try:
                with open("/proc/%d/stat" % pid) as file:
                    fields = file.read().rsplit(")", 1)[1].split()
                with open("/proc/%d/cmdline" % pid, "rb") as file:
                    words = file.read().decode("utf-8", "replace").split("\0")
                place = os.readlink("/proc/%d/cwd" % pid)
            except OSError:
                continue
            key = (pid, fields[19])
            self.parents[pid] = int(fields[1])
            if self.is_of_gate(pid):
                # (one that has ended and waits to be reaped has no words any more)
                known = self.seconds.get(key, (None,))[0]
                self.works[pid] = work_of(words, place) or known or self.works.get(self.parents[pid])
                self.seconds[key] = (self.works[pid], (int(fields[11]) + int(fields[12])) / TICKS)

    def is_of_gate(self, pid):
        for _ in range(20):
            pid = self.parents.get(pid, 0)
            if pid == self.first:
                return True
        return False

    def sums(self):
        """The seconds of each crate, by kind."""
        found = collections.defaultdict(collections.Counter)
        for work, seconds in self.seconds.values():
            if work:
                found[work[0]][work[1]] += seconds
        return {crate: {kind: round(count[kind]) for kind in KINDS} for crate, count in found.items()}


def work_of(words, place):
    """The crate that a process works on and what it does there, if its words tell."""
    if "--crate-name" not in words:
        return None
    crate = words[words.index("--crate-name") + 1]
    if os.path.basename(place).startswith("rt-edit"):
        return crate, "edits"
    return crate, "tests" if "--test" in words else "proof"


def measure(times):
    """Runs the gate, and writes what it took."""
    begun = time.time()
    gate = subprocess.Popen([os.path.join(TOP, ".ci/run")], stdout=subprocess.PIPE, text=True, errors="replace")
    watch = Watch(gate.pid)
    log = os.open(times + ".log", os.O_WRONLY | os.O_CREAT | os.O_TRUNC)
    os.set_blocking(gate.stdout.fileno(), False)
    while gate.poll() is None:
        watch.look()
        drain(gate.stdout.fileno(), log)
        time.sleep(2)
    drain(gate.stdout.fileno(), log)
    used = resource.getrusage(resource.RUSAGE_CHILDREN)
    told = {"status": gate.returncode, "minutes": round((time.time() - begun) / 60, 1), "seconds": round(used.ru_utime + used.ru_stime), "crates": watch.sums()}
    with open(times, "w") as file:
        json.dump(told, file, indent=1, sort_keys=True)
    print("status %d, %s minutes, %d seconds of a processor; what the gate said stands in %s.log" % (told["status"], told["minutes"], told["seconds"], times))
    return told


def drain(pipe, log):
    """Puts what the gate has said so far into the file."""
    while True:
        try:
            some = os.read(pipe, 65536)
        except BlockingIOError:
            return
        if not some:
            return
        os.write(log, some)


def row(name, seconds):
    """The line of a crate, and its numbers of tests and of edits and its seconds."""
    folder = os.path.join(TOP, "crates", name)
    tests = 0
    for file in glob.glob(folder + "/src/**/*.rt", recursive=True):
        with open(file) as text:
            tests += len(re.findall(r"^\s*#\[test\]$", text.read(), re.M))
    edits = len(glob.glob(folder + "/must-fail/*.edit"))
    run = "one" if os.path.exists(folder + "/stdout") else "–"
    took = [seconds.get(name, {}).get(kind, 0) for kind in KINDS]
    line = "| %s | %s | %s | %s | %s |\n" % (name, tests or "–", run, edits or "–", " | ".join(str(one or "–") for one in took))
    return line, tests, edits, took


def write_table(told):
    """Puts the table in the place of the one that docs/proof/times.md has."""
    order = crates()
    rows = [row(name, told["crates"]) for name in order]
    tests, edits = (sum(one[place] for one in rows) for place in (1, 2))
    took = [sum(one[3][place] for one in rows) for place in range(len(KINDS))]
    last = "| all %d | %d | – | %d | %s |\n" % (len(order), tests, edits, " | ".join(map(str, took)))
    table = HEADING + "".join(one[0] for one in rows) + last
    with open(PAGE) as file:
        text = file.read()
    text, count = re.subn(r"\| Crate \| Tests \|(.*\n)(\|.*\n)*", lambda _: table, text)
    if count != 1:
        sys.exit("docs/proof/times.md has %d such tables, and not one" % count)
    with open(PAGE, "w") as file:
        file.write(text)


def main(words):
    if len(words) == 2 and words[0] == "--table":
        with open(words[1]) as file:
            write_table(json.load(file))
        return 0
    if len(words) != 1 or words[0].startswith("-"):
        print(__doc__)
        return 2
    told = measure(words[0])
    write_table(told)
    return told["status"]


if __name__ == "__main__":
    sys.exit(main(sys.argv[1:]))
