#!/usr/bin/env python3
"""Measures other programs on the dump of check_dump.sh beside `check` and the reader alone, and prints for each how many times as long as
`check` it takes of a processor: a program of an earlier landing, `wc -l`, and `vcd2fst` and `fst2vcd` of Debian's gtkwave, which turn the
dump into an FST file and back. What is not there has a dash. The least of several turns, by processor time, as in beside.py.

Usage: lab/others.py [PROGRAM] [--first PROGRAM] [--megabytes N] [--turns N]
"""

import argparse
import os
import resource
import shutil
import subprocess
import tempfile

from common import built_program, large_dump, row

# a range of clocks that no dump reaches: nothing is kept of its samples, so this is nearly the reader alone
PAST_THE_END = ["4294967232", "4294967295"]


def processor_time(call):
    """The seconds that a call takes of a processor."""
    before = resource.getrusage(resource.RUSAGE_CHILDREN)
    subprocess.run(call, stdout=subprocess.DEVNULL, stderr=subprocess.DEVNULL, check=True)
    after = resource.getrusage(resource.RUSAGE_CHILDREN)
    return after.ru_utime - before.ru_utime + after.ru_stime - before.ru_stime


def main():
    words = argparse.ArgumentParser(usage="lab/others.py [PROGRAM] [--first PROGRAM] [--megabytes N] [--turns N]")
    words.add_argument("program", nargs="?")
    words.add_argument("--first")
    words.add_argument("--megabytes", type=int, default=200)
    words.add_argument("--turns", type=int, default=5)
    given = words.parse_args()
    program = built_program(given.program)
    with tempfile.TemporaryDirectory() as folder:
        dump = large_dump(program, folder, given.megabytes * 1_000_000)[0]
        fst = os.path.join(folder, "large.fst")
        calls = [
            ("judging it", [program, "check", dump]),
            ("reading it alone", [program, "wave", dump] + PAST_THE_END),
            ("judging it, by the program given as --first", given.first and [os.path.abspath(given.first), "check", dump]),
            ("counting its lines: wc -l", ["wc", "-l", dump]),
            ("making an FST file of it: vcd2fst", shutil.which("vcd2fst") and ["vcd2fst", dump, fst]),
            ("making a dump of that file: fst2vcd", shutil.which("vcd2fst") and shutil.which("fst2vcd") and ["fst2vcd", fst]),
        ]
        least = {}
        for _ in range(given.turns):
            for work, call in calls:
                if call:
                    least[work] = min(least.get(work, float("inf")), processor_time(call))
        size = os.path.getsize(dump) / 1e6
    check = least[calls[0][0]]
    for work, call in calls:
        measured = "%.0f MB/s" % (size / least[work]) if call else "-"
        times = "%.2f times as long as `check`" % (least[work] / check) if call else "-"
        row("%.0f MB: %s" % (size, work), measured, None, times)


if __name__ == "__main__":
    main()
