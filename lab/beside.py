#!/usr/bin/env python3
"""Judges one dump by several programs in turn, and prints for each the least processor time, which other work on the machine disturbs less
than the time on the clock, and its ratio to the first program's.

Usage: lab/beside.py PROGRAM.. [--dump FILE] [--turns N]; with no FILE a dump of 200 MB is made as check_dump.sh does, by the first program.
"""

import argparse
import os
import resource
import subprocess
import sys
import tempfile

from common import built_program, large_dump


def processor_time(program, dump):
    """The seconds that one `check` of the dump takes of a processor, and what it says."""
    before = resource.getrusage(resource.RUSAGE_CHILDREN)
    done = subprocess.run([program, "check", dump], stdout=subprocess.PIPE, stderr=subprocess.DEVNULL)
    after = resource.getrusage(resource.RUSAGE_CHILDREN)
    seconds = after.ru_utime - before.ru_utime + after.ru_stime - before.ru_stime
    return seconds, (done.returncode, done.stdout)


def main():
    words = argparse.ArgumentParser(usage="lab/beside.py PROGRAM.. [--dump FILE] [--turns N]")
    words.add_argument("programs", nargs="+")
    words.add_argument("--dump")
    words.add_argument("--turns", type=int, default=7)
    given = words.parse_args()
    programs = [built_program(name) for name in given.programs]
    with tempfile.TemporaryDirectory() as folder:
        dump = given.dump or large_dump(programs[0], folder, 200_000_000)[0]
        least, answers = dict.fromkeys(programs, float("inf")), set()
        for _ in range(given.turns):
            for program in programs:
                seconds, answer = processor_time(program, dump)
                least[program] = min(least[program], seconds)
                answers.add(answer)
        size = os.path.getsize(dump)
    for program in programs:
        print("%-50s %5.2f s  %4.0f MB/s  %5.2f" % (program, least[program], size / 1e6 / least[program], least[programs[0]] / least[program]))
    if len(answers) != 1:
        sys.exit("the programs do not answer alike")


if __name__ == "__main__":
    main()
