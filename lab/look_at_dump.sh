#!/bin/sh
# Measures how fast a dump is searched and drawn: the dump of check_dump.sh, 200 MB, through the built program
# (crates/p6bench/out/p6bench, made by `rt run` or `rt ci`). One trigger matches at no clock, so the hunt goes on to the end;
# the other matches at the first request, so of all the samples behind it nothing is looked for any more.
# The nearest to the reader alone is a wave of clocks that the dump does not reach: nothing is kept of its samples.
# Usage: lab/look_at_dump.sh [PROGRAM [MEGABYTES]]
set -eu
. "$(dirname "$0")/program.sh"
python3 - "$program" "$folder" "${2:-200}" <<'PY'
import os, subprocess, sys, time
sys.path.insert(0, "lab")
from common import large_dump, most_memory, row
program, folder, size = sys.argv[1], sys.argv[2], int(sys.argv[3]) * 1_000_000
large, small, clock = large_dump(program, folder, size)
bytes_read = os.path.getsize(large)

# a request, HITM# within five clocks of it and the response of an implicit writeback: one agent alone never has them
trigger = "ADS/<5:HITM,!HIT/RS2,RS1,!RS0"
looks = [
    ("drawing clocks past its end (the reader, nearly alone)", ["wave", None, "4294967232", "4294967295"], 0, f"clocks={clock}"),
    ("drawing its first 64 clocks", ["wave", None, "0", "63"], 0, f"clocks={clock}"),
    ("searching it for three steps", ["find", None, trigger], 11, f"none clocks={clock}"),
    ("searching it for its first request", ["find", None, "ADS"], 0, "found clock=2 steps=2"),
    ("judging it", ["check", None], 0, f"accepted clocks={clock}"),
]


def timed(words, path):
    called = [program] + [word or path for word in words]
    begin = time.perf_counter()
    done = subprocess.run(called, stdout=subprocess.PIPE, stderr=subprocess.DEVNULL)
    return time.perf_counter() - begin, done.returncode, done.stdout.decode().splitlines()[-1]


first = None
for work, words, status, said in looks:
    took, ended, line = timed(words, large)
    assert (ended, line) == (status, said), (words, ended, line)
    memory = most_memory([program] + [word or large for word in words])
    best = min(timed(words, large)[0] for _ in range(5)) - min(timed(words, small)[0] for _ in range(5))
    first = first or best
    asked = "0.9 of the first or more" if words[0] != "check" else "450 MB/s or more, 2 MiB"
    row(f"{bytes_read / 1e6:.0f} MB: {work}", f"{bytes_read / best / 1e6:.0f} MB/s", memory, f"{first / best:.2f} of the first; {asked}")
PY
