#!/bin/sh
# Measures how fast a bench file is read: 3.9 MB of memory settings and 4,095 loads, through the built program
# (crates/p6bench/out/p6bench, made by `rt run` or `rt ci`). The last line is a fault, so the file is read whole and
# nothing is run.
# Usage: lab/read_bench.sh [PROGRAM]
set -eu
. "$(dirname "$0")/program.sh"
python3 - "$folder/large.bench" "$folder/small.bench" <<'PY'
import sys
head = "p6bench 1\nagents 1\nclocks 0\ncache 64\nahead 1\n"
loads = "".join("ld 8 %x\n" % (64 * (n % 16)) for n in range(4095))
line = "mem %x " + "0123456789abcdef" * 8 + "\n"
mem, n = [], 0
while 140 * n + len(loads) < 3_950_000:
    mem.append(line % (64 * n))
    n += 1
open(sys.argv[1], "w").write(head + "".join(mem) + "agent 0\n" + loads + "end\nbad\n")
open(sys.argv[2], "w").write(head + "agent 0\nend\nbad\n")
PY
python3 - "$program" "$folder/large.bench" "$folder/small.bench" <<'PY'
import os, subprocess, sys, time
sys.path.insert(0, "lab")
from common import most_memory, row
program, large, small = sys.argv[1:]
def best(path):
    times = []
    for _ in range(7):
        begin = time.perf_counter()
        status = subprocess.run([program, "run", path], stdout=subprocess.DEVNULL, stderr=subprocess.DEVNULL).returncode
        assert status == 3, status
        times.append(time.perf_counter() - begin)
    return min(times)
size = os.path.getsize(large)
took = best(large) - best(small)
row(f"reading a bench file of {size / 1e6:.1f} MB", f"{size / took / 1e6:.0f} MB/s", most_memory([program, "run", large]), "150 MB/s or more")
PY
