#!/bin/sh
# Measures runs of four busy agents over 200,000 clocks, without and with a dump, over all clocks, half of them and a quarter, and a
# run of a bench file of 3.9 MB of memory settings, through the built program (crates/p6bench/out/p6bench, made by `rt run` or `rt ci`).
# Usage: lab/run_bench.sh [PROGRAM]
set -eu
. "$(dirname "$0")/program.sh"
python3 - "$program" "$folder" <<'PY'
import os, subprocess, sys, time
sys.path.insert(0, "lab")
from common import busy_bench, most_memory, row
program, folder = sys.argv[1:]
bench = os.path.join(folder, "busy.bench")
dump = os.path.join(folder, "busy.vcd")

# the four busy agents, in the bench file
def busy(clocks, settings=""):
    with open(bench, "w") as out:
        out.write(busy_bench(clocks, 4_096, settings))

def best(*words):
    times = []
    for _ in range(5):
        begin = time.perf_counter()
        subprocess.run([program, "run", bench, *words], stdout=subprocess.DEVNULL, check=True)
        times.append(time.perf_counter() - begin)
    return min(times)

busy(0)
nothing = best()
for clocks in (50_000, 100_000, 200_000):
    busy(clocks)
    log = best() - nothing
    row("four busy agents, %d clocks, less a run of none" % clocks, f"{log * 1000:.0f} ms", most_memory([program, "run", bench]), "60 ms for 200,000, 64 MiB")
last = subprocess.run([program, "run", bench], stdout=subprocess.PIPE, check=True).stdout.decode().splitlines()
print("    (the last entry is of clock %s; %s)" % (last[-2].split()[0], last[-1]))
both = best(dump)
size = os.path.getsize(dump)
row(f"the same, whole, with a dump of {size / 1e6:.1f} MB ({size / 200000:.1f} bytes a clock)", f"{both * 1000:.0f} ms", most_memory([program, "run", bench, dump]), "250 ms, 64 MiB, 192 bytes a clock")
line = "mem %x " + "0123456789abcdef" * 8 + "\n"
busy(200_000, "".join(line % (64 * n) for n in range(26_000)))
row(f"the same, whole, with {os.path.getsize(bench) / 1e6:.1f} MB of bench file", f"{best() * 1000:.0f} ms", most_memory([program, "run", bench]), "200 ms, 64 MiB")
PY
