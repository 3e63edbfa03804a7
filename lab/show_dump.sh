#!/bin/sh
# Measures how long it takes to show a dump as a table: the dump of check_dump.sh, cut to nearly the 200,000 samples that a table
# may have, through the built program (crates/p6bench/out/p6bench, made by `rt run` or `rt ci`).
# Usage: lab/show_dump.sh [PROGRAM]
set -eu
. "$(dirname "$0")/program.sh"
python3 - "$program" "$folder" <<'PY'
import os, subprocess, sys, time
sys.path.insert(0, "lab")
from common import large_dump, most_memory, row
program, folder = sys.argv[1], sys.argv[2]
clock = 198_400
whole, _, clocks = large_dump(program, folder, 16_000_000)
assert clocks > clock, clocks
shown = os.path.join(folder, "shown.vcd")
with open(whole) as dump, open(shown, "w") as out:
    text = dump.read()
    out.write(text[:text.index(f"\n#{10 * clock}\n") + 1])
times = []
for _ in range(9):
    begin = time.perf_counter()
    done = subprocess.run([program, "show", shown], stdout=subprocess.PIPE)
    times.append(time.perf_counter() - begin)
    lines = done.stdout.decode().splitlines()
    assert done.returncode == 0 and lines[-1] == f"accepted clocks={clock}", (done.returncode, lines[-1:])
row(f"showing a dump of {clock} samples and {len(lines) - 4} requests", f"{1000 * min(times):.0f} ms", most_memory([program, "show", shown]), "150 ms or less")
PY
