#!/bin/sh
# Measures how fast a dump is read and judged: 200 MB in the form that the program writes, the clocks of a real run over and
# over with rising time stamps, through the built program (crates/p6bench/out/p6bench, made by `rt run` or `rt ci`).
# Usage: lab/check_dump.sh [PROGRAM [MEGABYTES]]
set -eu
. "$(dirname "$0")/program.sh"
megabytes=${2:-200}
python3 - "$program" "$folder" "$megabytes" <<'PY'
import os, subprocess, sys, time
sys.path.insert(0, "lab")
from common import large_dump, most_memory, row
program, folder, size = sys.argv[1], sys.argv[2], int(sys.argv[3]) * 1_000_000
large, small, clock = large_dump(program, folder, size)

def timed(path):
    begin = time.perf_counter()
    done = subprocess.run([program, "check", path], stdout=subprocess.PIPE)
    return time.perf_counter() - begin, done.returncode, done.stdout.decode().strip()

_, status, said = timed(large)
memory = most_memory([program, "check", large])
assert status in (0, 1), f"`check` ends with status {status}"
best = min(timed(large)[0] for _ in range(5)) - min(timed(small)[0] for _ in range(5))
bytes_read = os.path.getsize(large)
assert said == f"accepted clocks={clock}", said
row(f"judging a dump of {bytes_read / 1e6:.0f} MB ({clock / 1e6:.1f} million clocks)", f"{bytes_read / best / 1e6:.0f} MB/s", memory, "450 MB/s or more, 2 MiB")
PY
