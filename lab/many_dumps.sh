#!/bin/sh
# Measures how fast many dumps are judged on all processors, by verdicts.sh: 200 dumps, of which every tenth breaks a rule and every
# fiftieth is cut off, one at a time and then as many at a time as there are processors. Both must give the same lines.
# Usage: lab/many_dumps.sh [PROGRAM [DUMPS [MEGABYTES OF EACH]]]
set -eu
. "$(dirname "$0")/program.sh"
python3 - "$program" "$folder" "${2:-200}" "${3:-4}" <<'PY'
import collections, os, subprocess, sys, time
sys.path.insert(0, "lab")
from common import large_dump, row
program, folder, count, size = sys.argv[1], sys.argv[2], int(sys.argv[3]), int(sys.argv[4]) * 1_000_000
text = open(large_dump(program, folder, size)[0]).read()
requests = text.count("\n0)\n")
names, wanted = [], collections.Counter()
for number in range(count):
    name, made, status = os.path.join(folder, f"{number:03}.vcd"), text, 0
    if number % 50 == 7:
        made, status = text + "#", 4
    elif number % 10 == 3:
        # one request without its ADS#, further on in each
        at = -1
        for _ in range(1 + number * (requests - 2) // count):
            at = text.index("\n0)\n", at + 1)
        made, status = text[:at] + "\n1)\n" + text[at + 4:], 1
    with open(name, "w") as out:
        out.write(made)
    names.append(name)
    wanted[status] += 1


def judged(jobs):
    begin = time.perf_counter()
    done = subprocess.run(["sh", "lab/verdicts.sh", program, str(jobs)], input="\n".join(names) + "\n", stdout=subprocess.PIPE, text=True, check=True)
    return time.perf_counter() - begin, sorted(done.stdout.splitlines())


jobs = len(os.sched_getaffinity(0))
one, lines = min(judged(1) for _ in range(2))
all_at_once, again = min(judged(jobs) for _ in range(2))
assert lines == again and len(lines) == count
assert collections.Counter(int(line.split("\t")[0]) for line in lines) == wanted, lines
whole = sum(os.path.getsize(name) for name in names) / 1e6
row(f"{count} dumps of {whole / count:.0f} MB on {jobs} processors", f"{whole / all_at_once:.0f} MB/s", None, f"{one / all_at_once:.2f} times one at a time; {0.9 * jobs:.1f} or more")
PY
