#!/bin/sh
# Measures how long it takes to judge a dump whose header declares a million variables, twenty of which are the lines of the bus.
# Usage: lab/many_codes.sh [PROGRAM [VARIABLES]]
set -eu
. "$(dirname "$0")/program.sh"
python3 - "$program" "$folder" "${2:-1000000}" <<'PY'
import os, subprocess, sys, time
sys.path.insert(0, "lab")
from common import large_dump, most_memory, row
program, folder, count = sys.argv[1], sys.argv[2], int(sys.argv[3])
run = open(large_dump(program, folder, 0)[0].replace("large.vcd", "run.vcd")).read()


def code(number):
    """A code of two bytes or more: the number's digits to the base 94, the last first."""
    text = ""
    while number or len(text) < 2:
        number, digit = divmod(number, 94)
        text += chr(33 + digit)
    return text


# half of the other variables before the lines, half behind them
at = run.index("$upscope")
many = os.path.join(folder, "many.vcd")
with open(many, "w") as out:
    out.write(run[:run.index("$scope")] + "$scope module others $end\n")
    out.writelines("$var wire 1 %s n%d $end\n" % (code(94 + number), number) for number in range(count // 2))
    out.write("$upscope $end\n" + run[run.index("$scope"):at])
    out.writelines("$var wire 1 %s n%d $end\n" % (code(94 + number), number) for number in range(count // 2, count))
    out.write(run[at:])
times = []
for _ in range(5):
    begin = time.perf_counter()
    done = subprocess.run([program, "check", many], stdout=subprocess.PIPE)
    times.append(time.perf_counter() - begin)
    assert done.returncode == 0 and done.stdout == b"accepted clocks=29000\n", done
row(f"judging a dump of {count + 20} variables ({os.path.getsize(many) / 1e6:.0f} MB)", f"{1000 * min(times):.0f} ms", most_memory([program, "check", many]), "500 ms, 50 MiB")
PY
