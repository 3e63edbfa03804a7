"""How long it takes from a verdict to its cause: a dump of 100 MB that is rejected in its last clocks.

Usage: lab/cause_times.py [P6SCOPE [P6BENCH [MEGABYTES]]]

The dump is that of check_dump.sh, with one more ADS# behind its end, for which nobody asks. Each row of the table is a command: what
is read of the dump for it, and the least wall time of three calls.
"""

import os
import subprocess
import sys
import tempfile
import time

from common import TOP, built_program, large_dump

TURNS = 3


def codes(path):
    """The codes of the lines by their names."""
    found = {}
    with open(path, "rb") as lines:
        for line in lines:
            words = line.split()
            if words[:1] == [b"$var"]:
                found[words[4].decode()] = words[3].decode()
            if words[:1] == [b"$enddefinitions"]:
                return found
    sys.exit("no header in %s" % path)


def last_time(path):
    """The last time stamp of the dump."""
    with open(path, "rb") as dump:
        dump.seek(max(0, os.path.getsize(path) - 100_000))
        times = [line[1:] for line in dump.read().split(b"\n") if line.startswith(b"#") and line[1:].isdigit()]
    return int(times[-1])


def broken(path):
    """Appends quiet clocks, and an ADS# for which nobody asks."""
    code = codes(path)
    clock, ads = code["BCLK"], code["ADS_n"]
    at = last_time(path)
    with open(path, "a") as dump:
        for number in range(50):
            dump.write("#%d\n0%s\n" % (at + 5, clock))
            if number == 40:
                dump.write("0%s\n" % ads)
            if number == 41:
                dump.write("1%s\n" % ads)
            at += 10
            dump.write("#%d\n1%s\n" % (at, clock))


def called(words, piped):
    """The wall time of one call. A file that is piped comes by cat, so that it cannot be read again."""
    begin = time.perf_counter()
    cat = subprocess.Popen(["cat", piped], stdout=subprocess.PIPE) if piped else None
    done = subprocess.run(words, stdin=cat.stdout if cat else subprocess.DEVNULL, stdout=subprocess.PIPE, stderr=subprocess.PIPE)
    taken = time.perf_counter() - begin
    if cat:
        cat.stdout.close()
        cat.wait()
    if done.returncode != 1:
        sys.exit("%s ends with status %d: %s" % (" ".join(words), done.returncode, done.stderr.decode()))
    return taken


def timed(words, piped=None):
    return min(called(words, piped) for _ in range(TURNS))


def main():
    words = sys.argv[1:]
    scope = built_program(words[0] if words else os.path.join(TOP, "crates/p6scope/out/p6scope"))
    bench = built_program(words[1] if len(words) > 1 else None)
    size = int(words[2]) * 1_000_000 if len(words) > 2 else 100_000_000
    with tempfile.TemporaryDirectory() as folder:
        large = large_dump(bench, folder, size)[0]
        broken(large)
        save, cut = os.path.join(folder, "x.gtkw"), os.path.join(folder, "y.vcd")
        rows = (
            ("the verdict alone: the dump is a pipe", [scope, "check", "/dev/stdin"], large),
            ("and the reason: --first, so that no other way is tried", [scope, "check", "--first", large], None),
            ("and six other ways to sample it", [scope, "check", large], None),
            ("and as JSON", [scope, "check", "--format", "json", large], None),
            ("and a save file and the clocks around it", [scope, "check", "--save", save, "--cut", cut, large], None),
        )
        print("rejected dump, %.0f MB: from verdict to the cause" % (os.path.getsize(large) / 1e6))
        for what, call, piped in rows:
            print("%-58s %6.2f s" % (what, timed(call, piped)))


if __name__ == "__main__":
    main()
