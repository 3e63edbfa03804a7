"""What the scripts of this folder share: the built program, a large dump, and the most memory that a program has while it runs, in MiB.

The memory is read off /proc again and again, since what the system counts for a child also counts its parent's before the child begins.
"""

import os
import subprocess
import sys
import time

TOP = os.path.dirname(os.path.dirname(os.path.abspath(__file__)))


def libraries():
    """The crates of crates.txt, in its order, each with the libraries that it stands on."""
    found = {}
    with open(os.path.join(TOP, "crates.txt")) as lines:
        for line in lines:
            name, colon, needs = line.partition("#")[0].partition(":")
            if colon:
                found[name.split()[0]] = needs.split()
    return found


def built_program(name=None):
    """The program of this name, or the one that the checkout has built."""
    program = os.path.abspath(name or os.path.join(TOP, "crates/p6bench/out/p6bench"))
    if not os.access(program, os.X_OK):
        sys.exit("no program at %s: build it by 'rt run' in crates/p6bench" % program)
    return program


def most_memory(words):
    child = subprocess.Popen(words, stdout=subprocess.DEVNULL, stderr=subprocess.DEVNULL)
    most = 0
    while child.poll() is None:
        try:
            with open("/proc/%d/status" % child.pid) as status, open("/proc/%d/cmdline" % child.pid) as line:
                if line.read().split("\0")[0] != words[0]:
                    continue
                for entry in status:
                    if entry.startswith("VmHWM:"):
                        most = max(most, int(entry.split()[1]))
        except OSError:
            pass
        time.sleep(0.001)
    return most / 1024


def row(work, measured, memory, asked):
    """Prints one line of the table; the memory is None where it was not measured."""
    print("%-62s %-10s %12s   %s" % (work, measured, "" if memory is None else "%.1f MiB" % memory, asked))


def busy_bench(clocks, items, settings=""):
    """A bench of four agents with so many items each, four requests each at a time, caches of one line: each access leaves the line of
    the one before, and half of them take a line that another agent has Modified. So the bus is busy until the last item is done."""
    text = ["p6bench 1\nagents 4\nclocks %d\ncache 1\nahead 4\n" % clocks, settings]
    for agent in range(4):
        text.append("agent %d\n" % agent)
        for n in range(items):
            line = (n * 5 + agent * 3) % 64 if n % 2 else 64 + agent * 64 + n % 64
            text.append("st 8 %x %x\n" % (32 * line + 8, n) if n % 4 < 2 else "ld 8 %x\n" % (32 * line))
        text.append("end\n")
    return "".join(text)


def large_dump(program, folder, size):
    """Writes a dump of so many bytes or a little more into the folder, in the form that the program writes: the clocks of a real run over
    and over with rising time stamps. Answers its name, that of a dump of its header alone, and how many clocks it has."""
    bench, run, large, small = (os.path.join(folder, name) for name in ("run.bench", "run.vcd", "large.vcd", "small.vcd"))

    # a run of four busy agents, whose last accesses are over before its last clock
    with open(bench, "w") as out:
        out.write(busy_bench(29_000, 1_024))
    said = subprocess.run([program, "run", bench, run], stdout=subprocess.PIPE, check=True).stdout.decode().splitlines()[-1]
    assert said.endswith("done=4096 of=4096"), said

    # the header, and of each clock the values that change, where the first clock follows the last one
    with open(run) as file:
        text = file.read()
    end = text.index("$end\n", text.index("$dumpvars")) + len("$end\n")
    header, words = text[:end], ("\n" + text[end:]).split("\n#")
    first = dict((line[-1], line) for line in header[header.index("$dumpvars"):].splitlines()[2:-1])
    last, clocks = dict(first), []
    for word in words[2::2]:
        lines = word.splitlines()[2:]
        last.update((line[-1], line) for line in lines)
        clocks.append("".join(line + "\n" for line in lines))
    again = "".join(line + "\n" for code, line in first.items() if last[code] != line)
    form = "".join("#%d\n0!\n" + values.replace("%", "%%") + "#%d\n1!\n" for values in clocks + [again])
    count = len(clocks) + 1
    with open(large, "w") as out:
        made, clock = out.write(header + "#5\n1!\n"), 1
        while made < size:
            made += out.write(form % tuple(stamp for c in range(clock, clock + count) for stamp in (10 * c, 10 * c + 5)))
            clock += count
    with open(small, "w") as out:
        out.write(header)
    return large, small, clock
