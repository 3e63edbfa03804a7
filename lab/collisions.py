#!/usr/bin/env python3
"""Files whose keys fall together in a table of the kit: how long the built program takes for them, beside as many random keys.

Usage: lab/collisions.py [PROGRAM [COUNT..]]      (10,000 and 100,000 keys)

Makes each file twice: with random keys, and with keys found by search, which all begin in one stretch of a table of so many (by a copy of the kit's
hash). There are dumps with codes of seven and of nine bytes, bench files with a `mem` line for each line of memory, and dumps of bursts from
distant lines, whose chunks `audit` keeps. Prints both times and their ratio, which is to be three at most; the status is 1 where it is more.
"""

import os
import random
import subprocess
import sys
import tempfile
import time

sys.dont_write_bytecode = True
from common import built_program, busy_bench

MASK64 = (1 << 64) - 1
START, MULTIPLIER = 0x243F6A8885A308D3, 0x9E3779B97F4A7C15
DIGITS = bytes(range(33, 127))
# The most that chosen keys may take of random keys' time.
ASKED = 3.0
# Chosen keys begin in one of so many parts of the groups: the search looks at as many keys for each that it finds, and a table that lets all of
# them in has to look through most of its groups for one.
PART = 16
# An audit can move no more: a run has so many clocks at most, and a line takes a dozen of them.
MOST_MOVED = 10_000
CALLS = 3


def folded_multiply(a, b):
    product = a * b
    return (product & MASK64) ^ (product >> 64)


def written(state, data):
    """The hasher's state after it has taken up to eight bytes."""
    if len(data) >= 4:
        word = int.from_bytes(data[:4], "little") | int.from_bytes(data[-4:], "little") << 32
    else:
        word = data[0] | data[len(data) // 2] << 8 | data[-1] << 16
    return folded_multiply(state ^ word, MULTIPLIER ^ 2 * len(data))


def table_hash(*pieces):
    """The 32 bits by which a table places what is hashed as these pieces: the low ones name the group that is looked at first."""
    state = START
    for piece in pieces:
        state = written(state, piece)
    return (state ^ state >> 32) & 0xFFFFFFFF


def number_hash(number):
    return table_hash(number.to_bytes(8, "little"))


def code_hash(code):
    """A code of seven bytes at most is known by a number: its bytes, the first lowest, and a 1 behind the last. A longer one is hashed as its
    length, and then each byte."""
    if len(code) <= 7:
        return number_hash(int.from_bytes(code + b"\1", "little"))
    return table_hash(len(code).to_bytes(8, "little"), *(bytes([byte]) for byte in code))


def groups_of(count):
    """How many groups a table of so many keys has: a power of two, with nine keys a group at most."""
    groups = 1
    while 9 * groups < count:
        groups *= 2
    return groups


def keys_of(chance, count, draw, hash_of, chosen):
    """So many different keys as they are drawn; chosen ones begin in the first groups of a table of so many."""
    groups = groups_of(count)
    stretch = max(groups // PART, 1) if chosen else groups
    keys = {}
    while len(keys) < count:
        key = draw(chance)
        if hash_of(key) & groups - 1 < stretch:
            keys[key] = None
    return list(keys)


def write_codes(program, folder, name, codes):
    """A run's dump, whose header declares another variable with each of the codes, which takes a value at the end."""
    bench, run = os.path.join(folder, "few.bench"), os.path.join(folder, "few.vcd")
    with open(bench, "w") as out:
        out.write(busy_bench(1_000, 16))
    subprocess.run([program, "run", bench, run], stdout=subprocess.DEVNULL, check=True)
    with open(run, "rb") as file:
        text = file.read()
    at = text.index(b"$upscope")
    with open(name, "wb") as out:
        out.write(text[:at])
        out.writelines(b"$var wire 1 %s n%d $end\n" % (code, number) for number, code in enumerate(codes))
        out.write(text[at:])
        out.writelines(b"1%s\n" % code for code in codes)
    return [program, "check", name]


def write_lines(program, folder, name, lines):
    """A bench that sets one byte of each of the lines of memory, and runs for one clock."""
    with open(name, "w") as out:
        out.write("p6bench 1\nagents 1\nclocks 1\ncache 1\nahead 1\n")
        out.writelines("mem %x 07\n" % (32 * line) for line in lines)
        out.write("agent 0\nend\n")
    return [program, "run", name]


def write_chunks(program, folder, name, chunks):
    """The dump of a run whose agents load one byte of each of these lines of memory, so that all their chunks are moved."""
    bench = os.path.join(folder, "moves.bench")
    lines = [chunk // 4 for chunk in chunks[:MOST_MOVED]]
    with open(bench, "w") as out:
        out.write("p6bench 1\nagents 4\nclocks 200000\ncache 1\nahead 4\n")
        for agent in range(4):
            out.write("agent %d\n" % agent)
            out.writelines("ld 8 %x\n" % (32 * line) for line in lines[agent::4])
            out.write("end\n")
    subprocess.run([program, "run", bench, name], stdout=subprocess.DEVNULL, check=True)
    return [program, "audit", name]


def code_of(size):
    return lambda chance: bytes(chance.choices(DIGITS, k=size))


# what falls together, how it is drawn and hashed, and the file that has it
KINDS = [
    ("codes of seven bytes, check", code_of(7), code_hash, write_codes),
    ("codes of nine bytes, check", code_of(9), code_hash, write_codes),
    ("lines of memory, run", lambda chance: chance.randrange(2**31), number_hash, write_lines),
    ("chunks that move, audit", lambda chance: 4 * chance.randrange(2**31), number_hash, write_chunks),
]


def time_of(words):
    """The least time of some calls, and what they say."""
    times, said = [], None
    for _ in range(CALLS):
        begin = time.perf_counter()
        done = subprocess.run(words, stdout=subprocess.PIPE, stderr=subprocess.STDOUT)
        times.append(time.perf_counter() - begin)
        said = done.returncode, done.stdout
    return min(times), said


def main():
    program = built_program(sys.argv[1] if len(sys.argv) > 1 else None)
    counts = [int(word) for word in sys.argv[2:]] or [10_000, 100_000]
    worst = 0
    with tempfile.TemporaryDirectory() as folder:
        print("%-36s %9s %10s %10s %7s" % ("keys that begin together", "how many", "random", "chosen", "ratio"))
        for kind, draw, hash_of, write in KINDS:
            for count in counts:
                if write is write_chunks and count > MOST_MOVED:
                    continue
                times, answers = [], []
                for chosen in (False, True):
                    keys = keys_of(random.Random(1), count, draw, hash_of, chosen)
                    took, said = time_of(write(program, folder, os.path.join(folder, "keys"), keys))
                    times.append(took)
                    answers.append(said[0])
                assert answers[0] == answers[1] == 0, answers
                ratio = times[1] / times[0]
                worst = max(worst, ratio)
                print("%-36s %9d %7.0f ms %7.0f ms %7.1f" % (kind, count, 1000 * times[0], 1000 * times[1], ratio), flush=True)
    print("the worst ratio is %.1f; at most %.1f is asked for" % (worst, ASKED))
    return int(worst > ASKED)


if __name__ == "__main__":
    sys.exit(main())
