#!/usr/bin/env python3
"""dump_of_trace.py PROFILE FILE: the dump of a trace that is written clock by clock, as docs/reference/dump-format.md says.

Each line of FILE is a clock: its number, the control lines that are asserted there or `-`, and the words that are not 0,
in hexadecimal: REQ=, A= (the address word, whose bit 0 is A3#), D=. Nothing is unknown."""
import sys

LINES = "BREQ0 BREQ1 BREQ2 BREQ3 BPRI LOCK BNR ADS".split()
# The signals in their order: the name, the width, and the range that is declared.
TABLE = [("BCLK", 1, "")] + [(f"{line}_n", 1, "") for line in LINES] + [
    ("REQ_n", 5, "[4:0] "), ("A_n", 33, "[35:3] "), ("AERR_n", 1, ""), ("HIT_n", 1, ""), ("HITM_n", 1, ""),
    ("DEFER_n", 1, ""), ("RS_n", 3, "[2:0] "), ("TRDY_n", 1, ""), ("DBSY_n", 1, ""), ("DRDY_n", 1, ""),
    ("D_n", 64, "[63:0] "), ("AP_n", 2, "[1:0] "), ("RP_n", 1, "")]
SEVERAL = {"RS_n": ["RS0", "RS1", "RS2"], "AP_n": ["AP0", "AP1"]}


def clocks(path):
    """The asserted lines and the words of each clock."""
    for text in open(path):
        parts = text.split()[1:]
        words = dict(part.split("=") for part in parts if "=" in part)
        yield {part for part in parts if "=" not in part}, {name: int(word, 16) for name, word in words.items()}


def values(clock):
    """What is asserted on each signal, as a number."""
    lines, words = clock
    for name, _, _ in TABLE:
        bits = SEVERAL.get(name, [name[:-2]])
        yield words.get(name[:-2], sum((bit in lines) << place for place, bit in enumerate(bits)))


def change(number, value):
    """The line of a signal's value: 0 is asserted."""
    _, width, _ = TABLE[number]
    if number == 0:
        return "0!"
    digits = format(~value & (1 << width) - 1, f"0{width}b")
    return (digits if width == 1 else f"b{digits} ") + chr(33 + number)


def dump(trace, count):
    """The lines of the dump, with so many of the signals."""
    rows = [list(values(clock)) for clock in trace]
    yield from ("$version p6bench 1 $end", "$timescale 1 ns $end", "$scope module fsb $end")
    for number, (name, width, span) in enumerate(TABLE[:count]):
        yield f"$var wire {width} {chr(33 + number)} {name} {span}$end"
    yield from ("$upscope $end", "$enddefinitions $end", "#0", "$dumpvars")
    first = rows[0] if rows else [0] * len(TABLE)
    yield from (change(number, first[number]) for number in range(count))
    yield "$end"
    for c, row in enumerate(rows):
        if c > 0:
            yield from (f"#{10 * c}", "0!")
            yield from (change(n, row[n]) for n in range(1, count) if row[n] != rows[c - 1][n])
        yield from (f"#{10 * c + 5}", "1!")


if __name__ == "__main__":
    for line in dump(clocks(sys.argv[2]), 22 if sys.argv[1] == "2" else 20):
        print(line)
