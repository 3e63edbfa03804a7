#!/usr/bin/env python3
"""Judges the drawings of the pages: each waveform under which a verdict stands is made a dump and given to `check`.

Usage: lab/drawings.py [PROGRAM]      prints each drawing whose verdict is another, and how many there are; status 1 where one is

A drawing is a fenced block. Its rows are lines of the bus, four characters a clock behind nine of the name, low where asserted; RS# has the code
RS2 RS1 RS0, and REQ, A and D are hexadecimal. `xxxx` is unknown. Rows of `snoop` and `log` are read past. Rows that are too long go on below.
"""

import glob
import os
import re
import subprocess
import sys
import tempfile

TOP = os.path.dirname(os.path.dirname(os.path.abspath(__file__)))
LINES = "BREQ0 BREQ1 BREQ2 BREQ3 BPRI LOCK BNR ADS AERR HIT HITM DEFER TRDY DBSY DRDY".split()
WORDS = {"REQ": 5, "A": 33, "D": 64}
NUMBERS = re.compile(r"^ {9,}\d+( +\d+)*$")


def parts(block):
    """The pieces of a drawing, each the rows of some clocks, and the verdict, where it has one."""
    pieces = [piece.split("\n") for piece in re.split(r"\n\s*\n", block.strip("\n"))]
    if not NUMBERS.match(pieces[0][0]) or not re.match("accepted|rejected", pieces[-1][0]):
        return [], None
    return pieces[:-1], pieces[-1][0]


def read(pieces):
    """What each clock has, by row; and the names of the rows."""
    clocks, names = [], set()
    for rows in pieces:
        first = len(clocks)
        count = len(rows[0].split())
        clocks += [{} for _ in range(count)]
        for row in rows[1:]:
            name, body = row[:9].strip().rstrip("#"), row[9:]
            names.add(name)
            if name in WORDS:
                for word in re.finditer(r"\S+", body):
                    clocks[first + word.start() // 4][name] = word[0]
                continue
            for place in range(count):
                cell = body[4 * place : 4 * place + 4]
                if name == "RS":
                    code = re.search("[01]{3}", cell)
                    clocks[first + place][name] = code[0] if code else "000"
                elif cell[1:2] in ("_", "x"):
                    clocks[first + place][name] = cell[1]
    return clocks, names


def level(of, name):
    """The digit of a line in a dump."""
    return {"_": "0", "x": "x"}.get(of.get(name), "1")


def value(of, name, width):
    """The digits of a word in a dump."""
    if name == "RS":
        return "".join("10"[int(bit)] for bit in of.get("RS", "000"))
    if name == "AP":
        return level(of, "AP1") + level(of, "AP0")
    word = of.get(name, "0")
    return "x" if "x" in word else format((1 << width) - 1 - int(word, 16), "0%db" % width)


def dump(clocks, names):
    """The dump of a drawing; it declares the parity lines that are drawn."""
    lines = LINES + ["RP"] * ("RP" in names)
    words = dict(WORDS, RS=3)
    if names & {"AP0", "AP1"}:
        words["AP"] = 2
    code = {name: chr(34 + place) for place, name in enumerate(lines + list(words))}
    text = ["$var wire 1 ! BCLK $end"]
    text += ["$var wire %d %s %s_n $end" % (words.get(name, 1), code[name], name) for name in code]
    text.append("$enddefinitions $end")
    for clock, of in enumerate(clocks):
        text += ["#%d" % (10 * clock), "0!"]
        text += [level(of, name) + code[name] for name in lines]
        text += ["b%s %s" % (value(of, name, width), code[name]) for name, width in words.items()]
        text += ["#%d" % (10 * clock + 5), "1!"]
    return "\n".join(text) + "\n"


def main(words):
    program = words[0] if words else os.path.join(TOP, "crates/p6bench/out/p6bench")
    count = different = 0
    with tempfile.TemporaryDirectory() as folder:
        name = os.path.join(folder, "drawing.vcd")
        for page in sorted(glob.glob(TOP + "/docs/**/*.md", recursive=True)):
            with open(page) as file:
                blocks = re.findall(r"^```\n(.*?)^```$", file.read(), re.S | re.M)
            for pieces, verdict in map(parts, blocks):
                if verdict is None:
                    continue
                with open(name, "w") as file:
                    file.write(dump(*read(pieces)))
                said = subprocess.run([program, "check", name], capture_output=True, text=True).stdout.strip()
                count += 1
                if said != verdict:
                    different += 1
                    print("%s: %s, and not %s" % (os.path.relpath(page, TOP), said, verdict))
    print("%d drawings, %d different" % (count, different))
    return int(different > 0)


if __name__ == "__main__":
    sys.exit(main(sys.argv[1:]))
