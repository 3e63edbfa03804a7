#!/usr/bin/env python3
"""Turns a dump into vectors for $readmemh: 31 hexadecimal digits for each clock.

Usage: vectors.py DUMP > VECTORS

A vector has, from the highest bit: a 1, and the levels of the lines in the order of LINES. A line
that is not declared, z or x has the level 1. docs/traffic.md plays the vectors.
"""
import sys

LINES = {"AP_n": 2, "RP_n": 1, "BREQ0_n": 1, "BREQ1_n": 1, "BREQ2_n": 1, "BREQ3_n": 1, "BPRI_n": 1,
         "LOCK_n": 1, "BNR_n": 1, "ADS_n": 1, "REQ_n": 5, "A_n": 33, "AERR_n": 1, "HIT_n": 1,
         "HITM_n": 1, "DEFER_n": 1, "RS_n": 3, "TRDY_n": 1, "DBSY_n": 1, "DRDY_n": 1, "D_n": 64}


def samples(words):
    """For each rise of BCLK the digits that each line had just before it."""
    codes = {}
    for word in words:
        section = [word]
        while section[-1] != "$end":
            section.append(next(words))
        if word == "$var":
            codes.setdefault(section[4].partition("[")[0], section[3])
        if word == "$enddefinitions":
            break
    levels, before = {}, {}
    clock = codes["BCLK"]
    for word in words:
        if word[0] == "#":
            if before.get(clock) == "0" and levels[clock] == "1":
                yield {name: before.get(code, "x") for name, code in codes.items()}
            before = dict(levels)
        elif word[0] in "bB":
            levels[next(words)] = word[1:]
        elif word[0] in "rRsS":
            next(words)
        elif word[0] in "01xXzZ":
            levels[word[1:]] = word[0]
    if before.get(clock) == "0" and levels[clock] == "1":
        yield {name: before.get(code, "x") for name, code in codes.items()}


def digits(value, width):
    """All digits of a word: what is not written is 0, x or z, as its first digit says."""
    fill = "0" if value[0] in "01" else "1"
    return value.rjust(width, fill)[-width:].translate(str.maketrans("xXzZ", "1111"))


with open(sys.argv[1]) as dump:
    for sample in samples(iter(dump.read().split())):
        bits = "".join(digits(sample.get(name, "x"), width) for name, width in LINES.items())
        print("%031x" % int("1" + bits, 2))
