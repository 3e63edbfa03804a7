#!/usr/bin/env python3
"""A second audit, table, search and wave, written from the documents alone (audit.md of docs/; show.md, commands.md, triggers.md and waves.md of docs/reference/), beside those of the program.

    second_look.py [PROGRAM [COUNT [SEED]]]

Looked at are the dumps of crates/rows_trials/data and COUNT others (300): lawful runs, and such runs broken on purpose, of both profiles. Each
is audited and shown, searched for three random triggers that are made of what its samples have, and drawn over two random ranges; some
triggers and ranges are none. Status, standard output and standard error must be the same, byte by byte. Prints what was not, and how
often each answer came.
"""
import collections
import glob
import os
import random
import re
import subprocess
import sys
import tempfile

sys.dont_write_bytecode = True
from broken_runs import AIMS, NotHere, base_of, broken
from common import TOP, built_program
from random_dumps import dump_text
from second_dump import read_samples
from second_judge import PRIORITY, Trace, verdict

NAMES = ("BREQ0 BREQ1 BREQ2 BREQ3 BPRI LOCK BNR ADS AERR HIT HITM DEFER RS0 RS1 RS2 TRDY DBSY DRDY AP0 AP1 RP").split()
# A few edits of a word that is to be a trigger or a clock.
EDITS = ("", "/", ",", "!", "<3:", "<0:", "ADS", "ads", "=", "g", "0", "41", "REQ=20", "A=1000000000", " ", "_n", "D=10000000000000000", "-")
THEMES = "again", "again", "again", "", "upgrades", "deferrals", "full", "locks"
DUMPS_OF_A_RUN = 10


def answer(status, output, reason=None):
    """What a call says: its status, standard output, and standard error, which has the line of its output or a reason of its own."""
    return status, output, (output if reason is None else reason) if status else ""


# The verdict, by which an audit and a table begin.

class Look:
    """A dump: its samples, the words over them, and the verdict."""

    def __init__(self, text, first=0):
        self.marks, self.samples = read_samples(text)
        self.trace, self.verdict = Trace(self.marks, self.samples), verdict(self.marks, self.samples, first)
        self.broken = int(re.findall("[0-9]+", self.verdict)[0]) if self.verdict.startswith("rejected") else None

    def rejected(self):
        return answer(1, self.verdict + "\n")


# An audit.

def asked_words(trace, i):
    """The address word of the chunk that live request i asks for first: of a reply, that of the deferred request which it answers."""
    k = trace.live[i]
    if trace.request_at(k).kind == "Reply":
        k = next((other for other in trace.requests if trace.response_of_deferred(other) is not None and trace.reply_clock_of(other) == k), None)
    return None if k is None else trace.samples[k].a


def moved_chunks(trace):
    """The clock, the number and whether it comes from memory, of each chunk that is moved, in the order of the clocks."""
    moved = []
    for i in range(len(trace.live)):
        if trace.does_move(i):
            first, is_from_memory = asked_words(trace, i), trace.outcome_of(i) in ("Granted", "Replied")
            moved += [(c, None if first is None else first ^ place, is_from_memory) for place, c in enumerate(trace.data_clocks_of(i))]
    return sorted(moved)


def foul_chunk(trace):
    """The first foul clock and the number of its chunk, or None."""
    last = {}
    for c, chunk, is_from_memory in moved_chunks(trace):
        if is_from_memory and chunk in last and last[chunk] != trace.samples[c].d:
            return c, chunk
        last[chunk] = trace.samples[c].d
    return None


def audit(look):
    foul = foul_chunk(look.trace)
    if foul is not None and (look.broken is None or foul[0] < look.broken):
        return answer(10, f"foul clock={foul[0]} addr={8 * foul[1]:x}\n")
    if look.broken is not None:
        return look.rejected()
    return answer(0, f"clean clocks={len(look.samples)} chunks={len(moved_chunks(look.trace))}\n")


# A table.

def row(trace, number, k):
    request, agent = trace.request_at(k), trace.winner_at(k)
    address = None if request.kind in (None, "Reply") else f"{trace.samples[k].a >> 2 << 5:x}"
    if trace.is_cancelled(k):
        ends = [None, None, None, "aerr"]
    else:
        i = trace.live.index(k)
        outcome = trace.outcome_of(i)
        ends = [trace.snoop_end_of(i), trace.response_clock_of(i), trace.end_of(i), outcome and outcome.lower()]
    words = [number, k, "p" if agent == PRIORITY else agent, request.kind and request.kind.lower(), address, *ends]
    return " ".join("-" if word is None else str(word) for word in words)


def show(look):
    if look.broken is not None:
        return look.rejected()
    data = [sample.d for sample in look.samples if "DRDY" in sample.asserted]
    totals = [sum("ADS" in sample.asserted for sample in look.samples), len(data), sum(bin(word).count("1") for word in data)]
    lines = [f"probe {place} = {total}" for place, total in enumerate(totals)]
    lines += [row(look.trace, number, k) for number, k in enumerate(look.trace.requests)]
    return answer(0, "".join(line + "\n" for line in lines + [look.verdict]))


# A search.

def is_test(test):
    word, is_equation, digits = test.partition("=")
    if not is_equation:
        return test.removeprefix("!") in NAMES
    if not re.fullmatch("[0-9a-fA-F]{1,16}", digits):
        return False
    value = int(digits, 16)
    return word == "D" or word == "REQ" and value < 0x20 or word == "A" and value < 1 << 36 and value % 8 == 0


def is_trigger(word):
    steps = word.split("/")
    tests = [re.sub("^<(?!0*:)[0-9]{1,6}:", "", step, flags=re.ASCII) if place else step for place, step in enumerate(steps)]
    return len(steps) <= 8 and all(len(step.split(",")) <= 8 and all(map(is_test, step.split(","))) for step in tests)


def is_range(first, last):
    return all(re.fullmatch("[0-9]{1,10}", word) and int(word) < 1 << 32 for word in (first, last)) and 0 <= int(last) - int(first) <= 63


def test_holds(test, sample):
    if "=" in test:
        word, digits = test.split("=")
        value = {"REQ": sample.req, "A": sample.a, "D": sample.d}[word]
        return value is not None and value * (8 if word == "A" else 1) == int(digits, 16)
    name = test.lstrip("!")
    return name not in sample.unknown and (name in sample.asserted) == (name == test)


def steps_of(trigger):
    for step in trigger.split("/"):
        bound, tests = step[1:].split(":") if step[0] == "<" else (None, step)
        yield bound and int(bound), tests.split(",")


def find(look, trigger):
    """What a search says, by the clocks at which the steps up to each match."""
    if not is_trigger(trigger):
        return answer(2, "", "bad words\n")
    samples, matches = look.samples, []
    for bound, tests in steps_of(trigger):
        held = [all(test_holds(test, sample) for test in tests) for sample in samples]
        if matches:
            before = matches[-1]
            held = [holds and any(before[d] for d in range(0 if bound is None else max(0, c - bound), c)) for c, holds in enumerate(held)]
        matches.append(held)
    if True not in matches[-1]:
        return answer(11, f"none clocks={len(samples)}\n", "not found\n")
    clocks = [matches[-1].index(True)]
    for held in reversed(matches[:-1]):
        clocks.insert(0, max(c for c in range(clocks[0]) if held[c]))
    return answer(0, f"found clock={clocks[-1]} steps={','.join(map(str, clocks))}\n")


# A wave.

def mark(name, sample):
    return "#" if name in sample.asserted else "?" if name in sample.unknown else "."


def wave(look, first, last):
    if not is_range(first, last):
        return answer(2, "", "bad words\n")

    def text(value, times):
        return "?" if value is None else f"{value * times:x}"
    samples = look.samples
    clocks = [c for c in range(int(first), int(last) + 1) if c < len(samples)]
    lines = [f"{name:6}" + "".join(mark(name, samples[c]) for c in clocks) for name in NAMES]
    lines += [f"A {c} {text(samples[c].a, 8)} {text(samples[c].req, 1)}" for c in clocks
              if "ADS" in samples[c].asserted or c > 0 and "ADS" in samples[c - 1].asserted]
    lines += [f"D {c} {text(samples[c].d, 1)}" for c in clocks if "DRDY" in samples[c].asserted]
    return answer(0, "".join(line + "\n" for line in lines + [f"clocks={len(samples)}"]))


# Random words.

def random_trigger(chance, samples):
    def test(sample):
        kind = chance.randrange(12)
        word = {0: ("REQ", sample.req, 1), 1: ("A", sample.a, 8), 2: ("D", sample.d, 1)}.get(kind)
        if word and word[1] is not None:
            return f"{word[0]}={word[1] * word[2]:x}"
        asserted = sorted(sample.asserted)
        if asserted and kind < 9:
            return chance.choice(asserted)
        return chance.choice(["!", ""]) + chance.choice(NAMES)
    steps, clock = [], 0
    for number in range(chance.randint(1, 8)):
        clock = min(len(samples) - 1, clock + chance.randint(0, 5))
        bound = f"<{chance.randint(1, 9)}:" if number and chance.random() < 0.4 else ""
        steps.append(bound + ",".join(test(samples[clock]) for _ in range(chance.randint(1, 3))))
    return edited(chance, "/".join(steps))


def edited(chance, word):
    """The word, and at times another one."""
    if chance.random() < 0.85:
        return word
    place = chance.randrange(len(word) + 1)
    return word[:place] + chance.choice(EDITS) + word[min(len(word), place + chance.choice((0, 0, 1, 3))):]


def random_range(chance, samples):
    first = chance.randrange(len(samples) + 5)
    return edited(chance, str(first)), edited(chance, str(first + chance.randrange(66)))


class Trial:
    """The counts of each command's answers, and how many differ."""

    def __init__(self, program):
        self.program, self.answers, self.odd = program, collections.Counter(), 0

    def compare(self, path, name, words, wanted):
        done = subprocess.run([self.program, words[0], path, *words[1:]], capture_output=True)
        status, output, reason = done.returncode, done.stdout.decode(), done.stderr.decode()
        first = re.match("[a-z ]*", wanted[1] or wanted[2])[0].strip()
        self.answers[words[0], "drawn" if words[0] == "wave" and not wanted[0] else "rows" if first == "probe" else first.split(" clock")[0]] += 1
        if (status, output, reason) != wanted:
            self.odd += 1
            print(f"odd: {name}: {' '.join(map(repr, words))}: wanted {wanted}, said {(status, output, reason)}", flush=True)
        return (status, output, reason) == wanted

    def look_at(self, chance, path, name, look):
        """Tries all commands on a dump, and gives whether all answers are as they should be."""
        calls = [(("audit",), audit(look)), (("show",), show(look))]
        if look.samples:
            for _ in range(3):
                trigger = random_trigger(chance, look.samples)
                calls.append((("find", trigger), find(look, trigger)))
            for _ in range(2):
                words = random_range(chance, look.samples)
                calls.append((("wave", *words), wave(look, *words)))
        return all([self.compare(path, name, *call) for call in calls])

    def table(self):
        for (command, said), count in sorted(self.answers.items()):
            print(f"{command:8}{said:12}{count:8}")
        print(f"calls: {sum(self.answers.values())}, odd: {self.odd}")


def random_dumps(chance):
    """Texts of dumps, and up to where each breaks no rule: of a lawful run, and of it with other data or broken."""
    base = base_of(chance, THEMES)
    yield "as it is", dump_text(chance, base.samples), 0
    for number in range(1, DUMPS_OF_A_RUN):
        try:
            run, names = broken(chance, base, chance.choice(("data", "data", "lawful", chance.choice(AIMS))), chance.choice((0, 1, 2)))
        except NotHere:
            continue
        if run.samples:
            yield names, dump_text(chance, run.samples), run.first_change()


def main():
    words = sys.argv[1:] + [None] * 3
    trial, count, seed = Trial(built_program(words[0])), int(words[1] or 300), int(words[2] or 1)
    sys.setrecursionlimit(100000)
    for path in sorted(glob.glob(os.path.join(TOP, "crates/rows_trials/data/*.vcd"))):
        with open(path, "rb") as file:
            trial.look_at(random.Random(f"{seed} {os.path.basename(path)}"), path, os.path.basename(path), Look(file.read()))
    folder, number, made = tempfile.mkdtemp(prefix="second_look."), 0, 0
    while made < count:
        chance, number = random.Random(f"look {seed} {number}"), number + 1
        for names, text, first in random_dumps(chance):
            path = os.path.join(folder, f"{made}.vcd")
            with open(path, "w") as file:
                file.write(text)
            if trial.look_at(chance, path, f"run {number - 1} of seed {seed}, {names}, {path}", Look(text.encode(), first)):
                os.remove(path)
            made += 1
    if not os.listdir(folder):
        os.rmdir(folder)
    print(f"dumps: {made}")
    trial.table()
    return 1 if trial.odd else 0


if __name__ == "__main__":
    sys.exit(main())
