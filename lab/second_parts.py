#!/usr/bin/env python3
"""A second opinion on which clocks of a dump are judged, and what is found there, beside `p6scope check`.

Usage: lab/second_parts.py [PROGRAM [COUNT [SEED [JOBS]]]]      (crates/p6scope/out/p6scope, 20,000, 1, 1)

It was written from docs/scope.md, docs/proof/decisions-scope.md, docs/dump.md and docs/reference/dump-format.md; the rules are those of
second_judge.py. COUNT dumps are made up of runs of traffic (random_dumps.py), lawful or not, with pauses between them: with a reset, stops in
which clocks are lost, digits of VHDL, a clock that begins high, other edges, lines that change with the edge, comments, and a cut at any byte.
Begin, end, quiet, --resume and --max are drawn, C as a number or as a time. Status, verdict (clock, time, line of the file, rule) and each part
of the report must be those of the second opinion. Every difference is kept in a file and told; ends with 1 if there is one.
"""

import collections
import os
import random
import re
import sys
import tempfile

sys.dont_write_bytecode = True
from random_dumps import Traffic
from second_dump import LINES, NEEDED, WIDTHS, Marks, Sample, sample_of
from second_judge import decode, is_odd, verdict
from second_wires import DIGITS, answer_of, compared

NO_SECTIONS = ("$dumpvars", "$dumpall", "$dumpon", "$dumpoff", "$end")
MOST_PARTS = 16
Step = collections.namedtuple("Step", "sample time row")            # one sample, with the time and the text line of its edge
HOLE = "hole"


class Fault(Exception):
    """The text is no dump."""


# What happens in a dump.

class Course:
    """The steps and the holes of a text, whose wires are those of the codes; they go on up to its end, or to what is whole of it."""

    def __init__(self, text, codes, options):
        self.codes, self.options = codes, options
        self.values = {name: ("x" if name in codes.values() else "1") * width for name, width in WIDTHS.items()}
        self.before, self.events, self.is_seen, self.is_stopped = dict(self.values), [], False, False
        self.time, self.row, self.is_early = 0, 1, False
        self.read(text)

    def read(self, text):
        words = [(match.start(), match[0]) for match in re.finditer(r"[^\t-\r ]+", text)]
        rows, row, at = [], 1, 0
        for place, _ in words:
            row += text.count("\n", at, place)
            at = place
            rows.append(row)
        is_open = bool(words) and words[-1][0] + len(words[-1][1]) == len(text)
        number = 0
        while number < len(words):
            try:
                number = self.word(words, number, rows)
            except (Fault, EOFError) as end:
                if isinstance(end, Fault) and not (is_open and number + (end.args[0] == "code") >= len(words) - 1):
                    raise
                self.is_early = True
                return
        self.end_block()

    def word(self, words, number, rows):
        """Reads what begins with this word, and answers the number behind it. EOFError: the text ends inside."""
        word = words[number][1]
        if word[0] == "#":
            self.stamp(word, rows[number])
        elif word[0] == "$":
            if word == "$dumpoff":
                self.end_block()
                self.stop()
            elif word == "$dumpon":
                self.go_on()
            elif word not in NO_SECTIONS:
                return self.section(words, number)
        elif word[0] in "bB":
            if not word[1:] or not all(digit in DIGITS for digit in word[1:]):
                raise Fault(word)
            if number + 1 == len(words):
                raise EOFError
            self.change(word[1:], words[number + 1][1])
            return number + 2
        elif word[0] in DIGITS and word[1:]:
            self.change(word[0], word[1:])
        else:
            raise Fault(word)
        return number + 1

    def section(self, words, number):
        for end in range(number + 1, len(words)):
            if words[end][1] == "$end":
                return end + 1
        if any(re.fullmatch(r"#\d+", word) for _, word in words[number:]):
            raise ValueError("an open section with a stamp")
        raise EOFError

    def stamp(self, word, row):
        if not re.fullmatch(r"#\d{1,20}", word) or int(word[1:]) >= 1 << 64 or int(word[1:]) < self.time:
            raise Fault(word)
        if int(word[1:]) > self.time:
            self.end_block()
            self.time, self.row = int(word[1:]), row

    def change(self, digits, code):
        if code not in self.codes:
            raise Fault("code", code)
        name = self.codes[code]
        if name is None:
            return
        if len(digits) > WIDTHS[name]:
            raise Fault(digits)
        digits = "".join(DIGITS[digit] for digit in digits)
        self.values[name] = digits.rjust(WIDTHS[name], "0" if digits[0] in "01" else digits[0])

    def unknown(self):
        for name in self.codes.values():
            if name:
                self.values[name] = "x" * WIDTHS[name]
        self.before = dict(self.values)

    def stop(self):
        self.unknown()
        self.is_stopped = True
        self.events.append(HOLE)

    def go_on(self):
        """Where the dump was stopped, the lines are unknown again; a part that began in the stop ends here."""
        if self.is_stopped:
            self.end_block()
            self.unknown()
            self.is_stopped = False
            self.events.append(HOLE)

    def end_block(self):
        was, now = self.before["BCLK"], self.values["BCLK"]
        edge = ("1", "0") if self.options["fall"] else ("0", "1")
        is_first = self.options["first"] and not self.is_seen and was not in ("0", "1") and now == edge[1]
        if (was, now) == edge or is_first:
            taken = {name: self.values[name] if name in self.options["after"] else digits for name, digits in self.before.items()}
            if is_first:
                taken = {name: "".join(new if old == "x" else old for old, new in zip(digits, self.values[name])) for name, digits in taken.items()}
            self.events.append(Step(sample_of(taken), self.time, self.row))
        self.is_seen = self.is_seen or now in ("0", "1")
        self.before = dict(self.values)


# Parts.

def history(agent, parity):
    """Eight clocks in which the agent begins a request, which is cancelled."""
    asked = {"BREQ%d" % agent}
    lines = [asked, asked, asked | {"ADS"}, set(), set(), {"AERR"}, set(), set()]
    words = [(0, 0), (0, 0), (6, 0), (2, agent << 17)] + [(0, 0)] * 4
    found = []
    for asserted, word in zip(lines, words):
        req, a = word
        if parity:
            groups = {"AP0": [a & (1 << 21) - 1], "AP1": [a >> 21], "RP": [req, "ADS" in asserted]}
            asserted = asserted | {line for line, group in groups.items() if is_odd(*group)}
        found.append(Sample(set(), asserted, 0, req, a, 0))
    return found


def broken(marks, samples, is_whole):
    """The place of the first broken clock in a part, and the rule; or None."""
    if is_whole:
        return numbers(verdict(marks, samples), 0)
    found = []
    for agent in range(4):
        before = history(agent, marks.ap or marks.rp)
        found.append(numbers(verdict(marks, before + samples, len(before)), len(before)))
    return None if None in found else max(found)


def numbers(line, less):
    found = [int(number) for number in re.findall(r"\d+", line)]
    return (found[0] - less, found[1]) if len(found) == 2 else None


class Parts:
    """The parts of a course, as the options say: triples of first clock, last clock and (clock, rule) or None."""

    def __init__(self, course, marks, options):
        self.steps = [event for event in course.events if event != HOLE]
        self.marks, self.options, self.found = marks, options, []
        self.last = options["to"] if options["to"] is not None else len(self.steps)
        events, clock, place, is_over = course.events, 0, 0, False
        while place < len(events) and not is_over:
            place, clock, is_over = self.segment(events, place, clock, place == 0)

    def may_begin(self, clock, quiet, is_first):
        options, sample = self.options, self.steps[clock].sample
        if not is_first:
            return quiet >= max(options["quiet"], 2)
        if options["at"] is not None:
            return clock >= options["at"]
        if options["from"] is not None:
            return clock >= options["from"] and quiet >= options["quiet"]
        return not sample.unknown

    def segment(self, events, place, clock, is_first):
        quiet, begin, has_stopped = 0, None, False
        while place < len(events):
            if events[place] == HOLE:
                if begin is not None:
                    break
                quiet, place, has_stopped = 0, place + 1, True
                continue
            if clock > self.last:
                break
            sample = self.steps[clock].sample
            quiet = 0 if [name for name in sample.asserted if not name.startswith(("AP", "RP"))] or sample.unknown else quiet + 1
            if begin is None and self.may_begin(clock, quiet, is_first):
                begin = clock
            place, clock = place + 1, clock + 1
        if begin is None:
            return len(events), clock, True
        is_whole = is_first and not has_stopped and (begin == 0 or self.options["at"] is None and self.options["from"] is None)
        samples = [step.sample for step in self.steps[begin:clock]]
        found = broken(self.marks, samples, is_whole)
        if found is None:
            self.found.append((begin, clock - 1, None))
            return (place + 1 if place < len(events) else place), clock, clock > self.last
        at, rule = begin + found[0], found[1]
        back = clock - at - 1
        if not is_whole and rule == 18 and is_foreign(samples, found[0] - 1):
            if at - 2 >= begin:
                self.found.append((begin, at - 2, None))
            return place - back, at + 1, False
        is_last = sum(part[2] is not None for part in self.found) + 1 >= self.options["max"]
        self.found.append((begin, clock - 1 if is_last else at, (at, rule)))
        return place - back, at + 1, is_last


def is_foreign(samples, place):
    """Whether a reply begins there with an ID that no request of the part before it had."""
    if place < 0 or decode(samples[place], samples[place + 1]).kind != "Reply":
        return False
    before = [decode(samples[at], samples[at + 1]) for at in range(place) if "ADS" in samples[at].asserted]
    return decode(samples[place], samples[place + 1]).id not in [request.id for request in before if request and request.kind != "Reply"]


def opinion(course, marks, options, scale):
    """Status, second line, and the parts."""
    parts = Parts(course, marks, options)
    steps = parts.steps
    if not parts.found:
        return 3, None, []
    count = sum(last - first + 1 for first, last, _ in parts.found)
    wrong = [part[2] for part in parts.found if part[2]]
    if not wrong:
        return 0, "accepted: %d of %d clocks judged" % (count, len(steps)), parts.found
    step = steps[wrong[0][0]]
    return 1, "rejected at clock %d, %s (line %d of the file): rule %d," % (wrong[0][0], shown_time(step.time, scale), step.row, wrong[0][1]), parts.found


def shown_time(time, scale):
    if scale is None:
        return "time %d" % time
    factor, unit = scale
    units = ["s", "ms", "us", "ns", "ps", "fs"]
    count, place = time * factor, units.index(unit)
    while count and place and count % 1000 == 0:
        count, place = count // 1000, place - 1
    return "%d %s" % (count, units[place])


# Made-up dumps.

class Run(Traffic):
    """The first clocks of a run of traffic."""

    def __init__(self, chance, forgotten):
        self.most = chance.choice([5, 8, 12, 18, 30])
        super().__init__(chance, forgotten)

    def drive(self, c):
        if c < self.most:
            super().drive(c)


class Maker:
    """A dump with its options."""

    def __init__(self, chance):
        self.chance = chance
        self.parity = chance.random() < 0.1
        self.samples = self.traffic()
        self.names = [name for name in WIDTHS if name in NEEDED or name in self.samples[0] and (chance.random() < 0.3 or any(
            set(sample[name]) & set("0x") for sample in self.samples))]
        self.codes = {name: chr(33 + place) + chance.choice(["", "", "!", "~"]) for place, name in enumerate(self.names)}
        self.is_vhdl = chance.random() < 0.25
        self.scale = chance.choice([(1, "ns"), (1, "ns"), (10, "ps"), (100, "us"), (1, "s"), None])
        self.fall, self.late = chance.random() < 0.1, chance.random() < 0.2
        self.after = self.names[1:] if self.late and chance.random() < 0.6 else []
        self.text = self.header() + self.values()
        self.is_cut = chance.random() < 0.3
        if self.is_cut:
            start = len(self.header())
            self.text = self.text[:chance.randint(start, len(self.text))]

    @staticmethod
    def idle():
        return {name: "1" * width for name, width in WIDTHS.items() if name != "BCLK"}

    def traffic(self):
        chance, found = self.chance, []
        for _ in range(chance.choice([0, 0, 0, 1, 2, 3])):
            digits = self.idle()
            for name in chance.sample(sorted(LINES), 3):
                digits[name] = "x" * WIDTHS[name]
            found.append(digits)
        for _ in range(chance.choice([1, 1, 2, 2, 3])):
            run = Run(chance, chance.choice([None, None, None, *range(1, 19), 18, 18])).samples
            found += [{**self.idle(), **{name: digits for name, digits in sample.items() if name not in ("AP_n", "RP_n")}} for sample in run]
            for _ in range(chance.choice([0, 1, 2, 3, 5, 9])):
                pause = self.idle()
                if chance.random() < 0.1:
                    pause["D_n"] = "".join(chance.choices("01x", k=64))
                found.append(pause)
        return [{name: digits for name, digits in sample.items() if self.parity or name not in ("AP_n", "RP_n")} for sample in found]

    def header(self):
        rows = ["$timescale %d %s $end" % self.scale] if self.scale else []
        rows += ["$scope module fsb $end"]
        rows += ["$var wire %d %s %s $end" % (WIDTHS[name], self.codes[name], name) for name in self.names]
        return "\n".join(rows + ["$var reg 8 other other $end", "$upscope $end", "$enddefinitions $end", ""])

    def digits(self, name, digits):
        chance = self.chance
        if WIDTHS[name] > 1:
            while chance.random() < 0.5 and digits[1:] and digits[0] == (digits[1] if digits[1] in "xz" else "0"):
                digits = digits[1:]
        if self.is_vhdl:
            digits = "".join(chance.choice({"0": "00L", "1": "11H", "x": "XUW-uw", "z": "zZ"}[digit]) for digit in digits)
        elif chance.random() < 0.1:
            digits = digits.upper()
        return "b%s %s" % (digits, self.codes[name]) if WIDTHS[name] > 1 else digits + self.codes[name]

    def changes(self, new, old=None):
        return [self.digits(name, new[name]) for name in self.names if name != "BCLK" and (old is None or new[name] != old[name])]

    def values(self):
        chance, clock = self.chance, self.codes["BCLK"]
        low, high = ("1", "0") if self.fall else ("0", "1")
        rows, old = ["#0", "$dumpvars"] if chance.random() < 0.8 else [], None
        is_high_first = chance.random() < 0.1
        rows += [(high if is_high_first else low) + clock] + self.changes(self.samples[0]) + (["$end"] if rows else [])
        lost, is_kept = 0, False
        for c, sample in enumerate(self.samples):
            if lost:
                lost -= 1
                if is_kept and lost:
                    rows += ["#%d" % (10 * c), low + clock] + self.changes(sample) + ["#%d" % (10 * c + 5), high + clock]
                if not lost:
                    rows += ["#%d" % (10 * c + 1), "$dumpon"] + [chance.choice([low, low, high]) + clock] + self.changes(sample) + ["$end"] * chance.randint(0, 1)
                continue
            changed = self.changes(sample, self.samples[c - 1]) if c else []
            rows += ["#%d" % (10 * c), low + clock] if c else []
            if not self.late:
                rows += changed
            if chance.random() < 0.01:
                rows += ["$dumpon"]
            if chance.random() < 0.03:
                rows += ["$comment %s $end" % chance.choice(["hello", "1 2 #7", "$dumpoff"]), "b01x other"]
            if chance.random() < 0.03:
                lost, is_kept = chance.choice([1, 1, 2, 5, 10]), chance.random() < 0.1
                rows += ["#%d" % (10 * c + chance.choice([0, 2])), "$dumpoff"] + (
                    [self.digits(name, "x" * WIDTHS[name]) for name in self.names] if chance.random() < 0.8 else []) + ["$end"] * chance.randint(0, 1)
                continue
            rows += ["#%d" % (10 * c + 5), high + clock]
            if self.late and c + 1 < len(self.samples) and not self.after:
                rows += self.changes(self.samples[c + 1], sample)
            elif self.late:
                rows += changed
        return "\n".join(rows) + chance.choice(["", "\n", "\n"])

    def options(self):
        chance = self.chance
        count = len(self.samples)
        options = {"fall": self.fall, "first": chance.random() < 0.15, "after": self.after, "at": None, "from": None, "to": None, "quiet": 32, "max": 0}
        words = ["--edge=fall"] * options["fall"] + ["--first"] * options["first"] + ["--after=" + ",".join(self.after)] * bool(self.after)
        kind = chance.choice(["", "", "at", "from", "from"])
        if kind:
            options[kind] = chance.randint(0, count)
            words += ["--%s=%d" % (kind, options[kind])]
        if chance.random() < 0.25:
            options["to"] = chance.randint(options[kind] if kind else 0, count + 2)
            words += ["--to=%d" % options["to"]]
        if chance.random() < 0.9:
            options["quiet"] = chance.choice([1, 2, 2, 3, 3, 4, 6, 32])
            words += ["--quiet=%d" % options["quiet"]]
        if chance.random() < 0.5:
            options["max"] = 16
            words += ["--resume"]
            if chance.random() < 0.3:
                options["max"] = chance.randint(1, 3)
                words += ["--max=%d" % options["max"]]
        return options, words

    def as_times(self, words, steps):
        """Some numbers of clocks as times: a begin takes the first edge at or above it, an end the last one at or below it."""
        if self.scale is None or not steps or self.chance.random() < 0.6:
            return words
        times = [step.time for step in steps]

        def timed(found):
            clock = int(found[2])
            if clock >= len(times):
                return found[0]
            if found[1] == "--to=":
                time = self.chance.randint(times[clock], times[clock + 1] - 1 if clock + 1 < len(times) else times[clock] + 3)
            else:
                time = self.chance.randint(times[clock - 1] + 1 if clock else 0, times[clock])
            return "%s%d%s" % (found[1], time * self.scale[0], self.scale[1])
        return [re.sub(r"(--(?:at|from|to)=)(\d+)$", timed, word) for word in words]


# Comparing.

def parts_told(out):
    return [(int(found[1]), int(found[2] or found[1]), (int(found[3]), int(found[4])) if found[3] else None) for found in re.finditer(
        r"^  part \d+: clocks? (\d+)(?: to (\d+))?, (?:accepted|rejected at clock (\d+), .*: rule (\d+))", out, re.M)]


def tried(program, folder, seed, number):
    maker = Maker(random.Random("parts %s %d" % (seed, number)))
    options, words = maker.options()
    codes = {**{code: name for name, code in maker.codes.items()}, "other": None}
    marks = Marks("AP_n" in maker.names, "RP_n" in maker.names)
    body = maker.text[len(maker.header()):]
    try:
        course = Course(body, codes, options)
        for place, event in enumerate(course.events):
            if event != HOLE:
                course.events[place] = event._replace(row=event.row + maker.header().count("\n"))
        wanted = opinion(course, marks, options, maker.scale)
        words = maker.as_times(words, [event for event in course.events if event != HOLE])
    except (Fault, ValueError) as fault:
        course, wanted = None, (3, "a fault: %s" % fault, [])
    path = os.path.join(folder, "%d.vcd" % number)
    with open(path, "w", newline="") as file:
        file.write(maker.text)
    answer = answer_of(program, ["check", *words], path)
    wrong = fault_of(wanted, answer, course)
    if not wrong:
        os.remove(path)
        return "status %d%s%s" % (wanted[0], ", %d parts" % len(wanted[2]) if len(wanted[2]) > 1 else "", ", early" if course and course.is_early else ""), None
    kept = os.path.join(tempfile.gettempdir(), "second_parts_%s_%d.vcd" % (seed, number))
    os.replace(path, kept)
    return "status %d" % wanted[0], "p6scope check %s %s\n  %s\n  second opinion: %r\n  the program: %d %r" % (
        " ".join(words), kept, wrong, wanted, answer[0], (answer[1].split("\n")[1:2], answer[2][:200], parts_told(answer[1])))


def fault_of(wanted, answer, course):
    status, line, parts = wanted
    if answer[0] != status:
        return "the status"
    if course is None:
        return "" if ", byte " in answer[2] else "no fault of the text"
    if ("the file ends early" in answer[1] + answer[2]) != course.is_early:
        return "an early end"
    if line is None:
        return ""
    said = answer[1].split("\n")[1]
    if not (said == line if status == 0 else said.startswith(line)):
        return "the verdict"
    return "" if parts_told(answer[1]) == (parts[:MOST_PARTS] if len(parts) > 1 else []) else "the parts"


if __name__ == "__main__":
    sys.exit(compared(tried, 100_000))
