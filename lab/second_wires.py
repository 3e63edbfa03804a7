#!/usr/bin/env python3
"""A second opinion on which wires of a dump are the bus, and which samples they give, beside `p6scope pick` and `p6scope lines`.

Usage: lab/second_wires.py [PROGRAM [COUNT [SEED [JOBS]]]]      (crates/p6scope/out/p6scope, 20,000, 1, 1)

It was written from docs/scope.md, docs/proof/decisions-scope.md and docs/dump.md. COUNT small dumps are made up: scopes, spellings of names,
escaped names, names with dots, words of other ranges and widths, words in single bits, shared codes, reals, strings, events, parameters;
with options or without. Each bit of each variable takes a random level every few steps, so a wire that is another one shows in the samples.
The dump that `pick` writes must have the lines and the samples of the second opinion, or the refusal must have its cause; `lines` must end
with 0 exactly where `pick` without an option writes a dump. Every difference is kept in a file and told; ends with 1 if there is one.
"""

import collections
import concurrent.futures
import functools
import os
import random
import re
import subprocess
import sys
import tempfile

sys.dont_write_bytecode = True
from common import TOP
from random_headers import NO_WIRES, MadeUp, lowest
from second_dump import NEEDED, WIDTHS, read_samples

SPLIT = ("REQ_n", "A_n", "RS_n", "D_n", "AP_n")
DIGITS = {**dict.fromkeys("0lL", "0"), **dict.fromkeys("1hH", "1"), **dict.fromkeys("zZ", "z"), **dict.fromkeys("xXuUwW-", "x")}

# A variable of the header: its scope and its name, both with the dots of the name parted; the range is a pair, None, or False where it is none
# that counts.
Variable = collections.namedtuple("Variable", "number kind width code scope name range")
# What is taken of a variable for a line: for each bit of the line, the highest first, the code and the place in the value, counted from the end.
Wire = collections.namedtuple("Wire", "bits is_high")


class Refused(Exception):
    """No wires are taken: the cause."""


# The header.

def read_header(text):
    """The variables of a header, in their order."""
    scopes, variables = [], []
    words = text.split()
    place = 0
    while place < len(words):
        end = words.index("$end", place)
        section, place = words[place:end], end + 1
        if section[:1] == ["$scope"]:
            scopes.append(section[2])
        elif section[:1] == ["$upscope"]:
            scopes = scopes[:-1]
        elif section[:1] == ["$var"]:
            variables.append(variable(len(variables), scopes, section))
        elif section[:1] == ["$enddefinitions"]:
            return variables
    raise ValueError


def variable(number, scopes, section):
    name, behind = section[4], "".join(section[5:])
    if not behind and (glued := re.fullmatch(r"(.+)(\[[^\[\]]*\])", name)):
        name, behind = glued[1], glued[2]
    *scope, name = ".".join(scopes + [name]).split(".")
    return Variable(number, section[1], int(section[2]), section[3], ".".join(scope), plain(name), range_of(behind))


def plain(name):
    """A name without the backslash of an escaped one."""
    return name[1:] if name[:1] == "\\" else name


def range_of(text):
    if not text:
        return None
    found = re.fullmatch(r"\[(\d{1,8})(?::(\d{1,8}))?\]", text)
    return (int(found[1]), int(found[2] or found[1])) if found else False


# Names, and what a variable is.

@functools.lru_cache(None)
def line_named(name):
    """The line that a name without an index stands for, or None."""
    low = name.lower()
    ends = [low] + [low[:-len(end)] + "_n" for end in ("#", "_l", "_b") if low.endswith(end)]
    for line in WIDTHS:
        if line.lower() in ends:
            return line
    return None


def whole_bits(line, one):
    """The bits of a variable that is taken as a line without brackets, or None."""
    width = WIDTHS[line]
    if one.kind in NO_WIRES or one.range is False:
        return None
    if one.width == width:
        return [(one.code, place) for place in range(width - 1, -1, -1)]
    if one.width < width or width == 1:
        return None
    return picked_bits(one, lowest(line) + width - 1, lowest(line))


def picked_bits(one, high, low):
    """The bits with these indices of a variable, from high to low, or None."""
    if one.kind in NO_WIRES or one.range is False:
        return None
    left, right = one.range or (one.width - 1, 0)
    if abs(left - right) + 1 != one.width:
        return None
    places = []
    for index in range(high, low - 1, -1) if high >= low else range(high, low + 1):
        place = abs(index - right)
        if not min(left, right) <= index <= max(left, right):
            return None
        places.append((one.code, place))
    return places


# The lines of one scope.

def split_words(scope):
    """The words of a scope that are declared bit by bit and whole: of each line a list of one or none."""
    found = {}
    for one in scope:
        if one.width != 1 or one.kind in NO_WIRES:
            continue
        named = re.fullmatch(r"(.*?)(?:\[(\d{1,8})\]|\((\d{1,8})\)|_(\d{1,8}))", one.name)
        line, number, base = None, None, ""
        if named and line_named(named[1]) in SPLIT:
            base, number = named[1], int(named[2] or named[3] or named[4])
        elif one.range and one.range[0] == one.range[1] and line_named(one.name) in SPLIT:
            base, number = one.name, one.range[0]
        else:
            continue
        line = line_named(base)
        found.setdefault((line, base == line), []).append((number, one.code))
    return found


def joined(line, bits):
    """The bits of a word of the line, the highest first, or None where they are not whole."""
    numbers = collections.defaultdict(set)
    for number, code in bits:
        numbers[number].add(code)
    width = WIDTHS[line]
    for low in (lowest(line), 0):
        if all(len(numbers.get(low + place, ())) == 1 for place in range(width)):
            return [(next(iter(numbers[low + place])), 0) for place in range(width - 1, -1, -1)]
    return None


def candidates(scope, line, splits):
    """What may be this line in the scope: pairs of bits and whether it has the exact name."""
    found = []
    for one in scope:
        base = one.name
        if line_named(base) == line and whole_bits(line, one) is not None:
            found.append((whole_bits(line, one), base == line))
    for is_exact in (True, False):
        bits = joined(line, splits.get((line, is_exact), []))
        if bits is not None:
            found.append((bits, is_exact))
    return found


def found_in(scope, splits, line):
    """The bits of the line in this scope, None where it has none, or 'ambiguous'."""
    rivals = candidates(scope, line, splits)
    for wanted in (True, False):
        found = [bits for bits, is_exact in rivals if is_exact == wanted]
        if len({tuple(code for code, _ in bits) for bits in found}) > 1:
            return "ambiguous"
        if found:
            return found[0]
    return None


class Header:
    """The variables by their scopes, and the line of each scope."""

    def __init__(self, variables):
        self.variables, self.scopes = variables, {}
        for one in variables:
            self.scopes.setdefault(one.scope, []).append(one)
        self.found = {}
        for name, scope in self.scopes.items():
            splits = split_words(scope)
            self.found[name] = {line: found_in(scope, splits, line) for line in WIDTHS}

    def lacks(self, scope, taken):
        """The needed lines that a scope lacks, and the ambiguous ones, but for those that are taken otherwise."""
        found = self.found[scope]
        return ([line for line in WIDTHS if line in NEEDED and line not in taken and found[line] is None],
                [line for line in WIDTHS if line not in taken and found[line] == "ambiguous"])

    def is_same(self, one, other, taken):
        """Whether the scope `other` is the same bus as the scope `one`, which has all of its lines."""
        first, second = ({line: bits for line, bits in self.found[it].items() if bits and line not in taken} for it in (one, other))
        if any(line not in first for line in second):
            return False
        shares = [first[line] == second[line] for line in second if line in SPLIT]
        return all(first[line] == second[line] for line in second if line not in SPLIT) and (all(shares) or not any(shares))

    def picked(self, taken):
        """The scope that is the bus."""
        if all(line in taken for line in NEEDED):
            return None
        scopes = [it for it in self.scopes if not self.lacks(it, taken)[0]]
        whole = [it for it in scopes if not self.lacks(it, taken)[1]]
        if not whole:
            if not any(self.found[it][line] for it in self.scopes for line in WIDTHS):
                raise Refused("none named")
            raise Refused("missing")
        count = {it: sum(bits is not None for line, bits in self.found[it].items() if line not in taken) for it in whole}
        best = [it for it in whole if all(self.is_same(it, other, taken) for other in whole)]
        if not best:
            raise Refused("several")
        return max(best, key=lambda it: (count[it], -list(self.scopes).index(it)))

    def place(self, path):
        """The variables of the scope of this path, or of the one that is the same but for escapes."""
        here = [one for one in self.variables if one.scope == path]
        if here:
            return here
        alike = [one for one in self.variables if unescaped(one.scope) == unescaped(path)]
        return alike if len({one.scope for one in alike}) == 1 else []

    def named(self, line, text, home):
        """The variables and the bits that a target names, or the bits of a word that is declared bit by bit."""
        *scope, name = text.split(".")
        scope = ".".join(scope) if "." in text else home
        if scope is None:
            raise Refused("names no variable")
        here, name = self.place(scope), plain(name)
        if line in SPLIT and is_word(here, name):
            return None, word_bits(here, line, name, None)
        exact = [one for one in here if one.name == name]
        if exact:
            return exact, None
        bits = re.fullmatch(r"(.*)\[(\d{1,8})(?::(\d{1,8}))?\]", name)
        if not bits:
            raise Refused("names no variable")
        high, low = int(bits[2]), int(bits[3] or bits[2])
        base = [one for one in here if one.name == bits[1]]
        as_declared = [one for one in base if one.range == (high, low)]
        if as_declared:
            return as_declared, None
        if is_word(here, bits[1]):
            return None, word_bits(here, line, bits[1], (high, low))
        if not base:
            raise Refused("names no variable")
        return base, (high, low)


def unescaped(path):
    return path.replace("\\", "").replace(" ", "")


def index_in(one, word):
    """The index of a variable as a bit of the word of this name, or None."""
    if one.width != 1 or one.kind in NO_WIRES:
        return None
    if one.name == word:
        return one.range[0] if one.range and one.range[0] == one.range[1] else None
    named = re.fullmatch(r"(.*)(?:\[(\d{1,8})\]|\((\d{1,8})\)|_(\d{1,8}))", one.name)
    return int(named[2] or named[3] or named[4]) if named and plain(named[1]) == word else None


def is_word(here, name):
    """Whether the name is that of a word alone, declared bit by bit."""
    indices = [index_in(one, name) for one in here]
    return any(it is not None for it in indices) and not any(one.name == name and it is None for one, it in zip(here, indices))


def word_bits(here, line, word, range_named):
    """The bits of the word as the line, the highest first."""
    wires = collections.defaultdict(set)
    for one in here:
        if (index := index_in(one, word)) is not None:
            wires[index].add(one.code)
    width = WIDTHS[line]
    if range_named is None:
        ranges = [(lowest(line) + width - 1, lowest(line))]
        if max(wires) < width:
            ranges.append((width - 1, 0))
    else:
        ranges = [range_named]
    for high, low in ranges:
        if abs(high - low) + 1 != width:
            continue
        indices = range(high, low - 1, -1) if high >= low else range(high, low + 1)
        if any(len(wires.get(index, ())) > 1 for index in indices):
            raise Refused("names several")
        if all(index in wires for index in indices):
            return [(next(iter(wires[index])), 0) for index in indices]
    raise Refused("cannot be")


def wires_of(variables, options):
    """The wire of each line that is there, and the judged scope; or Refused."""
    header = Header(variables)
    taken = [line for line, _, _ in options["line"]] + options["without"]
    if any(line in NEEDED and line != "D_n" for line in options["without"]):
        raise Refused("left out")
    if len(set(taken)) < len(taken):
        raise Refused("twice")
    scope = options["scope"]
    if scope is not None:
        here = header.place("" if scope == "." else scope)
        if not here:
            raise Refused("no such scope")
        scope = here[0].scope
    else:
        scope = header.picked(taken)
    if options["scope"] is not None and any(header.lacks(scope, taken)):
        raise Refused("no whole bus")
    wires = {}
    for line, is_high, target in options["line"]:
        wires[line] = Wire(target_bits(header, line, target, scope), is_high)
    if scope is not None:
        for line, bits in header.found[scope].items():
            if bits and line not in taken:
                wires[line] = Wire(bits, False)
    return wires, scope


def target_bits(header, line, target, scope):
    found, part = header.named(line, target, scope)
    if found is None:
        return part
    if len({one.code for one in found}) > 1:
        raise Refused("names several")
    one = found[0]
    bits = whole_bits(line, one) if part is None else picked_bits(one, *part)
    if bits is None or len(bits) != WIDTHS[line]:
        raise Refused("cannot be")
    return bits


# The samples.

def samples_of(text, wires):
    """The digits of each line at each rise of BCLK."""
    values, before, found, last = {}, {}, [], None

    def digits(of, line):
        wire = wires[line]
        return "".join(turned(of[code][-1 - place] if place < len(of.get(code, "")) else "x", wire.is_high) for code, place in wire.bits)

    def end_block():
        if before and digits(before, "BCLK") == "0" and digits(values, "BCLK") == "1":
            found.append({line: digits(before, line) for line in wires if line != "BCLK"})
        before.clear()
        before.update(values)
    words = iter(text[text.index("$enddefinitions"):].split()[2:])
    for word in words:
        if word[0] == "#":
            if last is not None and int(word[1:]) != last:
                end_block()
            last = int(word[1:])
        elif word[0] in "bB":
            values[next(words)] = "".join(DIGITS[digit] for digit in word[1:])
        elif word[0] in "rRsS":
            next(words)
        elif word[0] != "$":
            values[word[1:]] = DIGITS[word[0]]
    end_block()
    return found


def turned(digit, is_high):
    return {"0": "1", "1": "0", "z": "z", "x": "x"}[digit] if is_high else digit


# Comparing.

CAUSES = [("none named", "no variable is named like a line"), ("missing", "no scope has every needed line"), ("several", "scopes are a whole bus"),
          ("no such scope", "no variable stands in the scope"), ("no whole bus", "is no whole bus"), ("names no variable", "names no variable"),
          ("cannot be", "cannot be the line"), ("twice", "is named or left out twice"), ("left out", "is left out, and no bus"),
          ("names several", "variables of different codes"), ("names several", "names several")]


def answer_of(program, words, path):
    done = subprocess.run([program, *words, path], capture_output=True, timeout=60, stdin=subprocess.DEVNULL)
    return done.returncode, done.stdout.decode("latin-1"), done.stderr.decode("latin-1")


def said(answer):
    """The cause of a refusal, or the lines and samples of the dump that was written."""
    status, out, error = answer
    if status == 0 and out.startswith("$version p6scope"):
        names = re.findall(r"\$var \S+ \d+ \S (\S+)", out)
        return "wires", names, read_samples(out.encode())[1]
    first = (out or error).split("\n")[0]
    return next((cause for cause, words in CAUSES if words in first), "status %d: %s" % (status, first)), None, None


def opinion(text, variables, options):
    try:
        wires, _ = wires_of(variables, options)
    except Refused as cause:
        return cause.args[0], None, None
    names = [line for line in WIDTHS if line in wires or line in NEEDED]
    rows = []
    for digits in samples_of(text, wires):
        rows.append({line: digits.get(line, "1" * WIDTHS[line]) for line in names if line != "BCLK"})
    return ("wires", names, rows) if rows else ("no edge", None, None)


def as_samples(names, rows):
    """The samples of a plain dump of these digits."""
    text = ["$var wire %d %s %s $end" % (WIDTHS[name], chr(40 + place), name) for place, name in enumerate(names)] + ["$enddefinitions $end"]
    for number, digits in enumerate(rows):
        text.append("#%d 0%s" % (2 * number, chr(40 + names.index("BCLK"))))
        text += ["b%s %s" % (digits[name], chr(40 + place)) for place, name in enumerate(names) if name != "BCLK"]
        text.append("#%d 1%s" % (2 * number + 1, chr(40 + names.index("BCLK"))))
    return read_samples("\n".join(text).encode())[1]


def tried(program, folder, seed, number):
    maker = MadeUp(random.Random("wires %s %d" % (seed, number)))
    text = maker.text(10)
    if "$var" not in text:
        return "no variables", None
    variables = read_header(text)
    options, words = maker.options(variables, line_named)
    wanted = opinion(text, variables, options)
    path = os.path.join(folder, "%d.vcd" % number)
    with open(path, "w") as file:
        file.write(text)
    answer = answer_of(program, ["pick", *words], path)
    got = said(answer)
    what = wanted[0]
    if wanted[0] == "no edge":
        is_same = answer[0] == 3 and "no clock of the part is there" in answer[2] and answer[1].endswith("$enddefinitions $end\n")
    elif wanted[0] == "wires":
        is_same = got[0] == "wires" and got[1] == wanted[1] and got[2] == as_samples(wanted[1], wanted[2])
    else:
        is_same = got[0] == wanted[0]
    wrong = "" if is_same else "second opinion: %s; the program: %s" % (shown(wanted), shown(got))
    if not wrong and not words:
        listed = answer_of(program, ["lines"], path)
        if listed[0] != (0 if wanted[0] in ("wires", "no edge") else 3):
            wrong = "lines ends with %d" % listed[0]
    if not wrong:
        os.remove(path)
        return what, None
    kept = os.path.join(tempfile.gettempdir(), "second_wires_%s_%d.vcd" % (seed, number))
    os.replace(path, kept)
    return what, "p6scope pick %s %s\n  %s" % (" ".join(words), kept, wrong)


def shown(found):
    return found[0] if found[1] is None else "%d lines (%s), %d samples" % (len(found[1]), " ".join(found[1]), len(found[2]))


def compared(tried, depth=1_000):
    """Tries many cases by the words of the command line, and returns the status: 1 where a case differs. `tried` answers, for one case, what came of it
    and how it differs."""
    given = sys.argv[1:] + [None] * 4
    program = os.path.abspath(given[0] or os.path.join(TOP, "crates/p6scope/out/p6scope"))
    count, seed, jobs = int(given[1] or 20_000), given[2] or "1", int(given[3] or 1)
    if not os.access(program, os.X_OK):
        sys.exit("no program at %s: build it by 'rt run' in crates/p6scope" % program)
    sys.setrecursionlimit(depth)
    counts, faults = collections.Counter(), 0
    with tempfile.TemporaryDirectory() as folder, concurrent.futures.ProcessPoolExecutor(jobs) as pool:
        for what, fault in pool.map(tried, *zip(*((program, folder, seed, number) for number in range(count))), chunksize=50):
            counts[what] += 1
            if fault:
                faults += 1
                print("DIFFERENCE %s" % fault, flush=True)
    for what, number in sorted(counts.items()):
        print("%-30s %6d" % (what, number))
    print("%d cases, %d differences" % (count, faults))
    return 1 if faults else 0


if __name__ == "__main__":
    sys.exit(compared(tried))
