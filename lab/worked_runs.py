#!/usr/bin/env python3
"""Writes the worked runs as the prover computes with them, from the stored ones. Status 1 where a module is another.

Usage: lab/worked_runs.py            writes the modules of crates/rows_timely/proofs anew
       lab/worked_runs.py --check    compares them, and says which differ

The store is crates/rows_benches/data: NAME.bench, NAME.log and NAME.trace. The run `four_owners` becomes FourOwners.antt, with one
definition, `run`. Its words are those of Words.antt. What is proved of a run stands elsewhere, and is written by hand."""

import glob
import os
import re
import sys

sys.dont_write_bytecode = True
from common import TOP

STORE = os.path.join(TOP, "crates/rows_benches/data")
PROOFS = os.path.join(TOP, "crates/rows_timely/proofs")
HEAD = "-- Made by lab/worked_runs.py of the stored run %s; not to be edited."
COLUMNS = 120
HAZARDS = {"stall": "Stall", "trdy": "Trdy", "resp": "Resp", "data": "Gap", "retry": "Retry", "defer": "Defer", "aerr": "Aerr"}
# The fields of a plan and what they are in `plain`.
PLAIN = [("clocks", "60"), ("cache", "64"), ("ahead", "1"), ("profile", "1"), ("bridge", None)]
# The lines that have another word than their name in small letters, and those that a trace names before RS0.
LINES = {"BREQ0": "b0", "BREQ1": "b1", "BREQ2": "b2", "BREQ3": "b3"}
BEFORE_RS = "BREQ0 BREQ1 BREQ2 BREQ3 BPRI LOCK BNR ADS AERR HIT HITM DEFER".split()
# What a module can use of Words.antt, in this order, and the names of those words that are operators.
WORDS = """Run scripted plain + [] ∷ ++ Some One Locked Idle Load Store Literal LastPlus setting Stall Trdy Resp Gap Retry Defer
Aerr Bnr on pair chunk full idle idles b0 b1 b2 b3 bpri lock bnr ads aerr hit hitm defer rs trdy dbsy drdy ap0 ap1 rp entry""".split()
OPERATORS = {"∷": "◌∷◌", "++": "◌++◌", "+": "◌+◌"}


def module_of(name):
    """The module of the run of this name."""
    return "".join(part.capitalize() for part in name.split("_"))


def lines_of(name, ending):
    """The words of each line of a stored file, comments and empty lines left out."""
    with open(os.path.join(STORE, name + ending), encoding="utf-8") as file:
        return [line.split() for line in file if line.strip() and not line.startswith("#")]


def joined(parts):
    """The list of these parts, as one term."""
    return " ∷ ".join(list(parts) + ["[]"])


def access(words):
    """An access of a script."""
    if words[0] == "ld":
        return "Load %s 0x%s" % (words[1], words[2].lower())
    kind, number = ("LastPlus", words[3][2:]) if words[3].startswith("r+") else ("Literal", words[3])
    return "Store %s 0x%x (%s 0x%x)" % (words[1], int(words[2], 16), kind, int(number, 16))


def settings(words):
    """The settings of the bytes of a line `mem`."""
    first, digits = int(words[0], 16), words[1]
    return ["setting 0x%x 0x%x" % (first + i, int(digits[2 * i:2 * i + 2], 16)) for i in range(len(digits) // 2)]


def hazard(words):
    """A hazard line."""
    if words[0] == "bnr":
        return "Bnr %s %s" % (words[1], words[2])
    return " ".join([HAZARDS[words[2]], words[1]] + words[3:])


def scripts_of(lines):
    """The scripts of a bench file: of each item its constructor and its accesses, or its clocks."""
    scripts, group = [], None
    for words in lines:
        if words[0] == "agent":
            scripts.append([])
        elif words[0] == "idle":
            scripts[-1].append(("Idle", words[1]))
        elif words[0] == "lock":
            group = []
        elif words[0] == "unlock":
            scripts[-1].append(("Locked", group))
            group = None
        elif words[0] in ("ld", "st") and group is None:
            scripts[-1].append(("One", [access(words)]))
        elif words[0] in ("ld", "st"):
            group.append(access(words))
    return scripts


def item(kind, said):
    """An item of a script."""
    return "Idle %s" % said if kind == "Idle" else "%s (%s)" % (kind, said[0] if kind == "One" else joined(said))


def options_of(lines):
    """The fields of the plan of a bench file that are not as in `plain`, its scripts left out."""
    plan, mem, hazards = {}, [], []
    for words in lines[1:]:
        if words[0] in ("clocks", "cache", "ahead", "profile"):
            plan[words[0]] = words[1]
        elif words[0] == "bridge":
            plan["bridge"] = "Some (record { base = 0x%x; size = 0x%x })" % (int(words[1], 16), int(words[2], 16))
        elif words[0] == "mem":
            mem += settings(words[1:])
        elif words[0] in ("tx", "bnr"):
            hazards.append(hazard(words))
    fields = [(field, plan[field]) for field, usual in PLAIN if plan.get(field, usual) != usual]
    return fields + [(field, joined(parts)) for field, parts in (("mem", mem), ("hazards", hazards)) if parts]


def sample(words):
    """A sample, from the words of a line of a trace."""
    values = dict(word.split("=") for word in words if "=" in word)
    shown = [word for word in words if "=" not in word and word != "-"]
    code = sum(1 << bit for bit in range(3) if "RS%d" % bit in shown)
    named = [LINES.get(word, word.lower()) for word in shown if not re.fullmatch("RS[0-2]", word)]
    if code:
        named.insert(sum(word in BEFORE_RS for word in shown), "rs %d" % code)
    lines = named[0] if len(named) == 1 and not code else "(%s)" % " + ".join(named) if named else "0"
    has_pair, has_data = "REQ" in values or "A" in values, "D" in values
    if not has_pair and not has_data:
        return "on %s" % lines if named else "idle"
    parts = ["full" if has_pair and has_data else "pair" if has_pair else "chunk", lines]
    parts += ["0x%s" % values.get(key, "0") for key in ("REQ", "A") if has_pair]
    return " ".join(parts + ["0x" + values["D"]] if has_data else parts)


def trace_of(lines):
    """The trace as the words of a term, at whose gaps it may be broken."""
    samples, words, i = [sample(words[1:]) for words in lines], [], 0
    while i < len(samples):
        n = i
        while n < len(samples) and samples[n] == "idle":
            n += 1
        if n == len(samples) and n - i > 1 or n - i > 2:
            words.append("idles %d%s" % (n - i, " ++" if n < len(samples) else ""))
            i = n
        else:
            words.append(samples[i] + " ∷")
            i += 1
    return words if words and not words[-1].endswith(" ∷") else words + ["[]"]


def log_of(lines, scripts):
    """The log as the words of a term. The part of an entry is its place among those of its item; its access is the script's."""
    seen, words = {}, []
    for line in lines[:-1]:
        clock, agent, number = line[:3]
        part = seen[agent, number] = seen.get((agent, number), -1) + 1
        done = scripts[int(agent)][int(number)][1][part]
        if not (done + " ").startswith("%s %s 0x%s " % ({"ld": "Load", "st": "Store"}[line[3]], line[4], line[5])):
            sys.exit("the log has '%s', and the script '%s'" % (" ".join(line), done))
        words.append("entry %s %s %s %d (%s) 0x%s ∷" % (clock, agent, number, part, done, line[-1]))
    return words + ["[]"]


def laid_out(first, words, indent, end):
    """The lines of a term whose words are these: as many words a line as fit, and those further on begin with their operator."""
    lines, line, operator = [], first, ""
    for i, word in enumerate(words):
        more = end if i == len(words) - 1 else ""
        text, next_operator = re.fullmatch(r"(.*?)( ∷| \+\+)?", word).groups("")
        if line == first or len(line + operator + " " + text + next_operator + more) <= COLUMNS:
            line += (operator + " " if line != first else "") + text
        else:
            lines.append(line)
            line = " " * indent + operator.strip() + " " + text
        operator = next_operator
    return lines + [line + end]


def broken(term):
    """The words of a list: it may be broken behind each of them."""
    return re.split(r"(?<= ∷) ", term)


def argument(words):
    """The lines of a list that is an argument of `scripted`."""
    return ["    []"] if words == ["[]"] else laid_out("    (", words, 4, ")")


def begun(fields):
    """The lines of a run down to its plan, the scripts left out: the plan is on one line where it fits."""
    plan = "(record plain { %s })" % "; ".join("%s = %s" % field for field in fields) if fields else "plain"
    for lines in (["run = scripted " + plan], ["run = scripted", "    " + plan]):
        if len(lines[-1]) <= COLUMNS:
            return lines
    lines = ["run = scripted", "    (record plain {"]
    for name, value in fields:
        lines += laid_out("      %s = " % name, broken(value), 10, ";")
    return lines + ["    })"]


def module(name):
    """The text of the module of a run."""
    bench = lines_of(name, ".bench")
    scripts = scripts_of(bench)
    body = ["abbrev pub run : Run"] + begun(options_of(bench))
    body += argument(broken(joined("(%s)" % joined(item(*it) for it in script) for script in scripts)))
    body += argument(trace_of(lines_of(name, ".trace")))
    body += argument(log_of(lines_of(name, ".log"), scripts))
    return "\n".join([HEAD % name] + uses("\n".join(body)) + [""] + body) + "\n"


def uses(text):
    """The lines that bring in the words of a module."""
    found = set(re.findall(r"\[\]|∷|\+\+|(?<= )\+(?= )|[A-Za-z_][A-Za-z_0-9]*", text)) & set(WORDS)
    lines, line = [], ""
    for word in (OPERATORS.get(word, word) for word in WORDS if word in found):
        if len(line) + len(word) + 3 > COLUMNS:
            lines.append(line + "}")
            line = ""
        line = line + ", " + word if line else "use Rattle.rows_timely.proofs.Words.{" + word
    return lines + [line + "}"]


def wanted():
    """The modules that the store gives, by the names of their files."""
    names = [os.path.basename(path)[:-6] for path in glob.glob(os.path.join(STORE, "*.bench"))]
    return {module_of(name) + ".antt": module(name) for name in names}


def made():
    """The modules that are there and were made, by the names of their files."""
    found = {}
    for path in glob.glob(os.path.join(PROOFS, "*.antt")):
        with open(path, encoding="utf-8") as file:
            text = file.read()
        if text.startswith(HEAD.partition("%")[0]):
            found[os.path.basename(path)] = text
    return found


def write(name, text):
    """Writes the module of this file, or takes it away where no stored run gives it."""
    path = os.path.join(PROOFS, name)
    if text is None:
        os.remove(path)
        return
    with open(path, "w", encoding="utf-8") as file:
        file.write(text)


def main(words):
    is_check = words == ["--check"]
    if words and not is_check:
        sys.exit(__doc__)
    new, old = wanted(), made()
    differ = [name for name in sorted({*new, *old}) if new.get(name) != old.get(name)]
    for name in differ:
        if not is_check:
            write(name, new.get(name))
        else:
            print("%s: %s" % (name, "no stored run gives it" if name not in new else "not made" if name not in old else "differs"))
    print("worked runs=%d %s=%d" % (len(new), "differ" if is_check else "written", len(differ)))
    return 1 if is_check and differ else 0


if __name__ == "__main__":
    sys.exit(main(sys.argv[1:]))
