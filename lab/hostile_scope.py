#!/usr/bin/env python3
"""A hostile outside of `p6scope`: cut and edited dumps, command lines of every form, files and devices that fail, calls and memory that fail.

Usage: lab/hostile_scope.py [PROGRAM [EDITS [LISTS [SEED [PART ..]]]]]      (crates/p6scope/out/p6scope, 2,000, 10,000, 1)

The parts are
  prefixes  every prefix of a dump of twelve clocks: the verdict is that of second_judge.py over the clocks that are whole; and of two
            others: no prefix breaks a rule that the whole keeps;
  edits     random edits of three dumps: where only values were changed, verdict and place of the fault are those of the second reader;
  words     command lines out of every option with good and bad values: status 2 exactly where docs/scope.md has no such command line, and
            then a word of the line stands in the error;
  files     folders, missing files, no permission, pipes that end early, full and closed outputs, files of --lines of every kind;
  calls     strace lets each read, write and openat of a run fail in turn;
  memory    each allocation is refused in turn, and the address space is limited;
  large     headers and words of many bytes, within a time.

Everywhere the status is 0 to 5, standard output or standard error has the answer and never both, 0 stands with at least one judged clock,
and the text line of a broken clock is that of its time stamp. Prints each answer that is not so, with its command; ends with 1 if there is one.
"""

import collections
import concurrent.futures
import errno
import os
import random
import re
import resource
import shlex
import shutil
import signal
import subprocess
import sys
import tempfile
import time

sys.dont_write_bytecode = True
import allocations
from common import TOP
from dump_of_trace import clocks, dump
from hostile import DUMP_WORDS, edited
from second_dump import Fault, read_samples
from second_judge import verdict

SECONDS = 60
WORKERS = 2
VERDICT = r"accepted: (\d+) of (\d+) clocks judged|rejected at clock (\d+), (.*) \(line (\d+) of the file\): rule (\d+), [a-z -]+"
TRACE = """0 BREQ0 BREQ1
1 BREQ0 BREQ1
2 BREQ0 BREQ1 ADS REQ=6 A=8
3 BREQ1 REQ=2 A=2
4 BREQ1
5 BREQ1 ADS REQ=6 A=10
6 - REQ=2 A=20002
7 -
8 RS0 RS1 RS2 DBSY DRDY D=1001
9 DBSY DRDY D=1002
10 DBSY DRDY D=1003
11 %sDRDY D=1004
"""


class Program:
    """The built program, and the answers that were not as they should be."""

    def __init__(self, name):
        self.name, self.faults, self.counts = name, [], collections.Counter()

    def say(self, words, **more):
        """Status, standard output and standard error."""
        more.setdefault("stdin", subprocess.DEVNULL)
        done = subprocess.run([self.name, *words], capture_output=True, timeout=SECONDS, **more)
        return done.returncode, done.stdout, done.stderr

    def wrong(self, words, why, answer):
        shown = " ".join(shlex.quote(os.fsdecode(word)) for word in words)
        self.faults.append(shown)
        print("FAULT p6scope %s\n  %s\n  said %d, %r, %r" % (shown[:300], why, answer[0], answer[1][-200:], answer[2][-300:]), flush=True)

    def expect(self, words, why, answer, is_right):
        if not is_right:
            self.wrong(words, why, answer)
        return is_right


def verdict_of(answer):
    """The verdict in the second line of a report: None, a text, or the match."""
    lines = answer[1].decode("latin-1").split("\n")
    return re.fullmatch(VERDICT, lines[1]) if len(lines) > 1 else None


def fault_of_form(answer, text=None):
    """What is wrong with an answer to `check` whatever the dump is."""
    status, out, error = answer
    found = verdict_of(answer)
    if status not in range(5):
        return "the status"
    if out and error:
        return "both outputs"
    if not out and not error:
        return "no output"
    if status in (0, 1) and (found is None or (found[1] is None) != (status == 1)):
        return "the verdict"
    if status == 0 and not 1 <= int(found[1]) <= int(found[2]):
        return "the clocks"
    if status == 3 and out and not out.split(b"\n")[1].startswith(b"nothing could be judged"):
        return "the report"
    if status == 1 and text is not None:
        rows = text.split(b"\n")
        if not 1 <= int(found[5]) <= len(rows) or b"#" not in rows[int(found[5]) - 1]:
            return "the line of the file"
    return ""


def fault_of_pick(answer):
    """What is wrong with an answer to `pick` whatever the dump is: with status 0 a dump of at least one clock and nothing else, with status 3
    a cause, and on standard output nothing or a header without a clock."""
    status, out, error = answer
    if status not in range(6):
        return "the status"
    is_header = out == b"" or out.startswith(b"$version p6scope 1 $end\n") and out.endswith(b"$enddefinitions $end\n")
    if status == 0:
        try:
            return "" if out and not error and read_samples(out)[1] else "no clock, or both outputs"
        except Fault as fault:
            return "no dump: %r" % (fault.args,)
    if not error:
        return "no cause"
    return "" if is_header or status in (4, 5) else "half a dump"


# Prefixes.

def small_dump(folder, early=False):
    path = os.path.join(folder, "trace")
    with open(path, "w") as file:
        file.write(TRACE % ("RS0 RS1 RS2 " if early else ""))
    return "".join(line + "\n" for line in dump(clocks(path), 20)).encode()


def words_of(text):
    return [(match.start(), match[0]) for match in re.finditer(rb"[^\t-\r ]+", text)]


def is_refused_or_whole(text):
    """The fault of the second reader, or its samples."""
    try:
        return None, read_samples(text)
    except Fault as fault:
        return fault.args, None


def told_by(marks, samples):
    """Status and verdict that the second judge gives."""
    found = re.findall(r"\d+", verdict(marks, samples))
    return (0, len(samples)) if len(found) == 1 else (1, (int(found[0]), int(found[1])))


def early_end(text):
    """The text without the word, the value or the section in which it ends, and without the block that stands open there."""
    words = words_of(text)
    if words and words[-1][0] + len(words[-1][1]) == len(text):
        words.pop()
    stamps = [place for place, word in words if word[:1] == b"#" and place > text.index(b"$enddefinitions")]
    return text[:stamps[-1]] if stamps else text[:words[-1][0] + len(words[-1][1])] + b"\n"


def prefixes(program, folder):
    for early in (False, True):
        whole = small_dump(folder, early)
        header = whole.index(b"$enddefinitions $end") + len("$enddefinitions $end")

        def tried(length):
            name, text = "prefix%d.vcd" % length, whole[:length]
            write(folder, name, text)
            answer = program.say(["check", name], cwd=folder)
            os.remove(os.path.join(folder, name))
            program.counts["prefix, status %d" % answer[0]] += 1
            wrong = fault_of_form(answer, text) or differs(text, answer, length < header)
            if wrong:
                program.wrong(["check", "<(head -c %d small%s.vcd)" % (length, "_early" if early else "")], wrong, answer)
        each(tried, range(len(whole) + 1))
    late_prefixes(program, folder)


def late_prefixes(program, folder):
    """Two dumps that keep every rule, so no prefix breaks one: the lines change with the edge, and are named by --after; and the code of ADS_n
    begins with that of BCLK, where the lines change behind the falling edge."""
    small = small_dump(folder)
    late = re.sub(rb"(#\d+0\n0!\n)((?:[^#].*\n)*)(#\d+5\n1!\n)", rb"\1\3\2", small)
    codes = re.sub(rb"#(\d+)0\n0!\n((?:[^#].*\n)+)(#\d+5\n1!\n)", rb"#\g<1>0\n0!\n#\g<1>2\n\2\3", small)
    codes = codes.replace(b" ) ADS_n", b" !) ADS_n").replace(b"\n1)\n", b"\n1!)\n").replace(b"\n0)\n", b"\n0!)\n")
    keep_all(program, folder, "late.vcd", late, ["--after", ",".join(re.findall(r"(\w+_n) ", late.decode()))])
    keep_all(program, folder, "codes.vcd", codes, [])


def keep_all(program, folder, which, whole, words):
    def tried(length):
        name = "%d%s" % (length, which)
        write(folder, name, whole[:length])
        answer = program.say(["check", *words, name], cwd=folder)
        os.remove(os.path.join(folder, name))
        program.counts["prefix of %s, status %d" % (which, answer[0])] += 1
        wrong = fault_of_form(answer, whole[:length]) or ("" if answer[0] in (0, 3) else "a rule that the whole dump keeps")
        if wrong:
            program.wrong(["check", *words, "<(head -c %d %s)" % (length, which)], wrong, answer)
    each(tried, range(len(whole) + 1))


def differs(text, answer, is_header_cut):
    """What the second reader and judge say else."""
    if is_header_cut:
        return "" if answer[0] == 3 and not answer[1] else "a cut header"
    fault, read = is_refused_or_whole(text)
    is_early = fault is not None
    if is_early:
        fault, read = is_refused_or_whole(early_end(text))
        if fault:
            return "the reader of this script: %r" % (fault,)
    said = judged_by(answer)
    if not read[1]:
        return "" if said == (3, None) else "no clock is there"
    if said != told_by(*read):
        return "the second judge says %r" % (told_by(*read),)
    return "" if (b"the file ends early" in answer[1]) == is_early else "an early end that is none, or is not told"


def judged_by(answer):
    found = verdict_of(answer)
    if found is None:
        return answer[0], None
    return answer[0], int(found[2]) if found[2] else (int(found[3]), int(found[6]))


# Edits.

def edits(program, folder, count, seed):
    texts = [("small.vcd", small_dump(folder, True)), ("hasty.vcd", read("crates/p6scope/data/hasty.vcd")),
             ("scopes.vcd", read("crates/rows_texts/data/scopes.vcd"))]
    words = DUMP_WORDS + [b"U!", b"bH-wL *", b"$dumpoff\nx!\n$end", b"$dumpon", b"$scope module tb $end", b"$upscope $end", b"META x\n"]

    def tried(number):
        kind, text = texts[number % len(texts)]
        header = text.index(b"$enddefinitions $end") + len("$enddefinitions $end\n")
        chance = random.Random("%s %d %d" % (kind, seed, number))
        behind = chance.random() < 0.6
        new = text[:header] + edited(text[header:], chance, words) if behind else edited(text, chance, words)
        name = "edit%d.vcd" % number
        write(folder, name, new)
        answer = program.say(["check", name], cwd=folder)
        listed = program.say(["lines", name], cwd=folder)
        program.counts["edit, status %d" % answer[0]] += 1
        wrong = fault_of_form(answer, new if b"\r" not in new else None)
        if not wrong and listed[0] != (0 if answer[1] else 3) and not answer[2].split(b":")[1:2] == [b" "]:
            wrong = unlisted(answer, listed)
        if not wrong and kind == "small.vcd" and behind:
            wrong = differs_edited(new, answer)
        if wrong:
            kept = os.path.join(tempfile.gettempdir(), "hostile_scope_%s_%d_%d" % (kind, seed, number))
            write("", kept, new)
            program.wrong(["check", kept], wrong, answer)
        os.remove(os.path.join(folder, name))
    each(tried, range(count))


def unlisted(answer, listed):
    """`lines` looks at the header alone, so it may list what a check refuses behind the header."""
    if listed[0] == 0 and answer[0] == 3 and b", byte " in answer[2]:
        return ""
    return "lines ends with %d" % listed[0]


def differs_edited(text, answer):
    """What the second reader and judge say else of a dump whose header is whole; it does not know stops, and no digits of VHDL."""
    fault, read = is_refused_or_whole(text)
    if b"$dumpo" in text or re.search(rb"[UuWwLlHh-]", text[text.index(b"$enddefinitions"):].replace(b"dumpvars", b"").replace(b"dumpall", b"")):
        return ""
    if fault is None:
        first = next((number for number, sample in enumerate(read[1]) if not sample.unknown), None)
        if first is None:
            return "" if answer[0] == 3 else "no clock is there with levels"
        if first > 0:
            return ""
        return "" if judged_by(answer) == told_by(*read) else "the second judge says %r" % (told_by(*read),)
    if answer[0] in (0, 1) or answer[1]:
        return "" if answer[0] == 1 or b"the file ends early" in answer[1] else "the second reader says %r" % (fault,)
    place = re.search(rb", byte (\d+): ", answer[2])
    return "" if place and int(place[1]) == fault[0] else "the second reader says %r" % (fault,)


# Command lines.

GOOD = {"--max": ["1", "16", "07"], "--scope": ["fsb"], "--line": ["ADS_n=fsb.ADS_n", "hit#=HIT_n", "D_n=!fsb.D_n", "A_n=fsb.A_n[35:3]", "REQ_n=REQ_n[4:0]"],
        "--lines": ["good.lines", "empty.lines"], "--without": ["D_n", "BREQ1_n", "bnr#", "AP_n"], "--edge": ["rise", "fall"],
        "--after": ["ADS_n", "A_n,REQ_n", "LOCK_n", "ads_l,D_n"], "--at": ["0", "3", "0007", "4294967295", "55ns"], "--from": ["0", "5", "4294967295"],
        "--to": ["0", "9", "4294967295"], "--quiet": ["1", "2", "4294967295"]}
BAD = {"--scope": ["", "x" * 4097], "--line": ["", "ADS", "ADS_n", "ADS_n=", "=x", "ADS_n=!", "ADQ_n=x", "ADS_n=" + "x" * 5000],
       "--lines": ["", "y" * 4097], "--without": ["", "ADS", "D_n,A_n", "d n"], "--edge": ["", "Rise", "both", "rise "],
       "--after": ["", ",", "ADS_n,", "ADS", "ADS_n, A_n", "BCLK", "A_n,BCLK"], "--max": ["", "0", "17", "-1", "x"], "--at": ["", "-1", "ns", "5Ns", "5 ns", "5xs", "1.5", "4294967296", "x", "+1", "0x1", "1 ", "\u0661", "12345678901"],
       "--from": ["", "-2", "4294967296", "ten"], "--to": ["", "4294967296", "1e3"], "--quiet": ["", "0", "00", "4294967296", "-1"]}
SINGLE = [name for name in GOOD if name not in ("--line", "--without", "--after")]
FLAGS = ["--first", "--resume"]
STRAY = ["--sope", "--", "-x", "-", "--first=1", "--help=1", "--lines", "-h1", "--from", "check", "small.vcd", "\udcff", "--at=", "--version1", "--\u00e9"]


class Words:
    """A command line out of the options, and whether the page has it: None where it does not say."""

    def __init__(self, chance):
        self.chance, self.is_good, self.said = chance, True, []
        self.words = []
        verb = chance.choice(["check"] * 12 + ["pick"] * 5 + ["lines", "rule"])
        self.verb = verb
        if verb in ("check", "pick"):
            self.options()
        if verb == "rule":
            self.rule()
        else:
            self.words.insert(chance.randint(0, len(self.words)), "small.vcd") if self.are_whole() else self.words.append("small.vcd")
        self.words.insert(0, verb)
        if chance.random() < 0.12:
            self.stray()

    def are_whole(self):
        return all("=" in word for word in self.words if word.startswith("--") and word not in FLAGS)

    def rule(self):
        word = self.chance.choice(["1", "13", "31", "20", "0", "32", "x", "", "01", "001", "-1", None])
        if word is not None:
            self.words.append(word)
            self.is_good = bool(re.fullmatch("0?[1-9]|[12][0-9]|3[01]", word))

    def options(self):
        chance, seen = self.chance, {}
        for _ in range(chance.choice((0, 1, 1, 2, 2, 3, 4, 6))):
            name = chance.choice(list(GOOD) + FLAGS)
            if name in FLAGS:
                self.is_good &= name not in seen and (name == "--first" or self.verb == "check")
                seen[name] = True
                self.words.append(name)
                continue
            is_bad = chance.random() < 0.15
            value = chance.choice((BAD if is_bad else GOOD)[name])
            self.is_good &= not is_bad and not (name in SINGLE and name in seen) and (name != "--max" or self.verb == "check")
            seen[name] = value
            self.words += [name + "=" + value] if chance.random() < 0.5 else [name, value]
        if self.is_good and (("--at" in seen and "--from" in seen) or self.ends_before(seen)):
            self.is_good = False
        if self.is_good and ("--max" in seen and "--resume" not in seen or "--quiet" in seen and "--from" not in seen and self.verb == "pick"):
            self.is_good = None          # the page does not say

    @staticmethod
    def ends_before(seen):
        begin = seen.get("--at", seen.get("--from"))
        return begin is not None and "--to" in seen and not begin.endswith("s") and int(seen["--to"]) < int(begin)

    def stray(self):
        chance, kind = self.chance, self.chance.randrange(4)
        self.is_good = None
        if kind == 0:
            del self.words[chance.randrange(len(self.words))]
        elif kind == 1:
            self.words.insert(chance.randint(0, len(self.words)), chance.choice(STRAY))
        elif kind == 2:
            self.words.insert(chance.randint(0, len(self.words)), chance.choice(self.words))
        else:
            at = chance.randrange(len(self.words))
            place = chance.randint(0, len(self.words[at]))
            self.words[at] = self.words[at][:place] + chance.choice(["-", "=", "x", "\u00e9", " "]) + self.words[at][place:]


def words(program, folder, count, seed):
    write(folder, "small.vcd", small_dump(folder))
    write(folder, "good.lines", b"# a note\nHITM_n=fsb.HITM_n\n")
    write(folder, "empty.lines", b"")

    def tried(number):
        line = Words(random.Random("words %d %d" % (seed, number)))
        answer = program.say(line.words, cwd=folder)
        program.counts["words, status %d" % answer[0]] += 1
        wrong = fault_of_words(line, answer)
        if wrong:
            program.wrong(line.words, wrong, answer)
    each(tried, range(count))


def fault_of_words(line, answer):
    status, out, error = answer
    if status not in range(5):
        return "the status"
    if line.is_good is not None and (status == 2) != (not line.is_good):
        return "a good line" if line.is_good else "a bad line"
    if status == 2:
        named = [word for word in line.words + [part for word in line.words for part in word.split("=", 1)]
                 if len(word) > 1 and os.fsencode(word) in error or b"'%s'" % os.fsencode(word) in error]
        if out or not named and not any(words in error for words in (b"<DUMP>", b"requires a subcommand", b"0 bytes", b"no text", b"'rule '", b" ''", b"unexpected argument '-")):
            return "the error names no word"
        if error.count(b"\n") > 6:
            return "a long error"
    elif line.verb == "check" and line.words[:1] == ["check"] and b"Usage" not in out:
        return fault_of_form(answer)
    elif line.verb == "pick" and line.words[:1] == ["pick"] and b"Usage" not in out:
        return fault_of_pick(answer)
    return ""


# Files.

def files(program, folder):
    write(folder, "small.vcd", small_dump(folder))
    write(folder, "early.vcd", small_dump(folder, True))
    for verb in ("check", "lines", "pick"):
        unread(program, folder, verb)
    lines_files(program, folder)
    outputs(program, folder)
    pipes(program, folder)


def unread(program, folder, verb):
    """A DUMP that cannot be read: status 4, the name and the system's reason."""
    os.makedirs(os.path.join(folder, "folder"), exist_ok=True)
    write(folder, "secret.vcd", small_dump(folder))
    os.chmod(os.path.join(folder, "secret.vcd"), 0)
    os.chmod(folder, 0o755)
    if not os.path.lexists(os.path.join(folder, "loop.vcd")):
        os.symlink("loop.vcd", os.path.join(folder, "loop.vcd"))
    nobody = {"user": 65534} if os.getuid() == 0 else {}
    rows = [("folder", errno.EISDIR, {}), ("none.vcd", errno.ENOENT, {}), ("secret.vcd", errno.EACCES, nobody), ("loop.vcd", errno.ELOOP, {}),
            ("small.vcd/x", errno.ENOTDIR, {}), ("x" * 300, errno.ENAMETOOLONG, {}), ("", None, {}), ("/proc/self/mem", errno.EIO, {})]
    for name, reason, more in rows:
        answer = program.say([verb, name], cwd=folder, **more)
        wanted = (2, "0 bytes") if reason is None else (4, "%s: %s" % (name, os.strerror(reason)))
        program.counts["files, status %d" % answer[0]] += 1
        program.expect([verb, name], "status %d and %r" % wanted, answer, answer[0] == wanted[0] and wanted[1] in answer[2].decode() and not answer[1])
    for name in (b"caf\xe9.vcd", "caf\u00e9.vcd".encode(), b"a b\n.vcd", b"\x1b[31m.vcd"):
        write(os.fsencode(folder), name, small_dump(folder))
        answer = program.say([verb, name], cwd=folder)
        is_text = is_utf8(name)
        program.counts["files, status %d" % answer[0]] += 1
        program.expect([verb, name], "status 0, or where the name is no text a refusal that says so", answer,
                       answer[0] == 0 if is_text else answer[0] in (2, 4) and bool(answer[2]) and not answer[1])
        program.expect([verb, name], "no byte that a terminal obeys", answer, b"\x1b" not in answer[1] + answer[2])


def is_utf8(name):
    try:
        name.decode()
        return True
    except UnicodeDecodeError:
        return False


def lines_files(program, folder):
    """Files of --lines: none, empty, large, no text, a folder, and such that end without a line feed."""
    note, line = b"# " + b"x" * 97 + b"\n", b"ADS_n=fsb.ADS_n\n"
    rows = [("none", None, 4), ("empty", b"", 0), ("feeds", b"\n" * 1000, 0), ("notes", note * 21_000 + line, (0, 3)), ("one_note", b"#" + b"x" * 2_000_000, (0, 3)),
            ("many", line * 130_000, 3), ("latin", b"# caf\xe9\n" + line, (0, 3)), ("latin_path", b"ADS_n=caf\xe9\n", 3), ("nul", b"ADS_n=\0\n", 3),
            ("bytes", bytes(range(256)), 3), ("crlf", line.replace(b"\n", b"\r\n"), 0), ("open", line[:-1], 0), ("tabs", b"\t" + line, 0),
            ("option", b"--line ADS_n=fsb.ADS_n\n", 3), ("empty_path", b"ADS_n=\n", 3), ("long", b"ADS_n=" + b"x" * 4096 + b"\n", 3), ("bom", b"\xef\xbb\xbf" + line, (0, 3))]
    for name, text, status in rows:
        if text is not None:
            write(folder, name + ".lines", text)
        words = ["check", "--lines", name + ".lines", "small.vcd"]
        answer = program.say(words, cwd=folder)
        program.counts["files, status %d" % answer[0]] += 1
        wanted = status if isinstance(status, tuple) else (status,)
        program.expect(words, "status %s" % (wanted,), answer, answer[0] in wanted and not fault_of_form(answer))
        if answer[0] == 3:
            program.expect(words, "the name of the file, and the line", answer, os.fsencode(name + ".lines") in answer[2] or b"--line" in answer[2]
                           or b"named or left out twice" in answer[2])
    answer = program.say(["check", "--lines", "folder", "small.vcd"], cwd=folder)
    program.expect(["check", "--lines", "folder", "small.vcd"], "status 4 and the reason", answer, answer[0] == 4 and b"folder: Is a directory" in answer[2])
    answer = program.say(["check", "--lines", "none.lines", "none.vcd"], cwd=folder)
    program.expect(["check", "--lines", "none.lines", "none.vcd"], "status 4, and one of the two names", answer, answer[0] == 4 and answer[2].startswith(b"none."))


FORMS = [("check small.vcd", 0), ("pick small.vcd", 0), ("pick --to 55ns small.vcd", 0), ("check --resume early.vcd", 1), ("check early.vcd", 1), ("lines small.vcd", 0), ("rule 13", 0), ("rule", 0), ("--help", 0), ("--version", 0),
         ("check --help", 0), ("check none.vcd", 4), ("check --edge up small.vcd", 2), ("check small.vcd --scope x", 3)]


def outputs(program, folder):
    """Full and closed outputs: what goes to standard output cannot be written, so the status is 4; what goes to standard error stays as it is."""
    for form, status in FORMS:
        to_error = status in (2, 3, 4)
        for how, is_lost in (("> /dev/full", not to_error), (">&-", not to_error), ("2> /dev/full", False), ("2>&-", False), ("<&-", False),
                             ("> /dev/full 2> /dev/full", not to_error), (">&- 2>&- <&-", not to_error)):
            done = subprocess.run("%s %s %s" % (shlex.quote(program.name), form, how), shell=True, cwd=folder, stdin=subprocess.DEVNULL,
                                  capture_output=True, timeout=SECONDS)
            program.counts["outputs, status %d" % done.returncode] += 1
            wanted = (4,) if is_lost else (status, 4) if "2>" in how and status == 3 else (status,)
            program.expect(form.split() + [how], "status %s" % (wanted,), (done.returncode, done.stdout, done.stderr), done.returncode in wanted)
        closed_pipe(program, folder, form, 4 if not to_error else status)


def closed_pipe(program, folder, form, wanted):
    """Standard output is a pipe that nobody reads, with the signal ignored and not."""
    for is_ignored in (False, True):
        end, start = os.pipe()
        os.close(end)
        before = (lambda: signal.signal(signal.SIGPIPE, signal.SIG_IGN)) if is_ignored else (lambda: signal.signal(signal.SIGPIPE, signal.SIG_DFL))
        done = subprocess.run([program.name, *form.split()], cwd=folder, stdin=subprocess.DEVNULL, stdout=start, stderr=subprocess.PIPE, timeout=SECONDS,
                              preexec_fn=before)
        os.close(start)
        program.counts["outputs, status %d" % done.returncode] += 1
        program.expect(form.split() + ["| (exec <&-), SIGPIPE %s" % ("ignored" if is_ignored else "as it was")], "status %d" % wanted,
                       (done.returncode, b"", done.stderr), done.returncode == wanted)


def pipes(program, folder):
    """A DUMP that is a pipe which ends early, or brings a byte at a time; /dev/stdin; the files that the system makes up."""
    whole = small_dump(folder)
    for length in (0, 1, 500, len(whole) - 200, len(whole)):
        for step in (1, 4096):
            path = os.path.join(folder, "pipe.vcd")
            os.mkfifo(path)
            child = subprocess.Popen([program.name, "check", "pipe.vcd"], cwd=folder, stdin=subprocess.DEVNULL, stdout=subprocess.PIPE, stderr=subprocess.PIPE)
            with open(path, "wb", buffering=0) as file:
                for place in range(0, length, step):
                    file.write(whole[place:min(length, place + step)])
            out, error = child.communicate(timeout=SECONDS)
            os.remove(path)
            write(folder, "plain.vcd", whole[:length])
            plain = program.say(["check", "plain.vcd"], cwd=folder)
            answer = child.returncode, out, error
            program.counts["pipes, status %d" % answer[0]] += 1
            program.expect(["check", "pipe of %d bytes, %d at a time" % (length, step)], "the answer of a file of these bytes", answer,
                           tuple(part.replace(b"pipe.vcd", b"plain.vcd") if isinstance(part, bytes) else part for part in answer) == plain)
    answer = program.say(["check", "/dev/stdin"], cwd=folder, stdin=open(os.path.join(folder, "small.vcd"), "rb"))
    program.expect(["check", "/dev/stdin", "< small.vcd"], "status 0", answer, answer[0] == 0)
    for name in ("/dev/null", "/proc/self/maps", "/dev/zero"):
        answer = limited(program, ["check", name], 10)
        program.expect(["check", name], "a refusal within 10 seconds", answer, answer[0] == 3 and bool(answer[2]) and not answer[1])


def limited(program, words, seconds, **more):
    try:
        done = subprocess.run([program.name, *words], capture_output=True, timeout=seconds, stdin=subprocess.DEVNULL, **more)
        return done.returncode, done.stdout, done.stderr
    except subprocess.TimeoutExpired:
        return -1, b"", b"(more than %d seconds)" % seconds


# Calls of the system that fail.

ERRORS = {"openat": ("EACCES", "EMFILE", "EINTR", "ENOMEM"), "read": ("EIO", "EINTR", "EAGAIN", "ENOMEM"), "write": ("EIO", "ENOSPC", "EPIPE", "EINTR", "EAGAIN")}


def traced(program, words, folder, inject, path=None):
    """The answer of a run in which strace lets a call fail, and how many such calls there were."""
    log = os.path.join(folder, "log%s" % threadless())
    only = ["-P", path] if path else []
    done = subprocess.run(["strace", "-o", log, *only, "-e", "trace=%s" % inject.split(":")[0], *(["-e", "inject=" + inject] if ":" in inject else []),
                           program.name, *words], cwd=folder, stdin=subprocess.DEVNULL, capture_output=True, timeout=SECONDS)
    with open(log) as file:
        count = sum(1 for line in file if re.match("[a-z0-9]+\\(", line))
    os.remove(log)
    return (done.returncode, done.stdout, re.sub(rb"strace: Requested path .*\n", b"", done.stderr)), count


def threadless():
    return "%d_%d" % (os.getpid(), time.monotonic_ns())


def calls(program, folder):
    if not shutil.which("strace"):
        print("calls: strace is not installed: skipped")
        return
    write(folder, "small.vcd", small_dump(folder))
    write(folder, "early.vcd", small_dump(folder, True))
    write(folder, "good.lines", b"HITM_n=fsb.HITM_n\n")
    forms = [["check", "small.vcd"], ["check", "early.vcd"], ["lines", "small.vcd"], ["check", "--lines", "good.lines", "small.vcd"], ["rule", "13"], ["pick", "small.vcd"],
             ["check", "--to", "55ns", "small.vcd"], ["check", "none.vcd"], ["check", "--edge", "up", "small.vcd"], ["--help"]]
    for words in forms:
        for path in [None] + [word for word in words if word.endswith((".vcd", ".lines"))]:
            for call, errors in ERRORS.items():
                if (path is None) == (call == "write"):
                    fail_each(program, folder, words, call, errors, path)


def fail_each(program, folder, words, call, errors, path):
    whole, _ = traced(program, words, folder, "write")
    _, count = traced(program, words, folder, call, path)
    for error in errors:
        for when in range(1, count + 1):
            inject = "%s:error=%s:when=%d" % (call, error, when)
            answer, _ = traced(program, words, folder, inject, path)
            program.counts["calls, status %d" % answer[0]] += 1
            shown = ["strace", "-e", "inject=" + inject] + (["-P", os.path.basename(path)] if path else []) + ["p6scope"] + words
            program.expect(shown, "the same answer, or a failure that is told", answer, is_failure_told(answer, whole, call, error, path))


def is_read_once(report, whole):
    """The report lacks nothing but what a dump that is read again gives: the reasons, and what other ways to sample it would give."""
    rest = iter(whole.split(b"\n"))
    for line in report.split(b"\n"):
        for other in rest:
            if other == line:
                break
            if not other.startswith((b"with --", b"  ")):
                return False
        else:
            return False
    return all(line.startswith((b"with --", b"  ")) or not line for line in rest)


def is_failure_told(answer, whole, call, error, path):
    status, out, err = answer
    if answer == whole and (error == "EINTR" or whole[0] == 4):
        return True
    # a reading after a reject, for the reasons or in another way, that fails is left out
    if call != "write" and status == whole[0] == 1 and err == whole[2] and is_read_once(out, whole[1]):
        return True
    if call == "write":
        if whole[1]:          # its text goes to standard output: lost, so 4
            return status == 4 and whole[1].startswith(out) and out != whole[1]
        return status in (whole[0], 4) and not out and whole[2].startswith(err)
    if whole[0] == 2:
        return answer == whole
    # a dump that is picked is written as it is read
    is_part = whole[1].startswith(out) and whole[1][:8] == b"$version" or not out
    return status in (4, 5) and is_part and err.count(b"\n") == 1 and (status == 5 or os.path.basename(path).encode() in err)


# Memory. One refused allocation alone may change nothing: a sort goes on without its room.

LACKING = (b"p6scope: out of memory\n",)

def memory(program, folder):
    write(folder, "small.vcd", small_dump(folder))
    write(folder, "early.vcd", small_dump(folder, True))
    write(folder, "good.lines", b"HITM_n=fsb.HITM_n\n")
    library, source = os.path.join(folder, "refuse.so"), os.path.join(folder, "refuse.c")
    write(folder, "refuse.c", allocations.LIBRARY.encode())
    if shutil.which("cc"):
        subprocess.run(["cc", "-O1", "-shared", "-fPIC", "-o", library, source, "-ldl"], check=True)
        for words in (["check", "small.vcd"], ["check", "early.vcd"], ["lines", "small.vcd"], ["pick", "small.vcd"], ["check", "--resume", "--to", "95ns", "early.vcd"],
                      ["check", "--lines", "good.lines", "--scope", "fsb", "small.vcd"],
                      ["check", "--scope", "x", "small.vcd"], ["check", "--edge", "up", "small.vcd"], ["rule", "13"], ["rule"], ["check", "none.vcd"]):
            refuse_each(program, folder, library, words)
    spaces(program, folder)


def refuse_each(program, folder, library, words):
    whole, total = answered(program, folder, library, words, 0)
    step = max(1, total // 400)
    counts = collections.Counter()
    for number in range(1, total + 2, step):
        for to_the_end in (0, 1):
            answer, _ = answered(program, folder, library, words, number, to_the_end)
            counts[answer[0]] += 1
            # (a dump that is picked is written as it is read)
            is_lacking = answer[0] == 5 and answer[2] in LACKING and (not answer[1] or words[0] == "pick" and whole[1].startswith(answer[1]))
            is_tried = answer[0] == whole[0] == 1 and answer[2] == whole[2] and is_read_once(answer[1], whole[1])
            is_right = is_lacking or is_tried or answer == whole and (number > total or not to_the_end)
            is_reason = words[-1] == "none.vcd" and answer[0] in (4, 5) and not answer[1] and answer[2].count(b"\n") == 1
            program.expect(["(allocation %d of %d refused%s)" % (number, total, ", and all behind" if to_the_end else "")] + words,
                           "status 5 and its text alone, or the same answer", answer, is_right or is_reason)
    print("%s: %d allocations, each %d. refused: by status %s" % (" ".join(words), total, step, dict(counts)), flush=True)


def answered(program, folder, library, words, number, to_the_end=0):
    count = os.path.join(folder, "count")
    env = {"LD_PRELOAD": library, "REFUSED": str(number), "TO_THE_END": str(to_the_end), "COUNTED": count}
    answer = program.say(words, cwd=folder, env=env)
    with open(count) as file:
        return answer, int(file.read())


def spaces(program, folder):
    """The address space of a run: with the least in which it works, and below it, down to where it no longer starts."""
    many = small_dump(folder).replace(b"$upscope", b"".join(b"$var wire 1 ~%x x%d $end\n" % (n, n) for n in range(60_000)) + b"$upscope", 1)
    write(folder, "many.vcd", many)
    statuses = collections.Counter()
    for words in (["check", "small.vcd"], ["check", "many.vcd"], ["lines", "many.vcd"]):
        for size in range(1, 61):
            limit = size * 1 << 20
            answer = program.say(words, cwd=folder, preexec_fn=lambda: resource.setrlimit(resource.RLIMIT_AS, (limit, limit)))
            statuses[answer[0]] += 1
            # (with a megabyte the loader itself may not come up)
            is_started = (answer[0] != 127 or b"error while loading" not in answer[2]) and (size > 1 or answer[0] >= 0)
            program.expect(["(ulimit -v %d)" % (limit >> 10)] + words, "status 0, or 5 and `out of memory`", answer,
                           not is_started or answer[0] == 0 and bool(answer[1]) or answer[:2] == (5, b"") and answer[2] in LACKING)
    print("ulimit -v: by status %s" % dict(statuses), flush=True)


# Large texts.

def processor_seconds():
    used = resource.getrusage(resource.RUSAGE_CHILDREN)
    return used.ru_utime + used.ru_stime


def large(program, folder):
    head, rest = small_dump(folder).split(b"$scope module fsb $end\n")
    bus, values = rest.split(b"$upscope $end\n")
    table = re.sub(rb" (\S+_n|BCLK)", lambda match: b" " + match[1].lower(), bus)
    rows = {
        "a million variables": head + b"$scope module fsb $end\n" + bus + b"".join(b"$var wire 1 ~%x x%d $end\n" % (n, n) for n in range(1_000_000)) + b"$upscope $end\n" + values,
        "100,000 scopes, one in the other": head + b"$scope module a $end\n" * 100_000 + bus + b"$upscope $end\n" * 100_000 + values,
        "20,000 scopes with one line each": head + b"".join(b"$scope module s%d $end\n$var wire 1 ~%x ads_n $end\n$upscope $end\n" % (n, n) for n in range(20_000))
        + b"$scope module fsb $end\n" + bus + b"$upscope $end\n" + values,
        "2,000 scopes with all lines": head + b"".join(b"$scope module s%d $end\n%s$upscope $end\n" % (n, re.sub(rb"(\$var \S+ \d+ )(\S+)", lambda m: b"%s~%x%s" % (m[1], n, m[2]), table))
                                                      for n in range(2_000)) + b"$scope module fsb $end\n" + bus + b"$upscope $end\n" + values,
        "2,000 scopes with the same wires": head + (b"".join(b"$scope module s%d $end\n%s$upscope $end\n" % (n, bus) for n in range(2_000))) + values,
        "100,000 names for one line": head + b"$scope module fsb $end\n" + bus + b"".join(b"$var wire 1 ~%x ads_l $end\n" % n for n in range(100_000)) + b"$upscope $end\n" + values,
        "a name of 60,000 bytes": head + b"$scope module " + b"n" * 60_000 + b" $end\n" + bus + b"$upscope $end\n" + values,
        "a comment of 20 MB": head + b"$comment " + b"c" * 20_000_000 + b" $end\n$scope module fsb $end\n" + bus + b"$upscope $end\n" + values,
        "a preface of 20 MB": b"word " * 4_000_000 + b"\n" + head + b"$scope module fsb $end\n" + bus + b"$upscope $end\n" + values,
        "a million stops": head + b"$scope module fsb $end\n" + bus + b"$upscope $end\n" + values + b"$dumpoff\nx!\n$end\n$dumpon\n0!\n$end\n" * 300_000,
        "a width of 1,000,000 bits": head + b"$scope module fsb $end\n" + bus + b"$var wire 1000000 ~ wide $end\n$upscope $end\n" + values + b"b1 ~\n",
        "a width of 2^40 bits": head + b"$scope module fsb $end\n" + bus + b"$var wire 1099511627776 ~ wide $end\n$upscope $end\n" + values,
        "a value of 2,000,000 digits": head + b"$scope module fsb $end\n" + bus + b"$upscope $end\n" + values + b"b" + b"1" * 2_000_000 + b" 4\n",
    }
    for name, text in rows.items():
        write(folder, "large.vcd", text)
        for verb in ("check", "lines"):
            start = processor_seconds()
            answer = limited(program, [verb, os.path.join(folder, "large.vcd")], 120, preexec_fn=lambda: resource.setrlimit(resource.RLIMIT_CPU, (12, 12)))
            took = processor_seconds() - start
            print("large: %s, %s of %.1f MB: %.2f s, status %d, %d bytes told" % (name, verb, len(text) / 1e6, took, answer[0], len(answer[1] + answer[2])), flush=True)
            program.expect([verb, "(%s)" % name], "an answer within 10 seconds of a processor", answer, took < 10 and answer[0] in (0, 3))
            program.expect([verb, "(%s)" % name], "no more than 1 MB told", answer, len(answer[1] + answer[2]) < 1_000_000)


# All of it.

def each(tried, numbers):
    with concurrent.futures.ThreadPoolExecutor(WORKERS) as pool:
        list(pool.map(tried, numbers))


def read(name):
    with open(os.path.join(TOP, name), "rb") as file:
        return file.read()


def write(folder, name, text):
    with open(os.path.join(folder, name), "wb") as file:
        file.write(text)


def main():
    given = sys.argv[1:] + [None] * 4
    program = Program(os.path.abspath(given[0] or os.path.join(TOP, "crates/p6scope/out/p6scope")))
    if not os.access(program.name, os.X_OK):
        sys.exit("no program at %s: build it by 'rt run' in crates/p6scope" % program.name)
    count, lists, seed, parts = int(given[1] or 2_000), int(given[2] or 10_000), int(given[3] or 1), sys.argv[5:]
    works = {"prefixes": lambda folder: prefixes(program, folder), "edits": lambda folder: edits(program, folder, count, seed),
             "words": lambda folder: words(program, folder, lists, seed), "files": lambda folder: files(program, folder),
             "calls": lambda folder: calls(program, folder), "memory": lambda folder: memory(program, folder), "large": lambda folder: large(program, folder)}
    sys.setrecursionlimit(100_000)
    for part in parts or works:
        before = len(program.faults)
        start = time.monotonic()
        with tempfile.TemporaryDirectory() as folder:
            works[part](folder)
        print("%s: %d faults, %.0f s" % (part, len(program.faults) - before, time.monotonic() - start), flush=True)
    for what, number in sorted(program.counts.items()):
        print("%-34s %6d" % (what, number))
    print("%d faults" % len(program.faults))
    return 1 if program.faults else 0


if __name__ == "__main__":
    sys.exit(main())
