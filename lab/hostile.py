#!/usr/bin/env python3
"""Hostile input: every prefix of dumps and bench files of every form, random edits of them, and random words, through the built program.

Usage: lab/hostile.py [PROGRAM [EDITS [SEED [JOBS [PART]]]]]      (20,000 edits of dumps and as many of bench files, on all processors; PART
is dumps, benches or words)

Each dump is given to `check`, `audit`, `find`, `wave` and `show`, each bench file to `run` without and with a dump. What is answered must be exactly
what the documents say: the first fault and its place as second_dump.py and second_reader.py find it; search and wave as second_look.py does; verdict,
audit and table as it does (of every fiftieth text), and else one verdict of all three; of a run the same log both times, a dump that is accepted and
clean and has all clocks, and (of every fiftieth) the log of second_bench.py. A refused file prints nothing and leaves no dump. Prints what differs,
and how many texts had each status. Needs a C compiler, as cc.
"""

import collections
import concurrent.futures
import os
import random
import re
import struct
import subprocess
import sys
import tempfile
from types import SimpleNamespace

sys.dont_write_bytecode = True
import second_look
from common import TOP, built_program
from second_bench import answer_of, summary
from second_dump import Fault, read_samples
from second_look import Look, find, is_range, is_trigger, wave
from second_reader import BadLine, Reader

TRIALS, RUNS, TEXTS = "crates/rows_trials/data/", "crates/rows_benches/data/", "crates/rows_texts/data/"
# Both profiles, locked, deferred, retried and cancelled requests, write-backs, upgrades, parity; vectors, reals, strings, comments and several scopes.
DUMPS = [TRIALS + name + ".vcd" for name in ("deferred_with_upgrades", "locked_item_retried", "dirty_victim_written_back", "parity_of_a_load")]
DUMPS += [TEXTS + name + ".vcd" for name in ("falling_verilator", "scopes")]
# Of these there are edits alone.
MORE_DUMPS = [TRIALS + name + ".vcd" for name in ("mixed_05", "upgrade_lost_and_made_again", "cancelled_by_address_error", "empty_run")]
MORE_DUMPS += [TEXTS + name + ".vcd" for name in ("falling", "same_time")]
BENCHES = [RUNS + name + ".bench" for name in ("mixed_05", "locked_item_retried", "deferred_with_upgrades", "dirty_victim_written_back",
                                              "upgrade_lost_and_made_again", "parity_of_a_load", "write_back_held_off", "four_outstanding")]
BENCHES += ["examples/" + name + ".bench" for name in ("lock", "first", "counter", "retried")]
# How many texts are tried at a time.
BATCH = 20
DUMP_WORDS = [b"$end", b"$var", b"$enddefinitions", b"$comment", b"$dumpoff", b"#0", b"#99999999999999999999", b"#18446744073709551615", b"0!", b"1!",
              b"b1", b"bx", b"b1 !", b"x!", b"z)", b"r1.0 !", b"shello !", b" ", b"\n", b"\x00", b"\xff", b"$var wire 1 ~ RP_n $end", b"$var real 1 ! BCLK $end",
              b"$var wire 1 ! BCLK $end", b"b" + b"0" * 70_000, b"$x" + b"0" * 70_000]
BENCH_WORDS = [b"ld 1 40", b"st 8 40 ffffffffffffffff", b"lock", b"unlock", b"end", b"agent 1", b"18446744073709551616", b"-1", b"#", b"\r\n", b"\x00", b"\xff",
               b"tx 0 defer 65535", b"tx 0 aerr", b"bnr 0 9", b"mem fffffffff 07", b"profile 2", b"idle 200000", b"r+1", b" ", b"\n", b"clocks 200000"]


def strange(text):
    """A dump of the program's own form with all that other tools write: scopes, names that come again, reals, strings, comments, codes of two variables."""
    text = text.replace(b"$upscope", b"$scope begin inner $end\n$var real 64 ~r volts $end\n$var string 1 ~s note $end\n$var reg 1 ~1 BCLK $end\n"
                        b"$var integer 32 ~i ADS_n [31:0] $end\n$var event 1 ~e granted $end\n$var reg 5 * again $end\n$upscope $end\n$upscope", 1)
    for number, word in enumerate((b"r-1.5e3 ~r", b"sIDLE ~s", b"$comment a word $end", b"1~e", b"b101 ~i", b"$dumpall", b"R0 ~r S ~s", b"$end", b"B1xZ ~i")):
        text = text.replace(b"#%d5\n" % number, b"%s\n#%d5\n#%d5\n" % (word, number, number), 1)
    return text.replace(b"b11111 *", b"b1 *\tBz *", 1).replace(b"\n", b"\r\n")


def edited(text, chance, words):
    """The text after one to four edits: a byte changed, taken out or put in, a piece moved, doubled or cut, a word put in; in half of the texts
    digits alone are changed to others, so that more of them are read to their end."""
    data = bytearray(text)
    digits = [place for place, byte in enumerate(data) if byte in b"0123456789"] if chance.random() < 0.5 else ()
    for _ in range(chance.choice((1, 1, 1, 2, 4))):
        if digits:
            at = chance.choice(digits)
            data[at] = chance.choice(b"01" if data[at] in b"01" else b"0123456789")
            continue
        at = chance.randint(0, len(data))
        to = min(len(data), at + chance.randint(1, 40))
        kind = chance.randrange(8)
        if kind == 0 and at < len(data):
            data[at] = chance.randrange(256)
        elif kind == 1:
            del data[at:at + 1]
        elif kind == 2:
            data[at:at] = bytes([chance.randrange(256)])
        elif kind == 3:
            data[at:at] = chance.choice(words)
        elif kind == 4:
            data[at:at] = data[at:to]
        elif kind == 5:
            del data[at:to]
        elif kind == 6 and at < len(data):
            data[at] = chance.choice(b"01xzb#$ \n0123456789abcdef")
        else:
            piece = data[at:to]
            del data[at:to]
            place = chance.randint(0, len(data))
            data[place:place] = piece
    return bytes(data)


# It is loaded before the C library, and enters the program's `main` anew for each list of words that is read from standard input. Answered are the status,
# standard output and standard error of each. So a call takes a tenth of the time that a new process takes.
SERVER = r"""
#define _GNU_SOURCE
#include <dlfcn.h>
#include <link.h>
#include <stdint.h>
#include <stdlib.h>
#include <sys/mman.h>
#include <unistd.h>

static int (*real_main)(int, char **, char **);
static char words[1 << 20], *list[256];

static void all(int file, char *at, size_t n, int is_read) {
    while (n > 0) {
        ssize_t moved = is_read ? read(file, at, n) : write(file, at, n);
        if (moved <= 0)
            _exit(0);
        at += moved;
        n -= moved;
    }
}

static void tell(int told, int output) {
    static char piece[1 << 16];
    uint32_t length = lseek(output, 0, SEEK_END);
    all(told, (char *)&length, 4, 0);
    lseek(output, 0, SEEK_SET);
    while (length > 0) {
        ssize_t n = read(output, piece, sizeof piece);
        all(told, piece, n, 0);
        length -= n;
    }
    lseek(output, 0, SEEK_SET);
    if (ftruncate(output, 0)) _exit(98);
}

/* What the program keeps of its words before `main`, it keeps anew. */
static void begin(int count, char **env) {
    struct link_map *program = dlopen(NULL, RTLD_NOW);
    void (**begins)(int, char **, char **) = 0;
    size_t size = 0;
    for (ElfW(Dyn) *entry = program->l_ld; entry->d_tag != DT_NULL; entry++) {
        if (entry->d_tag == DT_INIT_ARRAY) begins = (void *)(program->l_addr + entry->d_un.d_ptr);
        if (entry->d_tag == DT_INIT_ARRAYSZ) size = entry->d_un.d_val / sizeof *begins;
    }
    for (size_t i = 0; i < size; i++) begins[i](count, list, env);
}

static int serve(int count, char **given, char **env) {
    int asked = dup(0), told = dup(1);
    for (int i = 1; i <= 2; i++) dup2(memfd_create("output", 0), i);
    for (;;) {
        uint32_t n, length;
        all(asked, (char *)&n, 4, 1);
        char *at = words;
        list[0] = given[0];
        for (uint32_t i = 1; i <= n; i++) {
            all(asked, (char *)&length, 4, 1);
            all(asked, list[i] = at, length, 1);
            at[length] = 0;
            at += length + 1;
        }
        list[n + 1] = 0;
        begin(n + 1, env);
        alarm(120);
        int32_t status = real_main(n + 1, list, env);
        alarm(0);
        all(told, (char *)&status, 4, 0);
        tell(told, 1);
        tell(told, 2);
    }
}

int __libc_start_main(int (*main)(int, char **, char **), int count, char **given, void (*a)(void), void (*b)(void), void (*c)(void), void *end) {
    __typeof__(__libc_start_main) *real = dlsym(RTLD_NEXT, "__libc_start_main");
    real_main = main;
    return real(serve, count, given, a, b, c, end);
}
"""


class Program:
    """The built program."""

    def __init__(self, name, folder):
        library = os.path.join(folder, "server.so")
        subprocess.run(["cc", "-O1", "-w", "-shared", "-fPIC", "-x", "c", "-o", library, "-", "-ldl"], input=SERVER.encode(), check=True)
        self.server = subprocess.Popen([name], env={"LD_PRELOAD": library}, stdin=subprocess.PIPE, stdout=subprocess.PIPE)
        self.count = 0

    def said(self, calls):
        """The status, standard output and standard error of each of these calls, which are lists of words."""
        self.count += len(calls)
        for words in calls:
            words = [os.fsencode(word) for word in words]
            self.server.stdin.write(struct.pack("=I", len(words)) + b"".join(struct.pack("=I", len(word)) + word for word in words))
        self.server.stdin.flush()
        return [self.answer() for _ in calls]

    def answer(self):
        head = self.server.stdout.read(8)
        if len(head) < 8:
            raise EOFError("the program was ended by a signal in one of the last calls: %d" % self.server.wait())
        status, length = struct.unpack("=iI", head)
        output = self.server.stdout.read(length)
        length, = struct.unpack("=I", self.server.stdout.read(4))
        return status, output.decode("latin-1"), self.server.stdout.read(length).decode("latin-1")

    def ends(self):
        self.server.stdin.close()
        self.server.wait()


def told(line):
    """What a command answers that prints this line alone."""
    status = {"rejected": 1, "foul": 10}.get(line.split(" ")[0], 0)
    return status, line + "\n", line + "\n" if status else ""


class Dumps:
    """How a dump is tried: what is called, and what is wrong with the answers, with the status of the first."""

    def put(self, text, number):
        with open("given%d" % number, "wb") as file:
            file.write(text)

    def asked(self, number):
        return ("ADS/RS0", "HITM/<3:TRDY", "D=7,DRDY", "BREQ0,!ADS/ADS/DRDY")[number % 4], str(number % 9)

    def calls(self, text, number):
        self.put(text, number)
        trigger, first = self.asked(number)
        words = {"check": (), "audit": (), "show": (), "find": (trigger,), "wave": (first, "63")}
        return [(verb, "given%d" % number, *more) for verb, more in words.items()]

    def odd(self, text, number, said):
        said = dict(zip(("check", "audit", "show", "find", "wave"), said))
        try:
            look = Look(text) if number % 50 == 0 else SimpleNamespace(samples=read_samples(text)[1])
        except Fault as fault:
            wanted = 4, "", "dump byte %d: %s\n" % fault.args
            return [verb for verb in said if said[verb] != wanted]
        trigger, first = self.asked(number)
        wanted = {"find": find(look, trigger), "wave": wave(look, first, "63")}
        if number % 50 == 0:
            wanted.update({"check": told(look.verdict), "audit": second_look.audit(look), "show": second_look.show(look)})
        odd = [verb for verb in wanted if said[verb] != wanted[verb]]
        return odd + looks_that_disagree(len(look.samples), *(said[verb] for verb in ("check", "audit", "show")))

    def ends(self, number):
        os.remove("given%d" % number)


def looks_that_disagree(clocks, check, audit, show):
    """Which of the three do not go with the one before."""
    verdict, found, rows = check[1].rstrip("\n"), audit[1].rstrip("\n"), show[1].split("\n")
    odd = []
    if not re.fullmatch(r"accepted clocks=%d|rejected clock=\d+ rule=\d+" % clocks, verdict) or check != told(verdict):
        odd.append("check")
    is_clean = re.fullmatch(r"clean clocks=%d chunks=\d+" % clocks, found) and verdict.startswith("accepted")
    foul = re.fullmatch(r"foul clock=(\d+) addr=[0-9a-f]+", found)
    is_before = foul and (verdict.startswith("accepted") or int(foul[1]) < int(re.findall(r"\d+", verdict)[0]))
    if audit != told(found) or not (is_clean or is_before or found == verdict):
        odd.append("audit")
    if show[::2] != told(verdict)[::2] or rows[-2:] != [verdict, ""] or (len(rows) > 2) != verdict.startswith("accepted"):
        odd.append("show")
    return odd


class Benches(Dumps):
    """How a bench file is tried."""

    def calls(self, text, number):
        self.put(text, number)
        given, dump = "given%d" % number, "dump%d" % number
        return [("run", given), ("run", given, dump), ("check", dump), ("audit", dump)]

    def odd(self, text, number, said):
        bare, run, check, audit = said
        odd = ["two logs"] if bare != run else []
        try:
            plan = Reader(text.decode("latin-1")).plan
        except BadLine as bad:
            is_told, no_dump = run == (3, "", "bench line %d: %s\n" % bad.args), (5, "", "read fault\n")
            return odd + ([] if is_told else ["refusal"]) + ([] if check == audit == no_dump else ["a dump"])
        if run[0] != 0 or run[2] or not re.search(r"(^|\n)end clocks=%d done=\d+ of=\d+\n$" % plan.clocks, run[1]):
            odd.append("run")
        if check != told("accepted clocks=%d" % plan.clocks):
            odd.append("check")
        if not audit[1].startswith("clean clocks=%d " % plan.clocks):
            odd.append("audit")
        if number % 50 == 0 and plan.clocks <= 500 and answer_of(text.decode("latin-1"))[1] != run[1].splitlines():
            odd.append("second bench")
        return odd

    def ends(self, number):
        for name in ("given%d" % number, "dump%d" % number):
            if os.path.exists(name):
                os.remove(name)


def is_name(word):
    return 1 <= len(word.encode("utf-8", "surrogateescape")) <= 4096 and not word.startswith("-") and not any("\ud800" <= c <= "\udfff" for c in word)


def is_number(word, digits, *bounds):
    return bool(re.fullmatch("[0-9]{1,%d}" % digits, word)) and bounds[0] <= int(word) <= bounds[1]


def have_a_form(words):
    verb, rest = words[0] if words else "", words[1:]
    if not all(is_name(word) for word in words):
        return False
    if verb == "gen":
        return len(rest) == 3 and is_number(rest[0], 20, 0, 2 ** 64 - 1) and is_number(rest[1], 4, 1, 4) and is_number(rest[2], 4, 1, 4096)
    if verb == "find":
        return len(rest) == 2 and is_trigger(rest[1])
    if verb == "wave":
        return len(rest) == 3 and is_range(*rest[1:])
    return (len(rest) == 1 and verb in ("check", "audit", "show")) or (verb == "run" and len(rest) in (1, 2))


LISTS = [["run", "none"], ["run", "none", "d"], ["check", "none"], ["audit", "none"], ["show", "none"], ["find", "none", "ADS/<5:!HIT,A=40/RS0"],
         ["find", "none", "REQ=1f,D=ffffffffffffffff/<999999:BREQ3"], ["wave", "none", "0", "63"], ["wave", "none", "4294967232", "4294967295"],
         ["gen", "18446744073709551615", "4", "3"], ["gen", "0", "1", "1"], ["gen", "7", "2", "4"]]
PIECES = ["", "-", "--help", "0", "00", "1", "4", "5", "63", "64", "4096", "4097", "18446744073709551616", "000000000000000000001", "+1", " 1", "1 ", "\u0661",
          "ADS", "!", "/", ",", "<1:", "<0:", "=", "run", "check", "gen", "\udcff", "\u00e9", "x" * 4096, "x" * 4097, "\n", "A=41", "REQ=20", "D=0x1"]


def edited_words(chance):
    words = list(chance.choice(LISTS))
    for _ in range(chance.choice((0, 1, 1, 1, 2))):
        at, kind = chance.randint(0, len(words)), chance.randrange(6)
        if kind == 0:
            words.insert(at, chance.choice(PIECES))
        elif kind == 1:
            del words[at:at + 1]
        elif at < len(words):
            word, place = words[at], chance.randint(0, len(words[at]))
            words[at] = [chance.choice(PIECES), word[:place] + chance.choice(PIECES) + word[place:], word[:place] + word[place + 1:],
                         word[:place] + chance.choice("0123456789,/!<:=ADSHIT") + word[place:]][kind - 2]
    return [word.replace("\0", "") for word in words]


class Lists(Dumps):
    """How a list of words is tried, none of which names a file that is there."""

    def calls(self, words, number):
        return [words]

    def odd(self, words, number, said):
        if not have_a_form(words):
            wanted = 2, "", "bad words\n"
        elif words[0] == "gen":
            if int(words[3]) > 8:
                return ["gen"] if said[0][0] != 0 or said[0][2] else []
            wanted = 0, "".join(line + "\n" for line in summary(*map(int, words[1:]))), ""
        else:
            wanted = 5, "", "read fault\n"
        return [] if said[0] == wanted else ["%r, not %r" % (said[0], wanted)]

    def ends(self, number):
        if os.path.exists("d"):
            os.remove("d")


def dump_texts():
    texts = read(DUMPS)
    texts["a strange dump"] = strange(texts[DUMPS[3]])
    return texts


def read(names):
    texts = {}
    for name in names:
        with open(os.path.join(TOP, name), "rb") as file:
            texts[name] = file.read()
    return texts


def prefixes_and_edits(texts, more, words, edits, seed):
    """Every prefix of each text, and its share of the edits, as functions that make them."""
    for name, text in texts.items():
        for length in range(len(text) + 1):
            yield name, "prefix %d" % length, lambda: text[:length]
    texts = list({**texts, **more}.items())
    for number in range(edits):
        name, text = texts[number % len(texts)]
        yield name, "edit %d" % number, lambda: edited(text, random.Random("%s %d %d" % (name, seed, number)), words)


def texts_of(part, edits, seed):
    if part == "dumps":
        return prefixes_and_edits(dump_texts(), read(MORE_DUMPS), DUMP_WORDS, edits, seed)
    if part == "benches":
        return prefixes_and_edits(read(BENCHES), {}, BENCH_WORDS, edits, seed)
    return (("words", "list %d" % number, lambda: edited_words(random.Random("%d %d" % (seed, number)))) for number in range(edits // 2))


PARTS = {"dumps": Dumps(), "benches": Benches(), "words": Lists()}


def share(job):
    """One job's share of a part: prints what is odd, and counts kinds of texts, statuses, calls and odd answers."""
    name, part, edits, seed, number_of_job, jobs = job
    counts, tried = collections.Counter(), PARTS[part]
    with tempfile.TemporaryDirectory(dir="/dev/shm" if os.path.isdir("/dev/shm") else None) as folder:
        os.chdir(folder)
        program, batch = Program(name, folder), []

        def end_batch():
            calls = [tried.calls(text, number) for _, _, text, number in batch]
            said = program.said([words for of_one in calls for words in of_one])
            for (file, which, text, number), of_one in zip(batch, calls):
                answers, said = said[:len(of_one)], said[len(of_one):]
                odd = tried.odd(text, number, answers)
                counts.update({which.split()[0]: 1, answers[0][0]: 1, "odd": bool(odd)})
                if odd:
                    print("%s %s: %s %r" % (file, which, ", ".join(odd), text[-60:]), flush=True)
                tried.ends(number)
            batch.clear()

        for number, (file, which, made) in enumerate(texts_of(part, edits, seed)):
            if number % jobs == number_of_job:
                batch.append((file, which, made(), number))
            if len(batch) == BATCH:
                end_batch()
        end_batch()
        program.ends()
        os.chdir("/")
    counts["calls"] = program.count
    return counts


def main():
    words = sys.argv[1:] + [None] * 5
    name, edits, seed, jobs = built_program(words[0]), int(words[1] or 20_000), int(words[2] or 1), int(words[3] or os.cpu_count())
    odd = 0
    with concurrent.futures.ProcessPoolExecutor(jobs) as pool:
        for part in PARTS if words[4] is None else [words[4]]:
            counts = sum(pool.map(share, [(name, part, edits, seed, number, jobs) for number in range(jobs)]), collections.Counter())
            kinds = ", ".join("%d %s" % (counts[kind], kind) for kind in ("prefix", "edit", "list") if counts[kind])
            statuses = {status: count for status, count in sorted((item for item in counts.items() if isinstance(item[0], int)))}
            print("%s: %s, %d calls, by status %s, %d odd" % (part, kinds, counts["calls"], statuses, counts["odd"]), flush=True)
            odd += counts["odd"]
    return 1 if odd else 0


if __name__ == "__main__":
    sys.exit(main())
