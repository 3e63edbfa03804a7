#!/usr/bin/env python3
"""Files at and over each limit, and an outside that fails: full devices, closed pipes, folders, files that grow.

Usage: lab/limits.py [PROGRAM [MINUTES [GROUP]]]      (GROUP: bench_files, dumps, outside, growing)

Each case has the one answer that the pages of docs/reference/ give: a status, its line, and what stands on standard output. With MINUTES, a
dump of 2^32 samples is checked at last, which is `too long`, and one of 2^32 - 1, where the time suffices. Needs a C compiler for that, as cc.
"""

import os
import subprocess
import sys
import tempfile
import threading
import time

sys.dont_write_bytecode = True
from common import TOP, built_program

FIRST = os.path.join(TOP, "examples/first.bench")
LOG = b"11 0 0 ld 1 40 = 7\n12 0 1 st 1 41 = 5\nend clocks=60 done=2 of=2\n"
MOST_BENCH, MOST_SHOWN, MOST_CLOCKS, LONGEST_WORD = 4_194_304, 268_435_456, 200_000, 70_000
LOOKS = (("check", ()), ("audit", ()), ("show", ()), ("find", ("AERR",)), ("wave", ("0", "0")))

# It is loaded before the C library, and makes a dump up where the program reads it: behind the header come as many clocks as asked in which nothing but BCLK
# changes. A file of 2^32 of them would have 129 GB.
ENDLESS = r"""
#define _GNU_SOURCE
#include <dlfcn.h>
#include <stdint.h>
#include <stdlib.h>
#include <string.h>
#include <unistd.h>

/* What is read behind the header: WANTED clocks in which nothing but BCLK changes, 50 of them in a block whose times have one beginning of eight digits. */
static char block[1500];
static uint64_t wanted, given, blocks;
static size_t used, end;

__attribute__((constructor)) static void begin(void) {
    wanted = strtoull(getenv("WANTED"), 0, 10);
    for (int half = 0; half < 100; half++) {
        char *at = block + 15 * half;
        at[0] = '#';
        at[9] = '0' + half / 10;
        at[10] = '0' + half % 10;
        memcpy(at + 11, half % 2 ? "\n1!\n" : "\n0!\n", 4);
    }
}

static void next_block(void) {
    char digits[8];
    uint64_t n = blocks++;
    for (int i = 7; i >= 0; i--, n /= 10) digits[i] = '0' + n % 10;
    for (int half = 0; half < 100; half++) memcpy(block + 15 * half + 1, digits, 8);
    used = 0;
    end = 30 * (wanted - given < 50 ? wanted - given : 50);
    given += end / 30;
}

ssize_t read(int file, void *to, size_t n) {
    static ssize_t (*plain)(int, void *, size_t);
    if (!plain) plain = dlsym(RTLD_NEXT, "read");
    ssize_t got = plain(file, to, n);
    if (got != 0 || file < 3) return got;
    size_t done = 0;
    while (done < n) {
        if (used == end) next_block();
        if (end == 0) break;
        size_t piece = end - used;
        if (piece > n - done) piece = n - done;
        memcpy((char *)to + done, block + used, piece);
        done += piece;
        used += piece;
    }
    return done;
}
"""


class Cases:
    def __init__(self, program, folder):
        self.program, self.folder, self.count, self.bad = program, folder, 0, 0

    def path(self, name):
        return os.path.join(self.folder, name)

    def put(self, name, *parts):
        with open(self.path(name), "wb") as file:
            for part in parts:
                file.write(part)
        return self.path(name)

    def run(self, *words, **others):
        done = subprocess.run([self.program, *words], **{"stdout": subprocess.PIPE, "stderr": subprocess.PIPE, "timeout": 600, **others})
        return done.returncode, done.stdout, done.stderr

    def see(self, name, answer, wanted):
        self.count += 1
        self.bad += answer != wanted
        print("%-70s %s" % (name, "as it should be" if answer == wanted else "WRONG: %r, not %r" % (answer, wanted)), flush=True)

    def refused(self, name, status, line, *words):
        self.see(name, self.run(*words), (status, b"", line))


def bench_files(cases, _):
    with open(FIRST, "rb") as file:
        bench = file.read()
    for size, answer in ((MOST_BENCH, (0, LOG, b"")), (MOST_BENCH + 1, (9, b"", b"too long\n")), (3 * MOST_BENCH, (9, b"", b"too long\n"))):
        fill = size - len(bench)
        for form, text in (("one comment", b"#" * (fill - 1) + b"\n"), ("line feeds", b"\n" * fill), ("blanks", b" " * (fill - 1) + b"\n")):
            cases.see("a bench file of %d bytes, %s" % (size, form), cases.run("run", cases.put("long", bench, text), cases.path("d")), answer)
            cases.see("  and its dump", os.path.exists(cases.path("d")), answer[0] == 0)
            if answer[0] == 0:
                os.remove(cases.path("d"))
    faulty = b"p6bench 2\n" + bench[10:]
    cases.see("a fault in one that is too long", cases.run("run", cases.put("long", faulty, b"\n" * MOST_BENCH)), (9, b"", b"too long\n"))
    word = b"0" * (MOST_BENCH - 25)
    for text, line in ((b"p6bench 1\nagents " + word + b"\n", b"bench line 2: Number\n"), (b"p6bench 1\nagents 1\nclocks 60 " + word[:-20], b"bench line 3: After\n"),
                       (b"p6bench 1\n" + b"x" * (MOST_BENCH - 10), b"bench line 2: Word\n"), (b"\0" * MOST_BENCH, b"bench line 1: FirstLine\n")):
        cases.refused("a word of some 4 MB, %r" % text[:20], 3, line, "run", cases.put("long", text))
    head = b"p6bench 1\nagents 1\nclocks %d\ncache 64\nahead 1\nagent 0\n"
    ends = b"end clocks=%d done=%d of=%d\n"
    for clocks in (0, 1, MOST_CLOCKS):
        cases.see("%d clocks" % clocks, cases.run("run", cases.put("b", head % clocks, b"end\n"), cases.path("d")), (0, ends % (clocks, 0, 0), b""))
        cases.see("  judged", cases.run("check", cases.path("d")), (0, b"accepted clocks=%d\n" % clocks, b""))
        shown = cases.run("show", cases.path("d"))
        cases.see("  shown", (shown[0], shown[1].split(b"\n")[-2], shown[2]), (0, b"accepted clocks=%d" % clocks, b""))
    cases.refused("200,001 clocks", 3, b"bench line 3: Range\n", "run", cases.put("b", head % (MOST_CLOCKS + 1), b"end\n"))
    cases.see("4,096 items", cases.run("run", cases.put("b", head % 0, b"idle 1\n" * 4096, b"end\n")), (0, ends % (0, 0, 0), b""))
    cases.refused("4,097 items", 3, b"bench line 4103: Range\n", "run", cases.put("b", head % 0, b"idle 1\n" * 4097, b"end\n"))
    cases.see("4,096 hazard lines", cases.run("run", cases.put("b", head % 0, b"end\n", b"tx 199999 aerr\n" * 4096)), (0, ends % (0, 0, 0), b""))
    cases.refused("4,097 hazard lines", 3, b"bench line 4104: Range\n", "run", cases.put("b", head % 0, b"end\n", b"tx 199999 aerr\n" * 4097))
    full = b"lock\n" + b"ld 8 40\nst 8 60 1\nld 1 80\nst 1 a0 2\n" * 2 + b"unlock\n"
    cases.see("32,768 accesses", cases.run("run", cases.put("b", head % 0, full * 4096, b"end\n")), (0, ends % (0, 0, 32768), b""))


def dumps(cases, empty):
    def see(name, text, wanted):
        """`wanted` is the end of the answer of each: a count of samples, a line of a refusal, or None of `show` where it is too long for that."""
        path = cases.put("big.vcd", *text)
        for verb, words in LOOKS:
            status, out, line = cases.run(verb, path, *words)
            if isinstance(wanted, bytes) or verb == "show" and wanted > MOST_CLOCKS:
                answer = (9, b"", b"too long\n") if not isinstance(wanted, bytes) else (4, b"", wanted)
            else:
                answer = (11, b"none clocks=%d\n" % wanted, b"not found\n") if verb == "find" else (0, out, b"")
                if verb != "find" and not out.endswith(b"clocks=%d\n" % wanted) and verb != "audit" or verb == "audit" and out != b"clean clocks=%d chunks=0\n" % wanted:
                    answer = None
            cases.see("%s: %s" % (verb, name), (status, out, line), answer)

    clocks = b"".join(b"#%d0\n0!\n#%d5\n1!\n" % (clock, clock) for clock in range(MOST_CLOCKS + 1))
    see("200,000 samples", (empty, clocks[:clocks.rindex(b"#%d0" % MOST_CLOCKS)]), MOST_CLOCKS)
    see("200,001 samples", (empty, clocks), MOST_CLOCKS + 1)
    whole = len(empty) + len(clocks)
    see("200,001 samples and a fault", (empty, clocks, b"hello"), b"dump byte %d: Token\n" % whole)
    for size, right in ((LONGEST_WORD, True), (LONGEST_WORD + 1, False)):
        place = len(empty)
        for word, means in ((b"b" + b"0" * (size - 1), b"Code"), (b"#" + b"0" * (size - 1), b"Token"), (b"hello" * (size // 5) + b"x" * (size % 5), b"Token")):
            line = b"dump byte %d: %s\n" % ((place + size + 1, means) if right and means == b"Code" else (place, means if right else b"Token"))
            see("a word of %d bytes, %r" % (size, word[:4]), (empty, word, b" none 1!"), line)
        see("a real of %d bytes" % size, (empty, b"r" + b"1" * (size - 1), b" !\n#1\n"), 0 if right else b"dump byte %d: Token\n" % place)
        see("a section's word of %d bytes" % size, (empty, b"$comment " + b"x" * size + b" $end\n"), 0)
        see("a section's name of %d bytes" % size, (empty, b"$" + b"x" * (size - 1) + b" $end\n"), 0 if right else b"dump byte %d: Token\n" % place)
        see("a code of %d bytes" % size, (empty.replace(b"$upscope", b"$var wire 1 " + b"c" * size + b" other $end\n$upscope"),),
            0 if right else b"dump byte %d: Token\n" % (empty.index(b"$upscope") + 12))
    for time, line in ((b"18446744073709551615", 0), (b"18446744073709551616", b"Token"), (b"00000000000000000001", 0), (b"000000000000000000001", b"Token")):
        see("the time %s" % time.decode(), (empty, b"#", time, b"\n"), line and b"dump byte %d: %s\n" % (len(empty), line))
    for width, line in ((1_000_000, 0), (1_000_001, b"Header")):
        text = empty.replace(b"$upscope", b"$var reg %d ~o other $end\n$upscope" % width)
        see("a variable of width %d" % width, (text,), line and b"dump byte %d: %s\n" % (empty.index(b"$upscope"), line))
    see("a value of 69,999 digits for another variable", (empty.replace(b"$upscope", b"$var reg 9 ~o other $end\n$upscope"), b"b" + b"1" * 69_999, b" ~o\n"), 0)
    for size, line in ((MOST_SHOWN, None), (MOST_SHOWN + 1, b"too long\n")):
        path = cases.put("big.vcd", empty, b"\n" * (size - len(empty)))
        answer = (0, b"probe 0 = 0\nprobe 1 = 0\nprobe 2 = 0\naccepted clocks=0\n", b"") if not line else (9, b"", line)
        cases.see("show: %d bytes" % size, cases.run("show", path), answer)
        cases.see("check: %d bytes" % size, cases.run("check", path), (0, b"accepted clocks=0\n", b""))
    os.remove(cases.path("big.vcd"))


def outside(cases, empty):
    dump = cases.put("a.vcd", empty, b"#5\n1!\n")
    bad = cases.put("bad.vcd", empty, b"#5\n1!\n$x")
    if os.path.exists(cases.path("d")):
        os.remove(cases.path("d"))
    calls = [("run", FIRST), ("run", FIRST, cases.path("d")), ("gen", "7", "2", "8")] + [(verb, dump, *words) for verb, words in LOOKS]
    for words in calls:
        with open("/dev/full", "wb") as full:
            cases.see("standard output is /dev/full: %s" % words[0], cases.run(*words, stdout=full)[::2], (6, b"write fault\n"))
        cases.see("  and no dump", os.path.exists(cases.path("d")), False)
        ours, theirs = os.pipe()
        os.close(ours)
        cases.see("a closed pipe: %s" % words[0], cases.run(*words, stdout=theirs)[::2], (6, b"write fault\n"))
        cases.see("  where the signal of it is ignored", cases.run(*words, stdout=theirs, restore_signals=False)[::2], (6, b"write fault\n"))
        os.close(theirs)
        cases.see("  and no dump", os.path.exists(cases.path("d")), False)
        cases.see("no standard output: %s" % words[0], cases.run(*words, stdout=None, preexec_fn=lambda: os.close(1))[::2], (6, b"write fault\n"))
        cases.see("no standard error: %s" % words[0], cases.run(*words, stderr=None, preexec_fn=lambda: os.close(2))[0], 11 if words[0] == "find" else 0)
        if os.path.exists(cases.path("d")):
            os.remove(cases.path("d"))
    for name in ("/dev/full", cases.folder, cases.path("none/d"), "/proc/version", "/"):
        cases.see("the dump is %s" % name.replace(cases.folder, "FOLDER"), cases.run("run", FIRST, name), (7, LOG, b"dump fault\n"))
    for verb, words in (("run", ()),) + LOOKS:
        for name in (cases.folder, cases.path("none"), cases.path("a.vcd") + "/x", "/proc/self/mem"):
            cases.refused("%s of %s" % (verb, name.replace(cases.folder, "FOLDER")), 5, b"read fault\n", verb, name, *words)
        if verb != "run":
            cases.refused("%s of /dev/null" % verb, 4, b"dump byte 0: Cut\n", verb, "/dev/null", *words)
            with open("/dev/full", "wb") as full:
                cases.see("a fault, standard error is full: %s" % verb, cases.run(verb, bad, *words, stderr=full)[:2], (4, b""))
    cases.refused("run of /dev/null", 3, b"bench line 1: FirstLine\n", "run", "/dev/null")
    cases.refused("run of /dev/zero", 9, b"too long\n", "run", "/dev/zero")
    secret = cases.put("secret", b"x")
    os.chmod(secret, 0)
    if os.getuid():
        cases.refused("a file that may not be read", 5, b"read fault\n", "check", secret)
    for words in (("run", "/dev/stdin"), ("check", "/dev/stdin")):
        cases.see("%s of a closed standard input" % words[0], cases.run(*words, stdin=None, preexec_fn=lambda: os.close(0)), (5, b"", b"read fault\n"))


def growing(cases, empty):
    """A file that is written on while it is read: the answer is that of a first part of it, and a bench file that grows past its limit is too long."""
    for name, head, piece, verb in (("grow.vcd", empty, b"#%d0\n0!\n#%d5\n1!\n", "check"), ("grow.bench", open(FIRST, "rb").read(), b"# %d of %d\n", "run")):
        path, ends = cases.put(name, head), threading.Event()

        def grow():
            clock = 0
            with open(path, "ab", buffering=0) as file:
                while not ends.is_set() and clock < 2_000_000:
                    file.write(b"".join(piece % (n, n) for n in range(clock, clock + 50)))
                    clock += 50
                    time.sleep(0)

        writer = threading.Thread(target=grow)
        writer.start()
        answers = [cases.run(verb, path) for _ in range(40)]
        ends.set()
        writer.join()
        if verb == "check":
            counts = [int(out[16:]) for status, out, _ in answers if status == 0 and out.startswith(b"accepted clocks=")]
            faults = [line for status, _, line in answers if status == 4 and line.startswith(b"dump byte ")]
            cases.see("a dump that grows, judged 40 times", (len(counts) + len(faults), counts == sorted(counts), counts[-1:] > counts[:1]), (40, True, True))
        else:
            right = [answer in ((0, LOG, b""), (9, b"", b"too long\n")) for answer in answers]
            cases.see("a bench file that grows, run 40 times", all(right), True)


def endless(cases, empty, minutes):
    """2^32 samples, one more than may be, and 2^32 - 1, where the minutes suffice for one of them."""
    library, header = cases.path("endless.so"), cases.put("header", empty)
    subprocess.run(["cc", "-O2", "-shared", "-fPIC", "-x", "c", "-o", library, "-", "-ldl"], input=ENDLESS.encode(), check=True)

    def judged(name, count, wanted):
        begun = time.time()
        answer = cases.run("check", header, env={"LD_PRELOAD": library, "WANTED": str(count)}, timeout=None)
        cases.see("%s samples, %.0f s" % (name, time.time() - begun), answer, wanted)
        return time.time() - begun

    need = judged("20,000,000", 20_000_000, (0, b"accepted clocks=20000000\n", b"")) * 2 ** 32 / 20_000_000
    if need < 60 * minutes:
        judged("2^32", 2 ** 32, (9, b"", b"too long\n"))
        judged("2^32 - 1", 2 ** 32 - 1, (0, b"accepted clocks=4294967295\n", b""))
    else:
        print("2^32 samples would take some %.0f minutes" % (need / 60))


def main():
    program = built_program(*sys.argv[1:2])
    minutes = float(sys.argv[2]) if len(sys.argv) > 2 else 0
    only = sys.argv[3] if len(sys.argv) > 3 else None
    with tempfile.TemporaryDirectory() as folder:
        cases = Cases(program, folder)
        cases.run("run", cases.put("empty.bench", b"p6bench 1\nagents 1\nclocks 0\ncache 1\nahead 1\nagent 0\nend\n"), cases.path("empty.vcd"))
        with open(cases.path("empty.vcd"), "rb") as file:
            empty = file.read()
        for group in (bench_files, dumps, outside, growing):
            if only in (None, group.__name__):
                group(cases, empty)
        if minutes:
            endless(cases, empty, minutes)
        print("%d cases, %d wrong" % (cases.count, cases.bad))
    sys.exit(1 if cases.bad else 0)


if __name__ == "__main__":
    main()
