#!/usr/bin/env python3
"""Lists the lemmas that are stated more than once: the same statement, but for the names that it binds, in several proof files.

Usage: lab/lemmas.py [WORD] [--across] [--count]

  WORD      only lemmas with a copy whose crate, file or name has this word
  --across  only lemmas with copies in two crates or more
  --count   the last line alone

Each lemma is printed as its statement and a line for each place: the file and the name there, and `pub` where others can name it. Where one of the
places is public in a crate below the others, that one can be used by all: the others can go. Two statements are held to be the same where their words
are, so a word that means two things in two crates may show here by chance. The last line counts the lemmas, the copies that
are one too many, and their lines.
"""

import collections
import os
import re
import signal
import sys

from common import TOP, libraries

CRATES = os.path.join(TOP, "crates")
# A declaration begins at the left edge: its name, a colon, and its statement, which goes on in indented lines.
BEGINS = re.compile(r"(pub(?:\([^)]*\))? )?((?:unfoldable |abbrev )?)([^\s:(){}]+) : (.*)")
# What names are bound: those of a telescope `(a b : T)`, `{a : T}`, and those of a `λ a b.`
BOUND = re.compile(r"[({]\s*([^\s(){}:][^(){}:]*?)\s*:(?=\s)|λ\s+([^.]+)\.")
WORD = re.compile(r"[^\s(){}\[\],.;:]+")


def files():
    """The proof files of all crates, each with its crate."""
    for crate in libraries():
        for at, _, names in os.walk(os.path.join(CRATES, crate, "proofs")):
            for name in sorted(names):
                if name.endswith(".antt"):
                    yield crate, os.path.join(at, name)


def declarations(path):
    """The lemmas of a file: whether it is public, its name, its statement, and how many lines it has with its proof."""
    with open(path, encoding="utf-8") as it:
        lines = it.read().split("\n")
    starts = [at for at, line in enumerate(lines) if BEGINS.match(line) and not line.startswith(("use ", "--"))]
    for at, after in zip(starts, starts[1:] + [len(lines)]):
        public, kind, name, statement = BEGINS.match(lines[at]).groups()
        end = at + 1
        while end < after and lines[end].startswith((" ", "\t")):
            statement += " " + lines[end].strip()
            end += 1
        body = [line for line in lines[at:after] if line.strip() and not line.startswith("--")]
        # (a definition of a word is none: its statement has no equation and no premise)
        if not kind and end < after and "→" in statement:
            yield bool(public), name, statement, len(body)


def plain(statement):
    """The statement with the names that it binds in the order in which they are bound."""
    names = [name for group in BOUND.findall(statement) for name in " ".join(group).split()]
    order = {name: "·%d" % place for place, name in enumerate(dict.fromkeys(names))}
    # (`(a b : T)` and `(a : T) (b : T)` are one)
    told = re.sub(r"([({])\s*([^\s(){}:][^(){}:]*?)\s*:\s", lambda it: it[1] + it[2] + " : ", statement)
    told = re.sub(r"\(([^(){}:]+) : ([^()]*)\)", lambda it: " ".join("(%s : %s)" % (name, it[2]) for name in it[1].split()), told)
    told = WORD.sub(lambda it: order.get(it[0], it[0]), told)
    return re.sub(r"\s+", " ", told).strip()


def main():
    words = sys.argv[1:]
    across, count = "--across" in words, "--count" in words
    wanted = [it for it in words if not it.startswith("--")]
    found = collections.defaultdict(list)
    for crate, path in files():
        for public, name, statement, lines in declarations(path):
            found[plain(statement)].append((crate, os.path.relpath(path, CRATES), name, public, lines))
    lemmas = copies = much = 0
    signal.signal(signal.SIGPIPE, signal.SIG_DFL)
    for statement, places in found.items():
        if len({path for _, path, _, _, _ in places}) < 2 or across and len({crate for crate, *_ in places}) < 2:
            continue
        if wanted and not any(wanted[0] in "%s %s" % (path, name) for _, path, name, _, _ in places):
            continue
        lemmas, copies, much = lemmas + 1, copies + len(places) - 1, much + sum(sorted(it[4] for it in places)[:-1])
        if not count:
            print(statement)
            for _, path, name, public, _ in places:
                print("    %s: %s%s" % (path, "pub " if public else "", name))
    print("%d lemmas, %d copies too many, %d lines" % (lemmas, copies, much))


if __name__ == "__main__":
    main()
