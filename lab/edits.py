#!/usr/bin/env python3
"""Tries the wrong bodies that the gate does not try: has the prover judge each of them.

Usage: lab/edits.py [CRATE..]     judges the edits lab/planted/edits/CRATE/*.edit, by default all

An edit has the form of those in crates/CRATE/must-fail/, which the gate tries. Here they take the place of those there, in a copy of the repository's
last commit, and one `rt must-fail CRATE` judges them. What is kept in the crates' out/ is copied too: without it all crates below are proved first.

For each edit a line is printed: the crate, the edit, and
  refused       a goal is not proved; the first one that `rt` names stands behind it
  names         only a proof file is at fault that names what the edit took away, which says little of the contract
  passed        the crate is proved with the edit in it
  bad           it does not apply, or the prover cannot read the crate with it
  not tried     `rt` told nothing of it, as where a crate below is not proved
The last line counts them. The status is 1 where one passed, is bad or was not tried.
"""

import collections
import os
import re
import shutil
import subprocess
import sys
import tempfile

from common import TOP, libraries

EDITS = os.path.join(TOP, "lab/planted/edits")
TOLD = re.compile(r"must-fail (\w+)/(\S+)\.edit: (.*)")


def below(crates):
    """The crates of the repository that these stand on, by crates.txt."""
    known = libraries()
    found, left = set(), list(crates)
    while left:
        for name in known.get(left.pop(), []):
            if name in known and name not in found:
                found.add(name)
                left.append(name)
    return found


def copied(folder, crates):
    """A copy of the last commit, with what is kept of the crates below these."""
    copy = os.path.join(folder, "repo")
    subprocess.run(["git", "clone", "-q", TOP, copy], check=True)
    for name in below(crates):
        kept = os.path.join(TOP, "crates", name, "out")
        if os.path.isdir(kept):
            shutil.copytree(kept, os.path.join(copy, "crates", name, "out"), symlinks=True)
    return copy


def verdict(words):
    """What became of an edit, of which `rt` told this."""
    if words.startswith("refused"):
        return "names" if "only because a proof file names" in words else "refused"
    return "passed" if words.startswith("NOT REFUSED") else "bad"


def judge(copy, crate):
    """Judges the edits of a crate, and counts what became of them."""
    place = os.path.join(copy, "crates", crate, "must-fail")
    shutil.rmtree(place, ignore_errors=True)
    shutil.copytree(os.path.join(EDITS, crate), place)
    ran = subprocess.run(["rt", "must-fail", crate], cwd=copy, stdout=subprocess.PIPE, stderr=subprocess.STDOUT, text=True, errors="replace")
    told = {name: words for of, name, words in TOLD.findall(ran.stdout) if of == crate}
    counts = collections.Counter()
    for name in sorted(file[:-5] for file in os.listdir(place) if file.endswith(".edit")):
        words = told.get(name)
        kind = verdict(words) if words else "not tried"
        counts[kind] += 1
        print("%s %s: %s%s" % (crate, name, kind, ": " + words.partition(": ")[2] if words and ": " in words else ""), flush=True)
    if "not tried" in counts:
        print(ran.stdout[-2000:], flush=True)
    return counts


def main():
    crates = sys.argv[1:] or sorted(os.listdir(EDITS))
    counts = collections.Counter()
    with tempfile.TemporaryDirectory() as folder:
        copy = copied(folder, crates)
        for crate in crates:
            counts += judge(copy, crate)
    print("%d edits, %s" % (sum(counts.values()), ", ".join("%d %s" % (n, word) for word, n in sorted(counts.items()))))
    return 0 if set(counts) <= {"refused", "names"} else 1


if __name__ == "__main__":
    sys.exit(main())
