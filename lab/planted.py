#!/usr/bin/env python3
"""Plants bugs in the code of a crate, by hand-written lists, and has the prover judge each.

Usage: lab/planted.py [CRATE..]     judges the lists lab/planted/CRATE.json, by default all

A list has objects with fn (the function, with its type where the name alone is not clear), file, what (what goes wrong), old and new. The text
old stands once in the file, in the body of that function. Bugs are planted in a copy of the repository, one a function and several functions at a
time, and one `rt check` judges them all: it goes on after a function that is not proved. What calls such a function is not decided, and is tried again.

For each bug a line is printed: the crate, its place in the list, the function, and
  refused       a goal of the function itself is not proved
  passed        the function is proved with the bug in it: its contract says too little, or the bug changes nothing that it speaks of
  not decided   only what it calls was refused, five times
  stale         the text old does not stand in the file once
  no program    the code does not compile with the bug in it
The last line of a crate counts them.
"""

import collections
import json
import os
import re
import subprocess
import sys
import tempfile

TOP = os.path.dirname(os.path.dirname(os.path.abspath(__file__)))
TRIES = 5


def leaf(name):
    """The name of the function, without its type."""
    return name.split("::")[-1].strip()


def kind(name):
    """The type that the function is of, if it is told."""
    parts = [part.strip() for part in name.split("::")]
    return re.sub("<.*?>", "", parts[-2]) if len(parts) > 1 else None


def function_at(text, line):
    """The name of the function that a line of a file is of: of the last one that begins at it or above."""
    found = re.findall(r"^\s*(?:pub(?:\(\w+\))? )?(?:const )?fn (\w+)", "\n".join(text.split("\n")[:line]), re.M)
    return found[-1] if found else None


class Judge:
    """The bugs of one crate, and what became of each so far."""

    def __init__(self, copy, crate):
        self.crate = crate
        self.folder = os.path.join(copy, "crates", crate)
        with open(os.path.join(TOP, "lab/planted", crate + ".json")) as file:
            self.bugs = json.load(file)
        self.whole = {}
        for bug in self.bugs:
            with open(os.path.join(self.folder, bug["file"])) as file:
                self.whole[bug["file"]] = file.read()
        self.verdicts = {}
        self.tries = collections.Counter()
        # Which functions each function waited for when it was not decided.
        self.waits = collections.defaultdict(set)
        for place, bug in enumerate(self.bugs):
            if self.whole[bug["file"]].count(bug["old"]) != 1 or bug["old"] == bug["new"]:
                self.verdicts[place] = "stale"

    def reaches(self, name):
        """All functions that the proof of this one was seen to wait for."""
        found, left = set(), [name]
        while left:
            for other in self.waits[left.pop()]:
                if other not in found:
                    found.add(other)
                    left.append(other)
        return found

    def group(self):
        """The next bugs to plant together: one a function, apart from one another, and none that another waits for."""
        left = [p for p in range(len(self.bugs)) if p not in self.verdicts and self.tries[p] < TRIES]
        group = []
        for place in sorted(left, key=lambda p: self.tries[p]):
            bug = self.bugs[place]
            if all(self.are_apart(bug, self.bugs[other]) for other in group):
                group.append(place)
            if self.tries[place] >= 2:
                break
        return group

    def are_apart(self, one, two):
        if one["file"] == two["file"]:
            text = self.whole[one["file"]]
            first, second = sorted((text.index(bug["old"]), len(bug["old"])) for bug in (one, two))
            if one["fn"] == two["fn"] or first[0] + first[1] > second[0]:
                return False
        a, b = leaf(one["fn"]), leaf(two["fn"])
        return a not in self.reaches(b) and b not in self.reaches(a)

    def at(self, place):
        """Where the text of the bug stands in its file."""
        return self.whole[self.bugs[place]["file"]].index(self.bugs[place]["old"])

    def check(self, group):
        """What `rt check` prints of the crate with these bugs in it."""
        texts = dict(self.whole)
        # from the end of each file, so that no text that was put in is looked through
        for place in sorted(group, key=lambda p: -self.at(p)):
            bug, at = self.bugs[place], self.at(place)
            text = texts[bug["file"]]
            texts[bug["file"]] = text[:at] + bug["new"] + text[at + len(bug["old"]) :]
        for name, text in texts.items():
            with open(os.path.join(self.folder, name), "w") as file:
                file.write(text)
        self.planted = texts
        ran = subprocess.run(["rt", "check"], cwd=self.folder, stdout=subprocess.PIPE, stderr=subprocess.STDOUT, text=True, errors="replace")
        for name, text in self.whole.items():
            with open(os.path.join(self.folder, name), "w") as file:
                file.write(text)
        return ran.stdout

    def told(self, said, bug):
        """What was said of the function of a bug."""
        module = bug["file"].replace("src/", "").replace(".rt", "").replace("/", "::")
        found = []
        for name, words in said.items():
            parts = name.split("::")
            if parts[-1].split("+")[0] != leaf(bug["fn"]):
                continue
            if kind(bug["fn"]) and len(parts) > 1 and not parts[-2].startswith(kind(bug["fn"])):
                continue
            found.append((name, words))
        return [words for name, words in found if "::%s::" % module in name] or [words for _, words in found]

    def judge(self, group):
        for place in group:
            self.tries[place] += 1
        out = self.check(group)
        said = dict(re.findall(r"^fn (\S+): (.*)$", out, re.M))
        if not said:
            self.blame(group, out)
            return
        for name, words in said.items():
            if "it calls" in words or "waits for" in words:
                self.waits[leaf(name)].update(leaf(other) for other in re.findall(r"`([^`]+)`", words))
        for place in group:
            words = self.told(said, self.bugs[place])
            own = re.search(r"^\./proofs/\S*\b%s/\S*\.antt:\d+:\d+: error: " % re.escape(leaf(self.bugs[place]["fn"])), out, re.M)
            if words and all(word.startswith("proved") for word in words):
                self.verdicts[place] = "passed"
            elif any("expected answers" in word or "did not prove" in word for word in words) or (words and own):
                self.verdicts[place] = "refused"

    def blame(self, group, out):
        """Nothing was proved: drops the bugs in whose functions the compiler found a fault."""
        faults = re.findall(r"^(?:\./)?(src/[\w/]+\.rt):(\d+):\d+: error", out, re.M)
        at_fault = {(name, function_at(self.planted[name], int(line))) for name, line in faults if name in self.planted}
        blamed = [place for place in group if (self.bugs[place]["file"], leaf(self.bugs[place]["fn"])) in at_fault]
        for place in group:
            if place in blamed or len(group) == 1:
                self.verdicts[place] = "no program"
            elif blamed:
                self.tries[place] -= 1

    def run(self):
        while True:
            group = self.group()
            if not group:
                break
            self.judge(group)
        for place, bug in enumerate(self.bugs):
            print("%s %d %s: %s: %s" % (self.crate, place, bug["fn"], self.verdicts.get(place, "not decided"), bug["what"]), flush=True)
        counts = collections.Counter(self.verdicts.get(place, "not decided") for place in range(len(self.bugs)))
        print("%s: %d planted, %s" % (self.crate, len(self.bugs), ", ".join("%d %s" % (n, word) for word, n in sorted(counts.items()))), flush=True)


def main():
    lists = sorted(name[:-5] for name in os.listdir(os.path.join(TOP, "lab/planted")) if name.endswith(".json"))
    with tempfile.TemporaryDirectory() as folder:
        copy = os.path.join(folder, "repo")
        subprocess.run(["git", "clone", "-q", TOP, copy], check=True)
        for crate in sys.argv[1:] or lists:
            Judge(copy, crate).run()


if __name__ == "__main__":
    main()
