#!/usr/bin/env python3
"""Writes the examples of docs/reference/reasons.md: each sentence of a reason once, with the drawing that p6scope prints with it.

Usage: lab/reasons_page.py P6SCOPE          writes them into the page
       lab/reasons_page.py P6SCOPE --check  compares them with the page, and ends with status 1 where they differ

The dumps are those of crates/rows_program/data/reasons.rows, whose rows ask for the sentences. Of sentences that differ in
numbers alone the first one stands.
"""

import os
import re
import subprocess
import sys

from common import TOP

DATA = os.path.join(TOP, "crates/rows_program/data")
PAGE = os.path.join(TOP, "docs/reference/reasons.md")
BEGIN, END = "## Each sentence with its drawing\n", "## Which lines are drawn\n"


def dumps():
    """The dumps of the rows, each once, in their order."""
    with open(os.path.join(DATA, "reasons.rows")) as rows:
        return list(dict.fromkeys(line.split()[1] for line in rows if line.startswith("file ")))


def answer(program, dump):
    """What a check of the dump prints."""
    return subprocess.run([program, "check", dump], cwd=DATA, stdout=subprocess.PIPE, text=True).stdout


def reasons(text):
    """The reasons of an answer, as rule and sentence."""
    first = re.search(r": rule (\d+), [^\n]*\n  (.*?)\n  (?:also rule |(?=[A-Z]))", text, re.S)
    found = [(int(first[1]), plain(first[2]))] if first else []
    for rule, words in re.findall(r"\n  also rule (\d+), [^:]*: (.*?)(?=\n  also rule |\n  [A-Z][a-z' ]+ )", text, re.S):
        found.append((int(rule), plain(words)))
    return found


def plain(words):
    return re.sub(r"\s+", " ", words).strip()


def drawing(text):
    """The drawing of an answer: the lines from the ruler on."""
    return re.search(r"\n\n( +\d[ \d*]*\n.*?\n)\n", text, re.S)[1]


def form(rule, sentence):
    """What two sentences share that differ in numbers alone."""
    return rule, re.sub(r"\b\d+\b", "#", re.sub(r"\b[0-9a-f]{16}\b", "#", sentence))


def section(answers):
    """The text of the section."""
    known, by_rule = set(), {}
    for text in answers:
        for rule, sentence in reasons(text):
            if form(rule, sentence) not in known:
                known.add(form(rule, sentence))
                by_rule.setdefault(rule, []).append((sentence, drawing(text)))
    out = []
    for rule in sorted(by_rule):
        out.append("\n### Rule %d\n" % rule)
        for sentence, picture in by_rule[rule]:
            out.append("\n%s\n\n```\n%s```\n" % (sentence, picture))
    return "".join(out)


def main(words):
    answers = [answer(os.path.abspath(words[0]), dump) for dump in dumps()]
    with open(PAGE) as page:
        text = page.read()
    start, end = text.index(BEGIN), text.index(END)
    intro = re.match(r".*?(?=\n### |\Z)", text[start:end], re.S)[0].rstrip("\n") + "\n"
    made = text[:start] + intro + section(answers) + "\n" + text[end:]
    if "--check" in words:
        print("the page is as it is to be" if made == text else "the page differs")
        return made != text
    with open(PAGE, "w") as page:
        page.write(made)
    return 0


if __name__ == "__main__":
    sys.exit(main(sys.argv[1:]))
