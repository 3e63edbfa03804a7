#!/usr/bin/env python3
"""Compares the texts of the rules in the crate rule_texts with the pages that list the rules. Status 1 where they differ.

Usage: lab/rule_texts.py            compares
       lab/rule_texts.py --write    writes the crate's texts anew, from the pages

The pages are the source: docs/phase-rules.md (1 to 20) and docs/ownership-rules.md (21 to 31). Of the section of a rule, which
begins with `### NUMBER TITLE`, the text has the title, the paragraphs before `*Exactly:*`, and the name of the page. Marks of
Markdown are left out, and the lines are laid out anew.
"""

import os
import re
import sys
import textwrap

sys.dont_write_bytecode = True
from common import TOP

PAGES = {"phase": "docs/phase-rules.md", "ownership": "docs/ownership-rules.md"}
RULES = {"phase": range(1, 21), "ownership": range(21, 32)}
COLUMNS = 76


def plain(text):
    """A paragraph without the marks of Markdown, on lines of its own."""
    text = re.sub(r"\[([^\]]*)\]\([^)]*\)", r"\1", text)
    text = text.replace("**", "").replace("`", "")
    return textwrap.fill(" ".join(text.split()), COLUMNS, break_on_hyphens=False, break_long_words=False)


def sections(page):
    """The sections of a page that begin with the number of a rule: the number, the title and the paragraphs."""
    with open(os.path.join(TOP, page), encoding="utf-8") as file:
        text = file.read()
    for part in re.split(r"^(?=#{1,3} )", text, flags=re.M):
        head = re.match(r"### (\d+) (.*)\n", part)
        if head:
            yield int(head[1]), head[2], part[head.end():].strip().split("\n\n")


def texts_of(kind):
    """The titles and the texts of the rules of a page, in their order."""
    found = []
    for number, title, paragraphs in sections(PAGES[kind]):
        places = [i for i, paragraph in enumerate(paragraphs) if paragraph.startswith("*Exactly:*")]
        if len(places) != 1:
            sys.exit("%s: rule %d has %d paragraphs *Exactly:*" % (PAGES[kind], number, len(places)))
        said = [plain(paragraph) for paragraph in paragraphs[:places[0]]]
        if not said or not said[-1].startswith("Mostly wrong:"):
            sys.exit("%s: rule %d does not say what is mostly wrong" % (PAGES[kind], number))
        more = "Exactly what is refused: %s" % PAGES[kind]
        found.append((number, title, "\n\n".join(["rule %d: %s" % (number, title)] + said + [more]) + "\n"))
    if [number for number, _, _ in found] != list(RULES[kind]):
        sys.exit("%s: its rules are not %d to %d" % (PAGES[kind], RULES[kind][0], RULES[kind][-1]))
    return found



def source(kind):
    """The file of the crate with the texts of a page."""
    found, name = texts_of(kind), kind.upper()
    lines = ["//! The texts of the rules of %s. lab/rule_texts.py writes this file, from that page." % PAGES[kind], ""]
    lines += ["/// The titles, in the order of their numbers."]
    lines += ["pub(crate) const %s_TITLES: [&str; %d] = [" % (name, len(found))]
    lines += ['    "%s",' % title for _, title, _ in found] + ["];", ""]
    lines += ["/// The texts, in the same order."]
    lines += ["pub(crate) const %s_TEXTS: [&str; %d] = [" % (name, len(found))]
    for _, _, text in found:
        lines += ['    "\\', text.replace("\\", "\\\\").replace('"', '\\"') + '",']
    return "\n".join(lines + ["];", ""])


def main():
    wrong = 0
    for kind in PAGES:
        name = os.path.join(TOP, "crates/rule_texts/src/%s.rt" % kind)
        text = source(kind)
        if sys.argv[1:] == ["--write"]:
            with open(name, "w", encoding="utf-8") as file:
                file.write(text)
        else:
            with open(name, encoding="utf-8") as file:
                same = file.read() == text
            print("%s: %s" % (PAGES[kind], "%d texts are the crate's" % len(RULES[kind]) if same else "DIFFERS"))
            wrong += not same
    sys.exit(1 if wrong else 0)


main()
