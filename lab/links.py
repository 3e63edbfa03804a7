#!/usr/bin/env python3
"""Looks whether each relative link and each #anchor of the pages resolves. Status 1 where one does not."""
import os, re, sys
TOP = os.path.join(os.path.dirname(os.path.abspath(__file__)), "..")
def prose(page): return re.sub(r"^(```|~~~).*?^\1|^(?: {4}|\t).*?$", "", open(page).read(), flags=re.S | re.M)
def slug(head): return re.sub(r"[^\w\- ]", "", re.sub(r"\[([^]]*)\]\([^)]*\)", r"\1", head).strip().lower()).replace(" ", "-")
def anchors(page): return {slug(head) for head in re.findall(r"^#+ (.*)$", prose(page), re.M)}
found = os.popen("git -C '%s' ls-files -co --exclude-standard '*.md'" % TOP).read().split()
pages = [os.path.normpath(os.path.join(TOP, page)) for page in found if os.path.exists(os.path.join(TOP, page))]
links = [(page, link) for page in pages for link in re.findall(r"\]\(([^)\s]+)\)", re.sub(r"`[^`]*`", "", prose(page))) if "://" not in link]
def ends(page, link):
    file, _, anchor = link.partition("#")
    end = os.path.normpath(os.path.join(os.path.dirname(page), file)) if file else page
    return os.path.exists(end) and (not anchor or anchor in anchors(end))
broken = ["%s: %s" % (os.path.relpath(page, TOP), link) for page, link in links if not ends(page, link)]
print("\n".join(broken + ["%d pages, %d links, %d broken" % (len(pages), len(links), len(broken))]))
sys.exit(bool(broken))
