#!/usr/bin/env python3
"""Runs each command of the pages, and compares what it prints with what the page says. Status 1 where a page lies.

Usage: lab/pages.py [PROGRAM [PAGE..]]      the pages are README.md and all of docs/, unless some are named

A command is a line `$ ...` of a fenced block that begins with one; lines `> ...` right behind it go on with it. The lines up to
the next command are its standard output. The commands of a page run one after the other, each by a bash of its own, in one
fresh copy of examples/ with p6bench and p6scope on the path; lab/ and crates/ lie beside it. Blocks of another form are read past.
"""

import glob
import os
import re
import shutil
import subprocess
import sys
import tempfile

sys.dont_write_bytecode = True
from common import TOP, built_program

SECONDS = 600


def commands(page):
    """The commands of a page, each with its line and the output that the page gives."""
    with open(page) as file:
        text = file.read()
    for block in re.finditer(r"^```\w*\n(\$ .*?)^```$", text, re.S | re.M):
        for part in re.finditer(r"^\$ (.*\n(?:> .*\n)*)((?:(?!\$ ).*\n)*)", block[1], re.M):
            line = text.count("\n", 0, block.start(1) + part.start()) + 1
            yield line, re.sub(r"^> ", "", part[1].rstrip("\n"), flags=re.M), part[2].rstrip()


def folder_of(top, program):
    """The examples that the commands of one page use up, and what lies beside them."""
    os.mkdir(os.path.join(top, "bin"))
    os.symlink(program, os.path.join(top, "bin/p6bench"))
    os.symlink(os.path.join(TOP, "crates/p6scope/out/p6scope"), os.path.join(top, "bin/p6scope"))
    for name in ("lab", "crates"):
        os.symlink(os.path.join(TOP, name), os.path.join(top, name))
    return shutil.copytree(os.path.join(TOP, "examples"), os.path.join(top, "examples"))


def run(command, folder, path):
    """What a command prints, and why it counts as none, if it does."""
    shell = ["bash", "-c", command]
    others = {"cwd": folder, "env": dict(os.environ, PATH=path, LC_ALL="C.UTF-8"), "stdin": subprocess.DEVNULL}
    try:
        done = subprocess.run(shell, capture_output=True, text=True, timeout=SECONDS, **others)
    except subprocess.TimeoutExpired:
        return "", "more than %d seconds" % SECONDS
    return done.stdout.rstrip(), done.stderr.rstrip() if done.returncode == 127 else ""


def try_page(page, program):
    """How many commands the page has, and what each one that lies prints."""
    lies, count = [], 0
    with tempfile.TemporaryDirectory() as top:
        folder = folder_of(top, program)
        path = os.path.join(top, "bin") + ":" + os.environ["PATH"]
        for count, (line, command, said) in enumerate(commands(page), 1):
            found, fault = run(command, folder, path)
            if fault or found != said:
                name = os.path.relpath(page, TOP)
                lies.append("%s:%d: $ %s\n--- page\n%s\n--- run\n%s" % (name, line, command, said, fault or found))
    return count, lies


def main(words):
    program = built_program(words[0] if words else None)
    pages = words[1:] or [os.path.join(TOP, "README.md")] + sorted(glob.glob(TOP + "/docs/**/*.md", recursive=True))
    count, lies = 0, []
    for page in map(os.path.abspath, pages):
        more, of_page = try_page(page, program)
        count += more
        lies += of_page
    print("\n\n".join(lies + ["%d pages, %d commands, %d lies" % (len(pages), count, len(lies))]))
    return int(bool(lies))


if __name__ == "__main__":
    sys.exit(main(sys.argv[1:]))
