#!/usr/bin/env python3
"""Gives dumps to the built program and to the second judge, and prints every difference of their answers.

    second_trials.py [PROGRAM [COUNT [SEED [TRAFFIC [CLOCKS]]]]]

The dumps are those of the worked runs; COUNT of runs (2,000), which are those of random bench files and of the plans of seeds, and
lawful traffic, each of CLOCKS clocks at most (180), as it is and broken on purpose in 19 ways that are drawn from those of
broken_runs.py; and TRAFFIC of random traffic (as many), lawful, with one line changed at one clock, or of a driver that at times
forgets one rule. They are written as the program writes them, or as a simulator might. Dump N of a seed is the same each time. The
table has for each answer how often a run was broken with this rule in mind, and how often it was the verdict of both. The status
is 1 where there is a difference, or where an answer never came of a run.
"""
import collections
import glob
import os
import random
import subprocess
import sys
import tempfile

sys.dont_write_bytecode = True
from broken_runs import base_of, mutant_of
from common import TOP, built_program
from random_dumps import dump_text, random_samples
from second_dump import read_samples
from second_judge import verdict

ANSWERS = ['accepted'] + list(range(1, 21))
# How many dumps each run makes: itself, and some that are broken.
DUMPS_OF_A_RUN = 20


class Trial:
    """The counts of answers, of each kind of dump, and the folder in which a dump is written."""

    def __init__(self, program, folder):
        self.program, self.folder = program, folder
        self.counts, self.aimed = collections.Counter(), collections.Counter()
        self.clocks = self.differences = self.dumps = 0

    def judge(self, name, kind, text, first=0):
        """Compares both judges of the text of a dump, which is kept where they differ, and gives the second one's answer."""
        path = os.path.join(self.folder, f'{self.dumps}.vcd')
        with open(path, 'wb') as dump:
            dump.write(text)
        marks, samples = read_samples(text)
        second, program = verdict(marks, samples, first), answer_of(self.program, path)
        answer = second.split()[0] if second.startswith('accepted') else int(second.split('=')[2])
        self.dumps += 1
        self.clocks += len(samples)
        self.counts[kind, answer] += 1
        if second == program:
            os.remove(path)
        else:
            self.differences += 1
            self.counts['differs', answer] += 1
            print(f'{name}, {path}: the program says {program!r}, the second judge {second!r}', flush=True)
        return answer

    def worked(self):
        for path in sorted(glob.glob(os.path.join(TOP, 'crates/rows_trials/data/*.vcd'))):
            with open(path, 'rb') as dump:
                self.judge(os.path.relpath(path, TOP), 'worked', dump.read())

    def traffic(self, seed, number):
        chance = random.Random(f'{seed} {number}')
        self.judge(f'traffic {number} of seed {seed}', 'traffic', dump_text(chance, random_samples(chance)).encode())

    def run(self, seed, number, count, longest):
        """A lawful run of so many clocks at most, and so many dumps of it, but for one broken on purpose."""
        chance = random.Random(f'run {seed} {number}')
        base, name = base_of(chance, longest=longest), f'run {number} of seed {seed}'
        if self.judge(name, 'run', dump_text(chance, base.samples).encode()) != 'accepted':
            self.differences += 1
            print(f'{name} is no lawful one', flush=True)
            return
        for place in range(1, count):
            aim, mutant, mutation = mutant_of(chance, base)
            self.aimed[aim] += 1
            text = dump_text(chance, mutant.samples).encode()
            self.judge(f'{name}, {place}: {mutation}', 'run', text, mutant.first_change())

    def table(self):
        """Prints how often each answer was meant, and came."""
        print(f'{"verdict":12}{"of worked runs":>16}{"of traffic":>12}{"aimed at":>10}{"of runs":>10}{"differences":>13}')
        for answer in ANSWERS:
            kinds = [self.counts[kind, answer] for kind in ('worked', 'traffic', 'run', 'differs')]
            aimed = self.aimed['lawful' if answer == 'accepted' else answer]
            name = answer if answer == 'accepted' else f'rule {answer}'
            print(f'{name:12}{kinds[0]:16}{kinds[1]:12}{aimed:10}{kinds[2]:10}{kinds[3]:13}')
        print(f'aimed at nothing: {self.aimed["nothing"]}')
        print(f'dumps: {self.dumps}, clocks: {self.clocks}, differences: {self.differences}')

    def is_whole(self):
        return self.differences == 0 and all(self.counts['run', answer] for answer in ANSWERS)


def answer_of(program, path):
    """The line of the program's verdict; or, where that is not all with its status, everything that it says."""
    run = subprocess.run([program, 'check', path], capture_output=True, text=True)
    if run.stdout.count('\n') == 1 and run.returncode == int(run.stdout.startswith('rejected')):
        return run.stdout.rstrip('\n')
    return f'{run.stdout}{run.stderr}status {run.returncode}'


def main(words):
    program = built_program(words[0] if words else None)
    count, seed = int(words[1]) if words[1:] else 2000, int(words[2]) if words[2:] else 1
    traffic, longest = int(words[3]) if words[3:] else count, int(words[4]) if words[4:] else 180
    sys.setrecursionlimit(100000)
    trial = Trial(program, tempfile.mkdtemp(prefix='second_trials.'))
    trial.worked()
    for number in range(traffic):
        trial.traffic(seed, number)
    for number in range(0, count, DUMPS_OF_A_RUN):
        trial.run(seed, number // DUMPS_OF_A_RUN, min(DUMPS_OF_A_RUN, count - number), longest)
    if not os.listdir(trial.folder):
        os.rmdir(trial.folder)
    trial.table()
    return int(not trial.is_whole())


if __name__ == '__main__':
    sys.exit(main(sys.argv[1:]))
