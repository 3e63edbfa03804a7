#!/usr/bin/env python3
"""Gives texts that may be no dumps to the built program and to the second judge, and prints every difference of their answers.

    second_texts.py [PROGRAM [COUNT [SEED]]]

The texts are the dumps of crates/rows_texts/data and of crates/rows_trials/data, and COUNT others (2,000): dumps of short runs, as the program or a
simulator would write them, with codes that several variables share, with reals and strings, and edited word by word and byte by
byte. Status, standard output and standard error must be the same: the verdict, or the first fault with its place. The table says
how often each came, and the status is 1 where there is a difference.
"""
import collections
import glob
import os
import random
import subprocess
import sys
import tempfile

sys.dont_write_bytecode = True
from broken_runs import base_of
from common import TOP, built_program
from random_dumps import dump_text
from second_dump import LONGEST_WORD
from second_judge import answer_of

# Words that stand in for others, or come between them.
EDITS = (
    '$end $var $comment $enddefinitions $scope $dumpvars $dumpoff $dumpall $dumpon $upscope $END $ $x #0 #5 #15 #00 # #1a #-1 '
    '#18446744073709551615 #18446744073709551616 #00000000000000000005 #000000000000000000005 #99999999999999999999 0 1 x z 0! 1! x! z! 0) '
    '1) x) Z) 0* x* 2! b b1 b0 bx bz B01zX b1x0z b012 b11111 b111111 bxxxxxx b00000000000000000000000000000000000000 r r1.5 R0 s sabc S ! '
    ') * + other ~ ~~ hello wire reg real realtime string integer 1 2 0 00005 5 33 64 1000000 1000001 0001000000 01000001 +1 1x '
    '99999999999999999999 BCLK ADS_n bclk AP_n AP_n[1:0] REQ_n[4:0] [4:0] D_n ads BREQ0_n HIT_n[0]').split()
# Declarations of more variables, and changes of theirs.
VARIABLES = ('$var wire 1 ) shared $end', '$var wire 5 ! wide $end', '$var real 64 m ADS_n $end', '$var string 1 s BCLK $end',
             '$var real 1 ) same $end', '$var reg 8 * byte $end', '$var wire 1 ! HIT_n $end', '$var wire 1 ) AERR_n $end',
             '$var wire 5 * LOCK_n $end', '$var wire 5 + REQ_n $end', '$var wire 33 * A_n $end', '$var wire 2 0 AP_n $end', '$var wire 0 q p $end')
CHANGES = ('r1.5 m', 'sabc s', 'r0 )', 's1 !', 'R1e9 *', '0q', 'b q', 'b01 )', 'b1 !', 'b00 *', 'x*', 'z+', '0+', '$comment #1 2! $end',
           '$dumpoff', '$end', 'b11111111 *', 'b0 0', 'b101 0')
SPACES = ' ', '\n', '\t', '\r\n', '  ', '\v', '\f'


def with_more(chance, lines):
    """The text with more variables and changes, which may share the codes of others."""
    for _ in range(chance.choice((0, 1, 2, 4))):
        lines.insert(chance.randrange(8), chance.choice(VARIABLES))
    for _ in range(chance.choice((0, 1, 2, 4))):
        lines.insert(chance.randrange(len(lines)), chance.choice(CHANGES))
    return lines


def edited(chance, text):
    """One to three edits of words or bytes of the text."""
    for _ in range(chance.choice((1, 1, 1, 2, 3))):
        kind = chance.randrange(9)
        words = text.split(' ')
        # the edits are as often in the header as behind it
        place = chance.randrange(len(words)) if chance.random() < 0.6 else min(len(words) - 1, chance.randrange(140))
        byte = chance.randrange(len(text) + 1)
        if kind == 0:
            words[place:place + 1] = []
        elif kind == 1:
            words.insert(place, chance.choice(EDITS))
        elif kind in (2, 3):
            words[place] = chance.choice(EDITS)
        elif kind == 4:
            words[place:place + 2] = reversed(words[place:place + 2])
        elif kind == 5:
            words[place:place + 2] = [''.join(words[place:place + 2])]
        elif kind == 6:
            words = [text[:byte] + chance.choice('01xzb#$! ~*\t\0\x7f\xff') + text[byte + chance.randrange(2):]]
        elif kind == 7:
            words = [text[:byte]]
        else:
            start = chance.choice(('', '$', '#', 'b', 'r', '0', 'x'))
            words.insert(place, start + chance.choice('01!') * (LONGEST_WORD + chance.choice((-1, 0, 1, 1)) - len(start)))
        text = ' '.join(words)
    return text


def random_text(chance):
    base = base_of(chance)
    lines = with_more(chance, dump_text(chance, base.samples[:chance.choice((2, 8, 20))]).splitlines())
    text = ' '.join(' '.join(lines).split())
    if chance.random() < 0.8:
        text = edited(chance, text)
    return ''.join(byte if byte != ' ' or chance.random() < 0.7 else chance.choice(SPACES) for byte in text)


class Trial:
    """The counts of the answers, and how many differ."""

    def __init__(self, program, folder):
        self.program, self.folder, self.answers, self.odd = program, folder, collections.Counter(), 0

    def compare(self, name, text):
        path = os.path.join(self.folder, f'{sum(self.answers.values())}.vcd')
        with open(path, 'wb') as out:
            out.write(text)
        status, line = answer_of(text)
        wanted = status, '' if status == 4 else line + '\n', line + '\n' if status else ''
        done = subprocess.run([self.program, 'check', path], capture_output=True)
        said = done.returncode, done.stdout.decode(), done.stderr.decode()
        self.answers[line.split()[3] if status == 4 else line.split()[0]] += 1
        if said == wanted:
            os.remove(path)
        else:
            self.odd += 1
            print(f'{name}, {path}: the program says {said}, the second judge {wanted}', flush=True)


def main(words):
    program = built_program(words[0] if words else None)
    count, seed = int(words[1]) if words[1:] else 2000, int(words[2]) if words[2:] else 1
    sys.setrecursionlimit(100000)
    trial = Trial(program, tempfile.mkdtemp(prefix='second_texts.'))
    for path in sorted(glob.glob(os.path.join(TOP, 'crates/rows_texts/data/*.vcd')) + glob.glob(os.path.join(TOP, 'crates/rows_trials/data/*.vcd'))):
        with open(path, 'rb') as text:
            trial.compare(os.path.relpath(path, TOP), text.read())
    for number in range(count):
        trial.compare(f'text {number} of seed {seed}', random_text(random.Random(f'text {seed} {number}')).encode('latin-1'))
    if not os.listdir(trial.folder):
        os.rmdir(trial.folder)
    for answer, times in trial.answers.most_common():
        print(f'{answer:10}{times:8}')
    print(f'texts: {sum(trial.answers.values())}, differences: {trial.odd}')
    return int(trial.odd > 0)


if __name__ == '__main__':
    sys.exit(main(sys.argv[1:]))
