"""A second reader of dumps, written from docs/dump.md and docs/reference/dump-format.md alone: what the lines have at each clock, or the first fault of the text.

It reads the whole text as the document says it, word by word, and is slow and plain.
"""
import re
from collections import namedtuple

# The signal table.
WIDTHS = {'BCLK': 1, 'BREQ0_n': 1, 'BREQ1_n': 1, 'BREQ2_n': 1, 'BREQ3_n': 1, 'BPRI_n': 1, 'LOCK_n': 1, 'BNR_n': 1,
          'ADS_n': 1, 'REQ_n': 5, 'A_n': 33, 'AERR_n': 1, 'HIT_n': 1, 'HITM_n': 1, 'DEFER_n': 1, 'RS_n': 3, 'TRDY_n': 1,
          'DBSY_n': 1, 'DRDY_n': 1, 'D_n': 64, 'AP_n': 2, 'RP_n': 1}
NEEDED = set(WIDTHS) - {'BREQ1_n', 'BREQ2_n', 'BREQ3_n', 'BPRI_n', 'LOCK_n', 'BNR_n', 'AERR_n', 'DEFER_n', 'AP_n', 'RP_n'}
WORDS = ('REQ_n', 'A_n', 'D_n')
# The control lines, by the variable that has them, the highest first.
LINES = {name: [name[:-2]] for name in WIDTHS if name not in WORDS + ('BCLK',)}
LINES.update({'RS_n': ['RS2', 'RS1', 'RS0'], 'AP_n': ['AP1', 'AP0']})
LONGEST_WORD = 70000
NO_SECTIONS = (b'$dumpvars', b'$dumpall', b'$dumpon', b'$dumpoff', b'$end')

# What the lines have at a clock: the unknown and the asserted ones, the code of RS#, and the words, None where a bit is
# unknown.
Sample = namedtuple('Sample', 'unknown asserted code req a d')
# Which of the parity lines a dump declares.
Marks = namedtuple('Marks', 'ap rp')


class Fault(Exception):
    """The first fault of a text: its place and its cause."""


def read_samples(text):
    """The marks and the samples of a dump, which is given as bytes, or its fault."""
    words = Words(text)
    names = read_declarations(words)
    declared = {name for lines in names.values() for name in lines}
    return Marks('AP_n' in declared, 'RP_n' in declared), read_values(words, names, declared)


class Words:
    """The words of a text with their places, one behind the other."""

    def __init__(self, text):
        self.length = len(text)
        self.words = ((match.start(), match[0]) for match in re.finditer(rb'[^\t-\r ]+', text))

    def next_or_none(self):
        return next(self.words, None)

    def next(self, is_read_past=False):
        """The next word and its place. The text must not end before it, and it must not be too long where it is looked at."""
        place, word = next(self.words, (self.length, None))
        if word is None:
            raise Fault(self.length, 'Cut')
        if not is_read_past:
            refuse_long(place, word)
        return place, word

    def section(self, is_read_past=True):
        """The words up to the next $end."""
        words = []
        while True:
            _, word = self.next(is_read_past)
            if word == b'$end':
                return words
            words.append(word)


def refuse_long(place, word):
    if len(word) > LONGEST_WORD:
        raise Fault(place, 'Token')


def read_declarations(words):
    """The lines of each code that is declared, none of the code of other variables alone."""
    names = {}
    while True:
        place, word = words.next()
        if word[:1] != b'$':
            raise Fault(place, 'Header')
        if word == b'$var':
            declare(names, place, words.section(is_read_past=False))
        elif word != b'$end':
            words.section()
        if word == b'$enddefinitions':
            declared = {name for lines in names.values() for name in lines}
            for name in WIDTHS:
                if name in NEEDED - declared:
                    raise Fault(place, f'Missing {name}')
            return names


def declare(names, place, words):
    """The declaration of these words, whose $var stands at the place."""
    if len(words) < 4 or not is_width(words[1]) or not all(33 <= byte <= 126 for byte in words[2]):
        raise Fault(place, 'Header')
    name = words[3].split(b'[')[0].decode('latin-1')
    lines = names.setdefault(words[2], [])
    if name in WIDTHS and words[0] not in (b'real', b'realtime', b'string') and all(name not in others for others in names.values()):
        if int(words[1]) != WIDTHS[name]:
            raise Fault(place, 'Width')
        lines.append(name)


def is_width(word):
    """A decimal number up to 1,000,000."""
    digits = word.lstrip(b'0')
    return re.fullmatch(b'[0-9]+', word) is not None and len(digits) <= 7 and int(word[-7:]) <= 1000000


def read_values(words, names, declared):
    """The samples."""
    values = {name: ('x' if name in declared else '1') * width for name, width in WIDTHS.items()}
    before, time, samples = dict(values), -1, []

    def end_block():
        if before['BCLK'] == '0' and values['BCLK'] == '1':
            samples.append(sample_of(before))
        before.update(values)

    while (token := words.next_or_none()) is not None:
        place, word = token
        refuse_long(place, word)
        if word[:1] == b'#':
            last, time = time, read_time(place, word)
            if time < last:
                raise Fault(place, 'TimeBack')
            if time > last:
                end_block()
        elif word[:1] == b'$':
            if word not in NO_SECTIONS:
                words.section()
        else:
            digits, lines = read_change(words, names, place, word)
            if any(len(digits) > WIDTHS[name] for name in lines):
                raise Fault(place, 'Width')
            for name in lines if digits else ():
                values[name] = digits.rjust(WIDTHS[name], '0' if digits[0] in '01' else digits[0])
    end_block()
    return samples


def read_time(place, word):
    if not re.fullmatch(b'#[0-9]{1,20}', word) or int(word[1:]) >= 1 << 64:
        raise Fault(place, 'Token')
    return int(word[1:])


def read_change(words, names, place, word):
    """The digits of a change, none of a real or a string, and the lines that it changes."""
    kind = word[:1].lower()
    if kind in (b'b', b'r', b's'):
        digits = word[1:].lower() if kind == b'b' else b''
        if kind == b'b' and not re.fullmatch(b'[01xz]+', digits):
            raise Fault(place, 'Token')
        place, code = words.next()
    elif re.fullmatch(b'[01xz].+', word.lower(), re.DOTALL):
        digits, code = kind, word[1:]
    else:
        raise Fault(place, 'Token')
    if code not in names:
        raise Fault(place, 'Code')
    return digits.decode(), names[code]


def sample_of(values):
    """What the lines have: 0 is asserted, 1 and z are not, x is unknown."""
    lines = {line: digit for name in LINES for line, digit in zip(LINES[name], values[name])}
    asserted = {line for line, digit in lines.items() if digit == '0'}
    words = (None if 'x' in values[name] else int(values[name].translate(str.maketrans('01z', '100')), 2) for name in WORDS)
    code = sum(1 << bit for bit in range(3) if f'RS{bit}' in asserted)
    return Sample({line for line, digit in lines.items() if digit == 'x'}, asserted, code, *words)
