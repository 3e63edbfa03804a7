"""Reads bench files for second_bench.py, as docs/reference/bench-file.md says."""
import collections
import re

LIMIT = 1 << 36
KEEP, DEFER, RETRY = 0, 1, 2

Access = collections.namedtuple('Access', 'is_store size address value is_relative')


class BadLine(Exception):
    """The first bad line of a bench file: its number and the cause."""


class Item:
    """An item of a script: its accesses, or the clocks that it idles."""

    def __init__(self, accesses, is_locked=False, clocks=0):
        self.accesses, self.is_locked, self.clocks = accesses, is_locked, clocks
        # The chunk of the first access of each line, the lines in the order of the accesses.
        self.chunks = {}
        for access in accesses:
            self.chunks.setdefault(access.address >> 5, access.address >> 3 & 3)
        self.needs_alone = is_locked or any(access.is_store for access in accesses)


class Hazard:
    """What the hazard lines chose for one request."""

    def __init__(self):
        self.stall = self.trdy = self.resp = self.data = 0
        self.turn, self.aerr = (KEEP, 0), False

    def put(self, word, number):
        if word == 'aerr':
            self.aerr = True
        elif word == 'retry':
            self.turn = max(self.turn, (RETRY, 0))
        elif word == 'defer':
            self.turn = max(self.turn, (DEFER, number))
        else:
            setattr(self, word, max(getattr(self, word), number))


NO_HAZARD = Hazard()


class Plan:
    """What a bench file says."""

    def __init__(self):
        self.profile, self.bridge, self.memory, self.scripts = 1, None, {}, []
        self.hazards, self.holds = {}, []

    def add_hazard(self, number, word, value=0):
        self.hazards.setdefault(number, Hazard()).put(word, value)


class Line:
    """The words of one line, taken from left to right."""

    def __init__(self, number, words):
        self.number, self.words, self.place = number, words, 0

    def refuse_if(self, holds, cause):
        if holds:
            raise BadLine(self.number, cause)

    def word(self):
        self.refuse_if(self.place == len(self.words), 'Missing')
        self.place += 1
        return self.words[self.place - 1]

    def decimal(self, *bounds):
        word = self.word()
        self.refuse_if(not re.fullmatch('[0-9]{1,18}', word), 'Number')
        self.refuse_if(bounds and not bounds[0] <= int(word) <= bounds[1], 'Range')
        return int(word)

    def one_of(self, values):
        value = self.decimal()
        self.refuse_if(value not in values, 'Range')
        return value

    def hexadecimal(self, word=None):
        word = self.word() if word is None else word
        self.refuse_if(not re.fullmatch('[0-9a-fA-F]{1,16}', word), 'Number')
        return int(word, 16)

    def address(self, step=1):
        value = self.hexadecimal()
        self.refuse_if(value >= LIMIT, 'Outside')
        self.refuse_if(value % step != 0, 'Align')
        return value

    def end(self):
        self.refuse_if(self.place < len(self.words), 'After')


class Reader:
    """Reads a bench file into `plan`, or raises BadLine."""

    def __init__(self, text):
        self.plan, self.lines, self.at = Plan(), text.split('\n'), 0
        if self.lines[-1] == '':
            self.lines.pop()
        first = self.next_line(False)
        if first is None or first.words != ['p6bench', '1']:
            raise BadLine(1, 'FirstLine')
        self.read_sizes()
        self.read_options()
        for number in range(self.agents):
            self.read_script(number)
        self.read_hazards()

    def next_line(self, may_pass=True):
        while self.at < len(self.lines):
            words = [word for word in re.split('[ \t\r]', self.lines[self.at]) if word]
            self.at += 1
            if not may_pass or words and not words[0].startswith('#'):
                return Line(self.at, words)
        return None

    def expect(self, *words):
        """The next line, whose first word is one of these, and that word."""
        line = self.next_line()
        if line is None:
            raise BadLine(len(self.lines) + 1, 'Missing')
        word = line.word()
        line.refuse_if(word not in words, 'Word')
        return line, word

    def read_sizes(self):
        plan = self.plan
        line, _ = self.expect('agents')
        self.agents = line.decimal(1, 4)
        line.end()
        line, _ = self.expect('clocks')
        plan.clocks = line.decimal(0, 200000)
        line.end()
        line, _ = self.expect('cache')
        plan.cache = line.one_of([1 << n for n in range(11)])
        line.end()
        line, _ = self.expect('ahead')
        plan.ahead = line.decimal(1, 4)
        line.end()

    def read_options(self):
        words = ['profile', 'bridge', 'mem', 'agent']
        while True:
            line, word = self.expect(*words)
            if word == 'agent':
                self.first_agent = line
                return
            words = words[words.index(word) + (word != 'mem'):]
            if word == 'profile':
                self.plan.profile = line.decimal(1, 2)
            elif word == 'bridge':
                self.read_bridge(line)
            else:
                self.read_memory(line)
            line.end()

    def read_bridge(self, line):
        base, size = line.address(32), line.hexadecimal()
        line.refuse_if(size > LIMIT, 'Outside')
        line.refuse_if(size % 32 != 0 or size == 0, 'Align')
        line.refuse_if(base + size > LIMIT, 'Outside')
        self.plan.bridge = base, size

    def read_memory(self, line):
        address, word = line.address(), line.word()
        line.refuse_if(not re.fullmatch('([0-9a-fA-F]{2}){1,64}', word), 'Number')
        values = bytes.fromhex(word)
        line.refuse_if(address + len(values) > LIMIT, 'Outside')
        self.plan.memory.update((address + place, value) for place, value in enumerate(values))

    def read_script(self, number):
        line = self.first_agent if number == 0 else self.expect('agent')[0]
        line.refuse_if(line.decimal() != number, 'Word')
        line.end()
        script = []
        self.plan.scripts.append(script)
        while True:
            line, word = self.expect('ld', 'st', 'idle', 'lock', 'end')
            line.refuse_if(word != 'end' and len(script) == 4096, 'Range')
            if word == 'end':
                line.end()
                return
            if word == 'lock':
                line.end()
                script.append(self.read_locked())
            elif word == 'idle':
                script.append(Item([], clocks=line.decimal(1, 200000)))
                line.end()
            else:
                script.append(Item([self.read_access(line, word)]))

    def read_locked(self):
        accesses = []
        while True:
            line, word = self.expect('ld', 'st', 'unlock')
            if word != 'unlock':
                accesses.append(self.read_access(line, word))
                continue
            line.end()
            item = Item(accesses, is_locked=True)
            line.refuse_if(not 1 <= len(accesses) <= 8 or len(item.chunks) > 4, 'LockSize')
            line.refuse_if(len({number % self.plan.cache for number in item.chunks}) < len(item.chunks), 'LockConflict')
            return item

    def read_access(self, line, word):
        size = line.one_of((1, 2, 4, 8))
        address, value, is_relative = line.address(size), 0, False
        if word == 'st':
            text = line.word()
            is_relative = text.startswith('r+')
            value = line.hexadecimal(text[2:] if is_relative else text)
            line.refuse_if(value >= 1 << 8 * size, 'Range')
        line.end()
        return Access(word == 'st', size, address, value, is_relative)

    def read_hazards(self):
        count = 0
        while True:
            line = self.next_line()
            if line is None:
                return
            word = line.word()
            line.refuse_if(word not in ('tx', 'bnr'), 'Word')
            line.refuse_if(count == 4096, 'Range')
            count += 1
            first = line.decimal(0, 199999)
            if word == 'bnr':
                last = line.decimal(0, 199999)
                line.refuse_if(last < first, 'Range')
                self.plan.holds.append((first, last))
            else:
                word, number = line.word(), 0
                line.refuse_if(word not in ('stall', 'trdy', 'resp', 'data', 'retry', 'defer', 'aerr'), 'Word')
                if word == 'defer':
                    number = line.decimal(0, 65535)
                elif word not in ('retry', 'aerr'):
                    number = line.decimal(1, 255)
                self.plan.add_hazard(first, word, number)
            line.end()
