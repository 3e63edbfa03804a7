"""Random bench files for second_bench.py: of both profiles and of every kind of line, most of them lawful."""

HAZARDS = 'stall', 'trdy', 'resp', 'data', 'retry', 'defer', 'aerr'
EDITS = ('0', '1', '7', '40', '41', '80', 'r+1', 'r+', '1000000000', 'fffffffff', '10000000000000000', '000000000000000000001',
         '-1', '0x4', '4g', 'ABC', '07', '070', 'end', 'lock', 'unlock', 'idle', 'ld', 'st', 'tx', 'bnr', 'mem', 'agent', 'bridge',
         'profile', 'cache', 'clocks', '#', 'LD', 'retry', 'defer', 'stall', '255', '256', '65535', '65536', '200000', '200001')


class Form:
    """What the lines of one file are drawn by."""

    def __init__(self, chance):
        some = chance.choice
        self.chance = chance
        self.agents, self.ahead = some((1, 2, 2, 3, 3, 4)), some((1, 1, 2, 3, 4))
        self.cache = some((1, 1, 2, 2, 4, 4, 8, 16, 64, 1024))
        self.profile = some((1, 2))
        base = some((0, 0x40, 0x1000, 0xffffffc0, 0x7fffffe0, 0xfbad25a0 & ~31, 0xfffffff00))
        stride = some((32, 32, 32, 32 * self.cache, 64))
        self.lines = [line for n in range(some((1, 2, 3, 4, 6, 8))) if (line := base + n * stride) + 32 <= 1 << 36]
        self.stores, self.idles, self.locks = some((0.1, 0.5, 0.9)), some((0, 0.05, 0.3)), some((0, 0.1, 0.4))
        self.sizes = some(((1,), (8,), (1, 2, 4, 8)))
        self.items = some((1, 3, 6, 12, 25))
        self.hazards = some((0, 1, 3, 10, 30))
        self.kinds = some((HAZARDS, HAZARDS, ('defer',), ('defer',), ('defer', 'aerr', 'stall'), ('retry',), ('aerr',),
                           ('stall', 'resp'), ('defer', 'retry', 'aerr')))
        self.is_bridged, self.later = 'defer' in self.kinds and chance.random() < 0.8, None
        self.theme = some(('', '', '', 'upgrades', 'deferrals', 'full', 'locks'))
        if self.theme == 'upgrades':  # several agents load a line and then store to it
            self.profile, self.agents, self.lines = 2, some((2, 3, 4)), self.lines[:some((1, 1, 2, 3))]
            self.stores, self.idles, self.locks = 0.5, some((0, 0.05, 0.3)), some((0, 0, 0.2))
        if self.theme == 'deferrals':  # most requests are deferred, and many replies are due at once
            self.agents, self.ahead, self.cache, self.locks = some((2, 3, 4)), some((1, 2, 4)), some((8, 64)), some((0, 0, 0.2))
            self.is_bridged, self.later, self.idles = True, some((0, 5, 20, 60)), some((0, 0, 0.1))
        if self.theme == 'full':  # many requests behind one that waits for its response
            self.agents, self.ahead, self.cache, self.locks, self.idles = some((2, 3, 4)), some((3, 4)), 64, 0, 0
        if self.theme in ('full', 'deferrals'):
            self.lines = [base + 32 * n for n in range(16) if base + 32 * n + 32 <= 1 << 36]
        if self.theme == 'locks':  # locked items of several lines, whose requests are retried while others begin
            self.ahead, self.cache, self.locks = some((2, 3, 4)), some((4, 8, 64)), some((0.3, 0.8))
            self.lines = [base + 32 * n for n in range(4)]
        self.often = {'locks': ('retry', 'aerr', 'resp 2', 'stall 1', 'resp 2', 'stall 1'),
                      'upgrades': ('retry', 'stall 2', 'stall 4'), 'deferrals': (f'defer {self.later}',)}.get(self.theme, ())

    def happens(self, probability):
        return self.chance.random() < probability

    def number(self):
        """A small number above 0, and at times a larger one."""
        return self.chance.randint(1, self.chance.choice((2, 2, 5, 5, 20, 255)))

    def access(self, line=None):
        size = self.chance.choice(self.sizes)
        line = self.chance.choice(self.lines) if line is None else line
        address = line + size * self.chance.randrange(32 // size)
        if not self.happens(self.stores):
            return f'ld {size} {address:x}'
        value = self.chance.getrandbits(self.chance.choice((3, 8 * size))) % (1 << 8 * size)
        return f'st {size} {address:x} {self.chance.choice(("", "r+"))}{value:x}'

    def locked(self):
        """A locked item, whose lines have cache sets of their own."""
        lines = {}
        for line in self.chance.sample(self.lines, min(len(self.lines), self.chance.randint(1, 4))):
            lines.setdefault(line // 32 % self.cache, line)
        accesses = [self.access(self.chance.choice(list(lines.values()))) for _ in range(self.chance.randint(1, 8))]
        return ['lock'] + accesses + ['unlock']

    def item(self):
        if self.happens(self.idles):
            return [f'idle {self.number()}']
        return self.locked() if self.happens(self.locks) else [self.access()]

    def hazard(self, requests):
        if self.happens(0.1):
            first = self.chance.randrange(100)
            return f'bnr {first} {first + self.chance.randrange(self.chance.choice((2, 20)))}'
        kind, number = self.chance.choice(self.kinds), self.chance.randrange(requests)
        later = self.chance.choice((0, 0, 1, 3, 10, 30, 65535))
        return f'tx {number} {kind}' + {'retry': '', 'aerr': '', 'defer': f' {later}'}.get(kind, f' {self.number()}')

    def mem(self):
        count = self.chance.choice((1, 1, 8, 32, 64))
        address = min((1 << 36) - count, self.chance.choice(self.lines) + self.chance.randrange(32))
        return f'mem {address:x} {self.chance.randbytes(count).hex()}'

    def bridge(self):
        first, size = self.chance.choice((self.lines[0], self.chance.choice(self.lines))), 32 * self.chance.choice((1, 2, 8, 64))
        if self.later is not None:
            first, size = self.lines[0], 32 * 16
        return f'bridge {first:x} {min(size, (1 << 36) - first):x}'

    def clocks(self):
        enough = 30 + self.agents * self.items * 20 + self.hazards * 10
        return self.chance.randrange(60) if self.happens(0.1) else min(enough, self.chance.randint(40, 700))

    def text(self):
        lines = ['p6bench 1', f'agents {self.agents}', f'clocks {self.clocks()}', f'cache {self.cache}', f'ahead {self.ahead}']
        lines += [f'profile {self.profile}'] if self.profile == 2 or self.happens(0.1) else []
        lines += [self.bridge()] if self.is_bridged else []
        lines += [self.mem() for _ in range(self.chance.choice((0, 1, 4)))]
        for agent in range(self.agents):
            items = [line for _ in range(self.chance.randint(0, self.items)) for line in self.item()]
            lines += [f'agent {agent}'] + items + ['end']
        requests = self.chance.choice((3, 8, 20, 40))
        lines += [f'tx {self.chance.randrange(3)} resp {self.chance.randint(30, 120)}'] if self.theme == 'full' else []
        chance = 0.8 if self.theme == 'deferrals' else 0.2
        lines += [f'tx {number} {word}' for number in range(requests) for word in self.often if self.happens(chance)]
        return lines + [self.hazard(requests) for _ in range(self.hazards)]


def dressed(chance, lines):
    """The same meaning in another dress: lines that are read past, other spaces, zeros and capitals."""
    text = []
    for number, line in enumerate(lines):
        words = line.split(' ')
        if number and chance.random() < 0.1:
            text.append(chance.choice(('', '  ', '# ' + line, '#', '\t#end')))
        if number and chance.random() < 0.2:
            words = [word.upper() if place and chance.random() < 0.3 and word[0] in 'abcdef' and word not in HAZARDS else
                     '0' + word if place and word[0].isdigit() and len(word) < 12 and words[0] != 'mem' else word
                     for place, word in enumerate(words)]
        text.append(chance.choice(('', '', '', ' ')) + chance.choice((' ', ' ', '\t', '  ')).join(words))
    end = chance.choice(('\n', '\r\n'))
    return end.join(text) + chance.choice(('', end))


def spoiled(chance, lines):
    """One or two edits of a line or of a word. Most of these files are refused."""
    for _ in range(chance.choice((1, 1, 2))):
        at, kind = chance.randrange(len(lines)), chance.randrange(12)
        words = lines[at].split(' ')
        place = chance.randrange(len(words))
        if kind == 0:
            lines = lines[:at] + lines[at + 1:] or ['']
        elif kind == 1:
            lines = lines[:at] + [lines[at]] + lines[at:]
        elif kind == 2:
            lines = lines[:at] + [chance.choice(lines)] + lines[at:]
        elif kind == 3:
            lines = lines[:at + chance.randrange(2)] or ['']
        elif kind == 4:
            lines[at] = ' '.join(words[:place] + words[place + 1:])
        elif kind == 5:
            lines[at] += ' ' + chance.choice(EDITS)
        elif kind == 6:
            line = chance.choice(('lock', 'unlock', 'ld 2 41', 'ld 8 ffffffff8', 'st 1 40 100', 'bnr 5 4'))
            lines = lines[:at] + [line] + lines[at:]
        elif kind == 7:
            lines = ['cache 1' if line.startswith('cache') else line for line in lines]
        elif kind == 8:
            lines = [line for line in lines if line != chance.choice(('lock', 'unlock', 'end'))]
        else:
            edit = chance.choice(EDITS + tuple(chance.choice(lines).split(' ')))
            lines[at] = ' '.join(words[:place] + [edit] + words[place + (kind != 9):])
    return lines


def random_bench(chance):
    """The text of a random bench file."""
    lines = Form(chance).text()
    if chance.random() < 0.15:
        lines = spoiled(chance, lines)
    if chance.random() < 0.2:
        return dressed(chance, lines)
    return ''.join(line + '\n' for line in lines)
