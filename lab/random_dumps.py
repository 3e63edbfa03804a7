"""Random traffic of the bus, lawful or not, for second_trials.py and second_look.py, and dumps of samples.

Samples are digits by the name of their variable, and 0 is asserted. A dump is written as the program writes it, or as a simulator might.
"""
from second_dump import NEEDED, WIDTHS, WORDS
from second_judge import (DEFERRED, DEN_BIT, HARD_FAILURE, IDLE, IMPLICIT_WRITEBACK, NORMAL_DATA, NO_DATA, PRIORITY, REQUEST_LINES, RETRY,
                          SYMMETRIC)

FIRST_CODES = {'Reply': 0b00000, 'Invalidate': 0b00010, 'Read': 0b00110, 'WriteBack': 0b00101, 'Upgrade': 0b00010}


class Request:
    """What the driver keeps of a request. A clock that did not come yet is None."""

    def __init__(self, first, agent, kind, id, den):
        self.first, self.agent, self.kind, self.id, self.den = first, agent, kind, id, den
        self.cancelled = self.snoop_end = self.ready = self.response = self.end = self.reply = None
        self.due, self.results, self.code, self.chunks = first + 4, set(), IDLE, 0

    def is_over(self, c):
        return any(clock is not None and clock < c for clock in (self.cancelled, self.end))

    def is_outstanding(self, c):
        if self.code == DEFERRED:
            return self.reply is None or self.reply.cancelled is not None or not self.reply.is_over(c)
        return self.kind != 'Reply' and not self.is_over(c)

    def awaits_reply(self, c):
        is_free = self.reply is None or self.reply.cancelled is not None and self.reply.cancelled < c
        return self.code == DEFERRED and self.response < c and is_free

    def takes(self):
        return self.kind == 'WriteBack' or 'HITM' in self.results

    def has_come(self, clock, c, before):
        return clock is not None and clock <= c - before


class Traffic:
    """A random run of the bus: `samples` has the digits of every line at each clock, by its name.

    It keeps all rules but the one whose number is `forgotten`, and this one too at times: it does not ask itself what the
    second judge would say, and has its own small book of what is under way.
    """

    def __init__(self, chance, forgotten=None):
        def some(*values):
            return chance.choice(values)
        self.chance, self.forgotten, self.forgets = chance, forgotten, some(0.03, 0.3, 0.9)
        self.case = some(1, 2, 3)  # which case of a rule that has some
        self.agents = chance.sample(SYMMETRIC, some(1, 2, 2, 3, 4))
        self.asks, self.begins, self.ids = some(0.05, 0.3, 0.7), some(0.6, 1), some(4, 5, 16)
        self.blocks, self.locks, self.cancels = some(0, 0.15), some(0, 0.3), some(0, 0.3)
        self.stalls, self.hits, self.defers, self.fails = some(0, 0.4), some(0, 0.4), some(0, 0.5), some(0, 0.2)
        self.responds, self.chunks, self.noise = some(0.02, 0.5, 1), some(0.5, 1), some(0, 0.3)
        self.replies = some(0.05, 0.5)
        self.kinds = some(('Read', 'Invalidate'), ('Read', 'Invalidate', 'WriteBack'), ('Read', 'Upgrade', 'WriteBack'))
        undeclared = ('AP_n', 'RP_n')
        if forgotten in (19, 20) or self.happens(0.4):
            undeclared = some((), (), ('RP_n',) if forgotten != 20 else (), ('AP_n',) if forgotten != 19 else ())
        self.names = [name for name in WIDTHS if name not in undeclared]
        self.past, self.samples, self.requests, self.responses = [], [], [], []
        self.last, self.turn, self.snooped, self.second = None, 0, -9, None
        # A rule whose breach needs much to have come before is given the traffic for it.
        if forgotten == 4:
            self.agents, self.asks, self.cancels, self.responds = SYMMETRIC, 0.7, some(0, 0.4), 0.02
        if forgotten in (7, 12, 14, 18):
            self.asks, self.defers = 0.7, 0.7
        if forgotten in (3, 15):
            self.asks, self.kinds = 0.7, some(('WriteBack',), ('Read', 'Invalidate', 'Upgrade'))
        if forgotten == 18 and self.case == 2:
            self.cancels = some(0, 0.5)
        if forgotten == 18 and self.case == 3:
            self.ids, self.responds = some(5, 16), some(0.02, 0.2)
        for c in range(chance.randrange(5, 110)):
            self.drive(c)

    def happens(self, probability):
        return self.chance.random() < probability

    def keeps(self, rule, case=None):
        return rule != self.forgotten or case not in (None, self.case) or not self.happens(self.forgets)

    def had(self, line, c):
        return c >= 0 and line in self.past[c]

    def drive(self, c):
        self.lines, self.words = set(), {}
        self.ask(c)
        self.cancel(c)
        if self.second:
            self.words.update(self.second)
        self.second = None
        self.begin(c)
        self.lock(c)
        self.snoop(c)
        self.respond(c)
        self.move(c)
        self.past.append(self.lines)
        self.samples.append(self.digits())

    def ask(self, c):
        for agent, line in REQUEST_LINES.items():
            if self.had('ADS', c - 1) and self.last == agent:
                is_asked = not self.keeps(8)
            elif self.had(line, c - 1):
                is_asked = self.keeps(8)
            elif agent == PRIORITY:
                awaiting = [r for r in self.requests if r.awaits_reply(c)]
                is_lax = (self.forgotten, self.case) == (18, 1)
                is_asked = self.happens(self.replies if awaiting or is_lax and self.to_be_replied() else 0.003)
            else:
                is_asked = agent in self.agents and self.happens(self.asks)
            if is_asked:
                self.lines.add(line)

    def cancel(self, c):
        for r in self.requests:
            if r.first == c - 3 and self.happens(self.cancels):
                self.lines.add('AERR')
                r.cancelled = c
        if not self.keeps(10):
            self.lines.add('AERR')

    def winner(self, c):
        asking = [agent for agent, line in REQUEST_LINES.items() if self.had(line, c - 2)]
        if self.had('LOCK', c - 2):
            return self.last if self.last in asking else None
        return PRIORITY if PRIORITY in asking else min(asking, key=lambda agent: (agent - self.turn) % 4, default=None)

    def begin(self, c):
        winner = self.winner(c)
        is_spaced = c >= 2 and not self.had('ADS', c - 1) and not self.had('ADS', c - 2)
        if not ((is_spaced or not self.keeps(2)) and (winner is not None or not self.keeps(6))
                and (sum(not r.is_over(c) for r in self.requests) < 8 or not self.keeps(4))
                and (not self.had('BNR', c - 2) or not self.keeps(5)) and self.happens(self.begins)):
            return
        is_own = self.keeps(7)
        is_reply = winner == PRIORITY if is_own else self.happens(0.3)
        request = self.reply(c, is_own) if is_reply else self.request(c, winner, is_own and winner in SYMMETRIC)
        if request is None:
            return
        self.lines.add('ADS')
        self.requests.append(request)
        self.last, self.turn = winner, self.turn if winner not in SYMMETRIC else winner + 1
        self.put_words(request)

    def reply(self, c, is_own):
        awaiting = [r for r in self.requests if r.awaits_reply(c)]
        if not is_own or not self.keeps(18, 1):
            lax = self.to_be_replied() or self.requests
            awaiting = self.happens(0.5) and [r for r in lax if r.reply is not None] or lax
        if not awaiting:
            return None
        deferred = self.chance.choice(awaiting)
        deferred.reply = Request(c, PRIORITY, 'Reply', deferred.id, False)
        return deferred.reply

    def to_be_replied(self):
        """All that were or may be deferred, for a driver that forgets which of them await a reply."""
        return [r for r in self.requests if 'DEFER' in r.results]

    def request(self, c, winner, is_own):
        outstanding = [r for r in self.requests if r.is_outstanding(c)]
        if sum(r.agent == winner for r in outstanding) >= 4 and self.keeps(18, 3):
            return None
        kind = self.chance.choice(self.kinds)
        agent = winner if is_own else self.chance.choice([8 + number for number in self.agents] + list(range(8)))
        used = [r.id for r in self.requests if r.agent == agent][-5:]
        ids = used if used and self.happens(0.4) else [16 * agent + number for number in range(self.ids)]
        free = [id for id in ids if all(r.id != id for r in outstanding)] if self.keeps(18, 2) else used or ids
        return Request(c, winner, kind, self.chance.choice(free), kind in ('Read', 'Invalidate') and self.happens(0.5)) if free else None

    def put_words(self, request):
        second = 0b00010 * (request.kind != 'Upgrade'), request.id << 13 | DEN_BIT * request.den
        if request.kind == 'Reply':
            first, second = (0, request.id << 13), (0, 0)
        else:
            a = self.chance.getrandbits(self.chance.choice((6, 33))) & (~0b11 if request.kind == 'WriteBack' else ~0)
            first = FIRST_CODES[request.kind] | 0b01000 * (a >= 1 << 29), a
        words = [('REQ_n', first[0]), ('A_n', first[1]), ('REQ_n', second[0]), ('A_n', second[1])]
        words = [[name, inverted(name, value)] for name, value in words]
        if not self.keeps(3):
            spoiled = self.chance.choice(words + words[1::2])
            low = self.chance.choice((2, len(spoiled[1])))
            spoiled[1] = spoiled[1][:-low] + changed(self.chance, spoiled[1][-low:], '0011x')
        self.words.update(words[:2])
        self.second = dict(words[2:])

    def lock(self, c):
        may_lock = 'ADS' in self.lines and self.happens(self.locks) or self.had('LOCK', c - 1) and self.happens(0.85)
        if may_lock or not self.keeps(9):
            self.lines.add('LOCK')
        if self.happens(self.blocks) or self.forgotten == 5 and self.happens(0.2):
            self.lines.add('BNR')

    def live(self):
        return [r for r in self.requests if r.cancelled is None]

    def snoop(self, c):
        r = next((r for r in self.live() if r.snoop_end is None), None)
        if r is not None and c == max(r.due, self.snooped + 3):
            if self.happens(self.stalls):
                self.lines |= {'HIT', 'HITM'} | ({'DEFER'} if self.happens(0.2) else set())
                r.due = c + 2
                return
            if not self.keeps(12):
                r.results = {self.chance.choice(('HIT', 'HITM', 'DEFER'))}
            elif r.kind in ('WriteBack', 'Reply'):
                r.results = {'HIT'} if r.kind == 'Reply' and self.happens(self.hits) else set()
            else:
                r.results = {self.chance.choice(('HIT', 'HITM'))} if self.happens(self.hits) else set()
                r.results |= {'DEFER'} if self.happens(self.defers) else set()
            self.lines |= r.results
            r.snoop_end = self.snooped = c
        elif (self.happens(0.2) or self.had('HIT', c - 1) and self.had('HITM', c - 1)) and not self.keeps(11):
            self.lines.add(self.chance.choice(('HIT', 'HITM', 'DEFER')))

    def respond(self, c):
        r = next(iter(self.live()[len(self.responses):]), None)
        may_come = r is not None and r.has_come(r.snoop_end, c, 2) and (
            not self.responses or r.has_come(self.responses[-1].end, c, 1))
        if may_come and r.takes() and r.ready is None and self.happens(0.5):
            self.lines.add('TRDY')
            r.ready = c
        elif r is not None and r.takes() and (r.snoop_end or self.happens(0.1)) and not self.keeps(15, 2 if r.ready else 1):
            self.lines.add('TRDY')
        is_early = r is not None and not may_come and (r.snoop_end is not None or self.happens(0.1)) and not self.keeps(13)
        if not (may_come or is_early) or not self.happens(self.responds):
            return
        if self.happens(self.fails):
            r.code = HARD_FAILURE
        elif r.takes() and not r.has_come(r.ready, c, 2) and (
                r.ready in (None, c) and self.happens(0.9) or self.keeps(15, 3)):
            return
        else:
            r.code = self.code_of(r) if self.keeps(14) else self.chance.randrange(1, 8)
        self.lines |= {f'RS{bit}' for bit in range(3) if r.code >> bit & 1}
        r.response = c
        is_dataless = r.kind == 'Upgrade' and 'HITM' not in r.results
        r.end = c if is_dataless or r.code in (HARD_FAILURE, RETRY, DEFERRED) else None
        self.responses.append(r)

    def code_of(self, r):
        if 'HITM' in r.results:
            return IMPLICIT_WRITEBACK
        if r.kind == 'WriteBack':
            return NO_DATA
        if 'DEFER' in r.results:
            return DEFERRED if r.den and self.happens(0.8) else RETRY
        return NO_DATA if r.kind == 'Upgrade' else NORMAL_DATA

    def move(self, c):
        r = self.responses[-1] if self.responses and self.responses[-1].end is None else None
        if r is not None and self.happens(self.chunks):
            self.lines.add('DRDY')
            r.chunks += 1
            r.end = c if r.chunks == 4 else None
        if r is not None and r.end is None:
            self.lines.add('DBSY')
        if not self.keeps(16):
            self.lines ^= {self.chance.choice(('DRDY', 'DBSY'))}
        if 'DRDY' in self.lines:
            self.words['D_n'] = inverted('D_n', self.chance.getrandbits(64))
            if not self.keeps(17):
                self.words['D_n'] = changed(self.chance, self.words['D_n'], 'x')

    def digits(self):
        """The digits of the lines of this clock. Words that nobody looks at may be anything, and a line that is let go z."""
        def idle():
            return 'z' if self.happens(self.noise / 3) else '1'
        digits = {name: '0' if name[:-2] in self.lines else idle() for name in self.names}
        digits['RS_n'] = ''.join('0' if line in self.lines else idle() for line in ('RS2', 'RS1', 'RS0'))
        for name in WORDS:
            nothing = ''.join(self.chance.choices('01xz', k=WIDTHS[name])) if self.happens(self.noise) else '1' * WIDTHS[name]
            digits[name] = self.words.get(name, nothing)
        if 'AP_n' in digits:
            digits['AP_n'] = (self.parity(19, digits['A_n'][:12], idle) + self.parity(19, digits['A_n'][12:], idle))
        if 'RP_n' in digits:
            digits['RP_n'] = self.parity(20, digits['REQ_n'] + digits['ADS_n'], idle)
        if not self.keeps(1):
            change_a_line(self.chance, digits, 'x')
        return digits

    def parity(self, rule, group, idle):
        """The digit of a parity line with this group. Where nobody looks at it, it may be anything that is known."""
        if 'ADS' not in self.lines and not self.had('ADS', len(self.past) - 2):
            return '0' if self.happens(self.noise) else idle()
        is_asserted = (group.count('0') % 2 == 1) == self.keeps(rule)
        return '0' if is_asserted else idle()


def inverted(name, value):
    return format(~value & (1 << WIDTHS[name]) - 1, f'0{WIDTHS[name]}b')


def changed(chance, digits, to='01xz'):
    """The digits with one of them replaced by another."""
    place = chance.randrange(len(digits))
    digit = chance.choice([digit for digit in to if digit != digits[place]] or digits[place])
    return digits[:place] + digit + digits[place + 1:]


def change_a_line(chance, digits, to='01xz'):
    name = chance.choice([name for name in digits if name not in WORDS + ('BCLK',)])
    digits[name] = changed(chance, digits[name], to)


def random_samples(chance):
    form = chance.randrange(8)
    samples = Traffic(chance, chance.choice([*range(1, 21), 4, 7, 12, 18, 18, 18]) if form >= 4 else None).samples
    begun = [c for c in range(3, len(samples)) if samples[c - 3]['ADS_n'] == '0']
    if form == 1:
        change_a_line(chance, chance.choice(samples), '0011xz')
    elif form == 2 and begun:
        digits = samples[chance.choice(begun)]
        digits['AERR_n'] = '1' if digits['AERR_n'] == '0' else '0'
    elif form == 3:
        digits, name = chance.choice(samples), chance.choice(WORDS)
        digits[name] = changed(chance, digits[name])
    return samples


def dump_text(chance, samples):
    """A dump of the samples: as the program writes it, or in one of the ways of a simulator."""
    is_plain = chance.random() < 0.4
    names = list(samples[0])
    codes = {name: chr(33 + number) for number, name in enumerate(WIDTHS)}
    if not is_plain:
        names = [name for name in names if name in NEEDED or name in ('AP_n', 'RP_n') or chance.random() < 0.5
                 or any(s[name] in '0x' for s in samples)]
        chance.shuffle(names)
        codes = {name: code + chance.choice(('', 'a', '~!')) for name, code in codes.items()}

    def value(name, digits):
        while not is_plain and digits[1:] and digits[0] == (digits[1] if digits[1] in 'xz' else '0'):
            digits = digits[1:]
        return f'b{digits} {codes[name]}' if WIDTHS[name] > 1 else digits + codes[name]

    def values(new, old=None):
        return [value(name, new[name]) for name in names if name != 'BCLK' and (old is None or new[name] != old[name])]

    clock = codes['BCLK']
    text = ['$version p6bench 1 $end', '$timescale 1 ns $end', '$scope module fsb $end']
    text += [f'$var wire {WIDTHS[name]} {codes[name]} {name} $end' for name in names]
    if not is_plain:
        text += ['$scope module inner $end', '$var reg 8 other other[7:0] $end', '$var wire 1 ads ADS_n $end $upscope $end']
    text += ['$upscope $end', '$enddefinitions $end', '#0', '$dumpvars', f'0{clock}'] + values(samples[0]) + ['$end']
    is_at_rise = not is_plain and chance.random() < 0.5
    for c, sample in enumerate(samples):
        changes = [] if c == 0 else values(sample, samples[c - 1])
        if not is_plain and chance.random() < 0.1:
            text += [f'#{10 * c}', '$comment 0 #7 $end', 'b1x0 other', '0ads']
        text += [] if c == 0 else [f'#{10 * c}', f'0{clock}'] + ([] if is_at_rise else changes)
        if not is_plain and not is_at_rise and chance.random() < 0.02:
            text += [f'#{10 * c + 1}', '$dumpoff'] + [value(name, 'x' * WIDTHS[name]) for name in names] + ['$end']
            text += [f'#{10 * c + 2}', '$dumpon', f'0{clock}'] + values(sample) + ['$end']
        text += [f'#{10 * c + 5}', f'1{clock}'] + (values(samples[c + 1], sample) if is_at_rise and samples[c + 1:] else [])
    return '\n'.join(text) + '\n'
