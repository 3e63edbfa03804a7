"""Random traffic of four caches, coherent or with a fault now and then, for second_coherence.py.

The caches drop clean copies and store into Exclusive ones at any clock, so they are others than those of the simulator. They keep
what docs/ownership-rules.md asks. With a fault in mind, a request or an answer is at times drawn without a look at the caches.
"""
from random_dumps import FIRST_CODES, Traffic, inverted
from second_dump import Marks, WIDTHS, sample_of
from second_judge import DEFERRED, DEN_BIT, RETRY, SYMMETRIC

MAY_ASK = {'Read': 'I', 'Invalidate': 'IS', 'Upgrade': 'S', 'WriteBack': 'M'}
FAULTS = ('kind', 'HIT', 'HITM', 'reply', 'pending', 'state', 'again', 'held back')


class System(Traffic):
    """`fault` is None, or what is forgotten at times: the kind that suits, HIT#, HITM#, HIT# of a reply, a pending line, how states
    change, that a line is asked for, or that a write-back is held back."""

    def __init__(self, chance, fault=None):
        self.fault, self.often = fault, chance.choice((0.1, 0.3, 1))
        self.states = {line: list('IIII') for line in range(chance.choice((1, 1, 2)))}
        self.drops, self.stores, self.pending, self.by_line = chance.choice((0, 0.05, 0.3)), chance.choice((0.05, 0.5)), {}, []
        super().__init__(chance)

    def slips(self, fault):
        return self.fault == fault and self.happens(self.often)

    def drive(self, c):
        for line, states in self.states.items():
            for a in SYMMETRIC:
                if states[a] == 'E' and not self.is_coming(line, a, c) and self.happens(self.stores):
                    states[a] = 'M'
        super().drive(c)
        for line, states in self.states.items():
            for a in SYMMETRIC:
                is_kept = self.is_coming(line, a, c) or self.is_upgrading(line, a, c)
                if states[a] in 'SE' and not is_kept and self.happens(self.drops):
                    states[a] = 'I'

    def is_coming(self, line, a, c):
        """Bytes of the line are under way to the agent, and their end does not lie below c."""
        return any(r.line == line and r.asker == a and r.brings and not (r.end is not None and r.end < c) for r in self.by_line)

    def is_upgrading(self, line, a, c):
        return any(r.line == line and r.asker == a and r.kind == 'Upgrade' and r.is_outstanding(c) for r in self.by_line)

    def request(self, c, winner, is_own):
        request = super().request(c, winner, is_own)
        if request is None or winner not in SYMMETRIC:
            return request
        wants = [(kind, line) for kind in MAY_ASK for line in self.states if self.may_ask(winner, kind, line, c)]
        if not wants:
            return None
        request.kind, line = self.chance.choice(wants)
        request.den = request.den and request.kind in ('Read', 'Invalidate')
        return self.of_line(request, line, winner)

    def of_line(self, request, line, asker):
        request.line, request.asker, request.brings, request.origin = line, asker, False, request
        self.by_line.append(request)
        return request

    def may_ask(self, a, kind, line, c):
        if any(r.asker == a and r.line == line and r.is_outstanding(c) for r in self.by_line) and not self.slips('again'):
            return False
        if kind == 'WriteBack' and not self.slips('held back') and any(
                r.asker != a and r.line == line and r.snoop_end is None and not r.is_over(c) for r in self.by_line):
            return False
        return self.states[line][a] in MAY_ASK[kind] or self.slips('kind')

    def reply(self, c, is_own):
        reply = super().reply(c, is_own)
        if reply is not None:
            origin = next(r for r in self.by_line if r.reply is reply)
            self.of_line(reply, origin.line, origin.asker)
            reply.origin = origin
        return reply

    def put_words(self, request):
        second = 0b00010 * (request.kind != 'Upgrade'), request.id << 13 | DEN_BIT * request.den
        first = FIRST_CODES[request.kind], request.line << 2 | (self.chance.randrange(4) if request.kind != 'WriteBack' else 0)
        if request.kind == 'Reply':
            first, second = (0, request.id << 13), (0, 0)
        self.words.update({name: inverted(name, value) for name, value in zip(('REQ_n', 'A_n'), first)})
        self.second = {name: inverted(name, value) for name, value in zip(('REQ_n', 'A_n'), second)}

    def snoop(self, c):
        r = next((r for r in self.live() if r.snoop_end is None), None)
        if r is None or c != max(r.due, self.snooped + 3):
            return
        if self.happens(self.stalls):
            self.lines |= {'HIT', 'HITM'}
            r.due = c + 2
            return
        r.snoop_end = self.snooped = c
        others = [self.states[r.line][b] for b in SYMMETRIC if b != r.asker]
        has_owner, has_holder = 'M' in others, any(state in 'SE' for state in others)
        if r.kind == 'Reply':
            r.results = {'HIT'} & r.origin.results
            if self.slips('reply'):
                r.results ^= {'HIT'}
        elif r.kind != 'WriteBack':
            if has_owner != self.slips('HITM'):
                r.results = {'HITM'}
            elif (has_holder or has_owner) != self.slips('HIT'):
                r.results = {'HIT'}
            is_pending = r.line in self.pending
            if self.happens(self.defers) or is_pending and not self.slips('pending'):
                r.results |= {'DEFER'}
        self.lines |= r.results
        self.settle(r)

    def settle(self, r):
        """What the snoop end makes of the caches, and whether the request is to be deferred."""
        states, a, kind = self.states[r.line], r.asker, r.origin.kind
        is_handed, is_turned = 'HITM' in r.results, 'DEFER' in r.results and 'HITM' not in r.results
        r.is_deferred = is_turned and r.den and self.happens(0.7) and (r.line not in self.pending or self.slips('pending'))
        if r.is_deferred:
            self.pending.setdefault(r.line, r)
        if r.kind == 'Reply' and self.pending.get(r.line) is r.origin:
            del self.pending[r.line]
        for b in SYMMETRIC:
            if b != a and r.kind not in ('Reply', 'WriteBack') and not self.slips('state'):
                states[b] = 'S' if kind == 'Read' and states[b] != 'I' else 'I'
        is_moved = not is_turned and (kind != 'Upgrade' or is_handed)
        r.brings = is_moved and kind != 'WriteBack'
        if kind == 'WriteBack':
            states[a] = 'I'
        elif is_moved or not is_turned and states[a] != 'I':
            is_shared = not r.results.isdisjoint(('HIT', 'HITM'))
            states[a] = 'M' if kind != 'Read' else 'S' if is_shared else 'E'

    def code_of(self, r):
        code = super().code_of(r)
        return (DEFERRED if r.is_deferred else RETRY) if code in (DEFERRED, RETRY) else code


def samples_of(digits):
    """Marks and samples of the digits of each clock."""
    others = {name: '1' * width for name, width in WIDTHS.items()}
    names = digits[0] if digits else ()
    return Marks('AP_n' in names, 'RP_n' in names), [sample_of({**others, **clock}) for clock in digits]
