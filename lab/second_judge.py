#!/usr/bin/env python3
"""A second judge of the bus's waveforms, written from docs/phase-rules.md, docs/dump.md and docs/reference/dump-format.md alone.

    second_judge.py DUMP

prints what `p6bench check DUMP` prints of a dump: `accepted clocks=N`, or `rejected clock=C rule=J` with status 1, or the first
fault of a text that is no dump, with status 4. The rules stand here as the document says them, over the whole trace up to a clock,
so this is slow and plain: a dump of a hundred clocks takes some tenths of a second.
"""
import sys
from collections import namedtuple

sys.dont_write_bytecode = True
from second_dump import Fault, read_samples

# The request line of each agent. The symmetric agents are numbers.
SYMMETRIC = (0, 1, 2, 3)
PRIORITY = 'priority'
REQUEST_LINES = {0: 'BREQ0', 1: 'BREQ1', 2: 'BREQ2', 3: 'BREQ3', PRIORITY: 'BPRI'}

# The codes of RS#.
IDLE, RETRY, DEFERRED, HARD_FAILURE, NO_DATA, IMPLICIT_WRITEBACK, NORMAL_DATA = 0, 1, 2, 4, 5, 6, 7

# Each kind that is no reply, by the first code on REQ without its bit z, and the second one. The ID stands on A[23:16], and
# DEN# on A4.
KINDS = {(0b00010, 0b00010): 'Invalidate', (0b00110, 0b00010): 'Read', (0b00101, 0b00010): 'WriteBack',
         (0b00010, 0b00000): 'Upgrade'}
ID_BITS, DEN_BIT = 0xff << 13, 1 << 1
LOW_ADDRESS = (1 << 21) - 1  # A[23:3] of the address word

Request = namedtuple('Request', 'kind id den')
NO_REQUEST = Request(None, None, None)


def decode(first, second):
    """The request of two samples, or NO_REQUEST."""
    if None in (first.req, first.a, second.req, second.a):
        return NO_REQUEST
    if first.req == 0:
        is_lawful = first.a & ~ID_BITS == 0 and second.req == 0 and second.a == 0
        return Request('Reply', first.a >> 13, False) if is_lawful else NO_REQUEST
    kind, is_high = KINDS.get((first.req & ~0b01000, second.req)), first.req & 0b01000 != 0
    den = second.a & DEN_BIT != 0
    is_lawful = (kind and is_high == (first.a >= 1 << 29) and second.a & ~(ID_BITS | DEN_BIT) == 0
                 and not (kind == 'WriteBack' and first.a & 0b11) and not (kind in ('WriteBack', 'Upgrade') and den))
    return Request(kind, second.a >> 13, den) if is_lawful else NO_REQUEST


def is_odd(*groups):
    """An odd number of lines is asserted in the groups: conditions, and words."""
    return sum(bin(group).count('1') for group in groups) % 2 == 1


def is_below(number, c):
    """number < c. A number that is not reached is None, and a condition that needs it is false."""
    return number is not None and number < c


def once(word):
    """Keeps what a word says of a trace, which does not change."""
    def kept(trace, *of):
        if (word, of) not in trace.kept:
            trace.kept[word, of] = word(trace, *of)
        return trace.kept[word, of]
    return kept


class Trace:
    """Marks and samples, and the words over them. k is the first clock of a request, i the number of a live one."""

    def __init__(self, marks, samples):
        self.marks, self.samples, self.kept = marks, samples, {}
        self.clocks = range(len(samples))
        self.requests = [c for c in self.clocks if self.has('ADS', c)]
        self.live = [k for k in self.requests if not self.is_cancelled(k)]
        self.responses = [c for c in self.clocks if samples[c].code != IDLE]

    def has(self, line, c):
        return c in self.clocks and line in self.samples[c].asserted

    @once
    def request_at(self, k):
        return decode(self.samples[k], self.samples[k + 1]) if k + 1 in self.clocks else NO_REQUEST

    def is_cancelled(self, k):
        return self.has('AERR', k + 3)

    def request_of(self, i):
        return self.request_at(self.live[i])

    @once
    def winner_at(self, c):
        if c < 2:
            return None
        asking = [agent for agent, line in REQUEST_LINES.items() if self.has(line, c - 2)]
        begun = [self.winner_at(k) for k in self.requests if k < c]
        if self.has('LOCK', c - 2):
            return begun[-1] if begun and begun[-1] in asking else None
        if PRIORITY in asking:
            return PRIORITY
        symmetric = [agent for agent in begun if agent in SYMMETRIC]
        first = symmetric[-1] + 1 if symmetric else 0
        return next((turn % 4 for turn in range(first, first + 4) if turn % 4 in asking), None)

    def begins_at(self, agent, c):
        return self.has('ADS', c) and self.winner_at(c) == agent

    @once
    def snoop_start_of(self, i):
        last_end = self.snoop_end_of(i - 1) if i > 0 else -1
        return None if last_end is None else max(self.live[i] + 4, last_end + 3)

    @once
    def snoop_end_of(self, i):
        start = self.snoop_start_of(i)
        clocks = [] if start is None else self.clocks[start::2]
        return next((c for c in clocks if not (self.has('HIT', c) and self.has('HITM', c))), None)

    def is_snoop_clock_of(self, i, c):
        start = self.snoop_start_of(i)
        return start is not None and c in range(start, c + 1, 2) and not is_below(self.snoop_end_of(i), c)

    def has_at_snoop_end(self, i, line):
        return self.snoop_end_of(i) is not None and self.has(line, self.snoop_end_of(i))

    def response_clock_of(self, i):
        return self.responses[i] if i < len(self.responses) else None

    @once
    def outcome_of(self, i):
        if self.response_clock_of(i) is None:
            return None
        code = self.samples[self.response_clock_of(i)].code
        if code == HARD_FAILURE:
            return 'Failed'
        if self.has_at_snoop_end(i, 'HITM'):
            return 'Handed'
        by_kind = {'WriteBack': 'Written', 'Upgrade': 'Upgraded', 'Reply': 'Replied'}.get(self.request_of(i).kind, 'Granted')
        return {RETRY: 'Retried', DEFERRED: 'Deferred'}.get(code, by_kind)

    def does_move(self, i):
        return self.outcome_of(i) in ('Granted', 'Handed', 'Written', 'Replied')

    @once
    def data_clocks_of(self, i):
        return [c for c in self.clocks[self.response_clock_of(i):] if self.has('DRDY', c)][:4] if self.does_move(i) else []

    def end_of(self, i):
        if not self.does_move(i):
            return self.response_clock_of(i)
        return self.data_clocks_of(i)[3] if len(self.data_clocks_of(i)) == 4 else None

    def is_turn_of(self, i, c):
        """i is the first, or the request before it has ended below c."""
        return i == 0 or is_below(self.end_of(i - 1), c)

    def takes(self, i):
        return self.request_of(i).kind == 'WriteBack' or self.has_at_snoop_end(i, 'HITM')

    def ready_clock_of(self, i):
        end = self.snoop_end_of(i)
        clocks = [] if end is None else self.clocks[end + 2:]
        return next((c for c in clocks if self.has('TRDY', c) and self.is_turn_of(i, c)), None)

    def is_over(self, k, c):
        """The AERR# of the cancelled request k lies below c, or the end of the live one."""
        return k + 3 < c if self.is_cancelled(k) else is_below(self.end_of(self.live.index(k)), c)

    def is_in_flight(self, k, c):
        return k < c and not self.is_over(k, c)

    def response_of_deferred(self, k):
        """The response clock of the request k where it is Deferred, or None."""
        i = None if self.is_cancelled(k) else self.live.index(k)
        return self.response_clock_of(i) if i is not None and self.outcome_of(i) == 'Deferred' else None

    def replies_to(self, k):
        """The replies, live or cancelled, with the ID of the Deferred request k that begin after its response."""
        reply = Request('Reply', self.request_at(k).id, False)
        return [r for r in self.requests if r > self.response_of_deferred(k) and self.request_at(r) == reply]

    def reply_clock_of(self, k):
        return next((r for r in self.replies_to(k) if not self.is_cancelled(r)), None)

    def is_outstanding(self, k, c):
        if self.request_at(k).kind == 'Reply':
            return False
        if self.response_of_deferred(k) is None:
            return self.is_in_flight(k, c)
        return k < c and (self.reply_clock_of(k) is None or not self.is_over(self.reply_clock_of(k), c))

    def awaits_reply(self, k, c):
        return (is_below(self.response_of_deferred(k), c)
                and not any(r < c and (not self.is_cancelled(r) or self.is_in_flight(r, c)) for r in self.replies_to(k)))

    def next_response(self, c):
        i = sum(response < c for response in self.responses)
        return i if i < len(self.live) else None

    def codes_of(self, i):
        """The codes that the response of i may have beside 100."""
        if self.has_at_snoop_end(i, 'HITM'):
            return [IMPLICIT_WRITEBACK]
        if self.request_of(i).kind == 'WriteBack':
            return [NO_DATA]
        if self.has_at_snoop_end(i, 'DEFER'):
            return [RETRY, DEFERRED] if self.request_of(i).den else [RETRY]
        return [NO_DATA] if self.request_of(i).kind == 'Upgrade' else [NORMAL_DATA]

    # The rules at the last clock c. The longer ones come first.

    def is_identity_wrong(self, c):
        request, winner = self.request_at(c - 1), self.winner_at(c - 1)
        if request.kind == 'Reply':
            return winner != PRIORITY
        return request == NO_REQUEST or winner not in SYMMETRIC or request.id >> 4 != winner

    def is_some_asked_wrongly(self, c):
        def is_asked_wrongly(agent, line):
            return self.has(line, c) if self.begins_at(agent, c - 1) else self.has(line, c - 1) and not self.has(line, c)
        return any(is_asked_wrongly(agent, line) for agent, line in REQUEST_LINES.items())

    def is_snoop_result_unfit(self, c):
        unfit = {'WriteBack': ('HIT', 'HITM', 'DEFER'), 'Reply': ('HITM', 'DEFER')}
        return any(self.snoop_end_of(i) == c and any(self.has(line, c) for line in unfit.get(self.request_of(i).kind, ()))
                   for i in range(len(self.live)))

    def may_come(self, i, c):
        """i is a next response whose snoop end lies at least two clocks before c, and it is its turn."""
        return i is not None and is_below(self.snoop_end_of(i), c - 1) and self.is_turn_of(i, c)

    def is_target_ready_wrong(self, i, c):
        if self.has('TRDY', c) and (not self.may_come(i, c) or not self.takes(i) or is_below(self.ready_clock_of(i), c)):
            return True
        return (self.samples[c].code not in (IDLE, HARD_FAILURE)
                and i is not None and self.takes(i) and not is_below(self.ready_clock_of(i), c - 1))

    def is_data_wrong(self, c):
        def are_on_the_way(end):
            """Of some live request's data fewer than four chunks come below end, and its response is there."""
            return any(self.does_move(i) and sum(d < end for d in self.data_clocks_of(i)) < 4 for i in range(len(self.live)))
        return self.has('DRDY', c) and not are_on_the_way(c) or self.has('DBSY', c) != are_on_the_way(c + 1)

    def is_outstanding_wrong(self, c):
        request = self.request_at(c - 1)
        if request.kind == 'Reply':
            return not any(self.request_at(k).id == request.id and self.awaits_reply(k, c - 1) for k in self.requests)
        outstanding = [k for k in self.requests if self.is_outstanding(k, c - 1)]
        return (any(self.request_at(k).id == request.id for k in outstanding)
                or sum(self.winner_at(k) == self.winner_at(c - 1) for k in outstanding) >= 4)

    def is_address_parity_wrong(self, c):
        sample, asserted = self.samples[c], self.samples[c].asserted
        return sample.a is not None and not sample.unknown & {'AP0', 'AP1'} and (
            is_odd('AP0' in asserted, sample.a & LOW_ADDRESS) or is_odd('AP1' in asserted, sample.a & ~LOW_ADDRESS))

    def is_request_parity_wrong(self, c):
        sample, asserted = self.samples[c], self.samples[c].asserted
        return (sample.req is not None and not sample.unknown & {'RP', 'ADS'}
                and is_odd('RP' in asserted, 'ADS' in asserted, sample.req))

    def are_broken(self, c):
        """For each rule, from 1, whether it is broken at the last clock c."""
        begins, began, i, code = self.has('ADS', c), self.has('ADS', c - 1), self.next_response(c), self.samples[c].code
        yield bool(self.samples[c].unknown)                                                  # has_unknown_line
        yield begins and (c < 2 or began or self.has('ADS', c - 2))                          # is_request_too_soon
        yield began and self.request_at(c - 1) == NO_REQUEST                                 # is_code_unlawful
        yield begins and sum(self.is_in_flight(k, c) for k in self.requests) >= 8            # is_queue_full
        yield begins and self.has('BNR', c - 2)                                              # is_request_blocked
        yield begins and self.winner_at(c) is None                                           # has_no_winner
        yield began and self.is_identity_wrong(c)
        yield self.is_some_asked_wrongly(c)
        yield self.has('LOCK', c) and not self.has('LOCK', c - 1) and not begins             # is_lock_alone
        yield self.has('AERR', c) and not self.has('ADS', c - 3)                             # is_error_alone
        yield (any(self.has(line, c) for line in ('HIT', 'HITM', 'DEFER'))                   # is_snoop_line_alone
               and not any(self.is_snoop_clock_of(number, c) for number in range(len(self.live))))
        yield self.is_snoop_result_unfit(c)
        yield code != IDLE and not self.may_come(i, c)                                       # is_response_early
        yield code not in (IDLE, HARD_FAILURE) and (i is None or code not in self.codes_of(i))     # is_code_wrong
        yield self.is_target_ready_wrong(i, c)
        yield self.is_data_wrong(c)
        yield self.has('DRDY', c) and self.samples[c].d is None                              # has_unknown_data
        yield began and self.is_outstanding_wrong(c)
        yield self.marks.ap and (begins or began) and self.is_address_parity_wrong(c)
        yield self.marks.rp and (begins or began) and self.is_request_parity_wrong(c)


def least_rule(marks, samples):
    """The least rule that is broken at the last of the samples, or None."""
    broken = Trace(marks, samples).are_broken(len(samples) - 1)
    return next((rule for rule, is_broken in enumerate(broken, 1) if is_broken), None)


def verdict(marks, samples, first=0):
    """The line that tells the verdict: each clock is judged over the samples up to it alone. Below the first clock that is given
    nothing is broken, as of samples that were judged before."""
    for c in range(first, len(samples)):
        rule = least_rule(marks, samples[:c + 1])
        if rule is not None:
            return f'rejected clock={c} rule={rule}'
    return f'accepted clocks={len(samples)}'


def answer_of(text):
    """The status and the line that tell of a text."""
    try:
        marks, samples = read_samples(text)
    except Fault as fault:
        return 4, 'dump byte %d: %s' % fault.args
    line = verdict(marks, samples)
    return int(line.startswith('rejected')), line


def main(words):
    if len(words) != 1:
        sys.exit(__doc__)
    sys.setrecursionlimit(100000)
    with open(words[0], 'rb') as source:
        status, line = answer_of(source.read())
    print(line, file=sys.stderr if status == 4 else sys.stdout)
    return status


if __name__ == '__main__':
    sys.exit(main(sys.argv[1:]))
