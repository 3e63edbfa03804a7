"""A plain judge of coherence for short traces: it looks for a course of the machine of docs/proof/coherence.md, one for each line, whose
visible events are those on the wires. Where there is none, no coherent system made these wires.

It keeps no sets of joint states: it tries each store and each drop that nobody sees, one course after the other. The words over
the wires are those of second_judge.py, taken anew of each prefix. second_coherence.py compares both judges.
"""
from collections import namedtuple
from itertools import chain, combinations

from second_judge import NO_REQUEST, SYMMETRIC, Trace, least_rule

# A line of the machine: the state at each agent, the open asks and the links (first clocks, the oldest first), and of a pending line
# the deferred request and whether another was seen to hold it.
Machine = namedtuple('Machine', 'states asks links pending')
SUITS = {'Read': 'I', 'Invalidate': 'IS', 'Upgrade': 'S', 'WriteBack': 'M'}


class Events:
    """The events of one line on the wires, in the samples of a trace."""

    def __init__(self, trace, line):
        self.trace, self.line, self.snooped, self.ended = trace, line, {}, {}
        self.begun = {k for k in trace.requests if self.names(k)}
        self.number = {k: i for i, k in enumerate(trace.live)}
        for i in range(len(trace.live)):
            k = self.origin(i)
            if k in self.begun and trace.snoop_end_of(i) is not None:
                self.snooped[trace.snoop_end_of(i)] = i, k
                if trace.end_of(i) is not None:
                    self.ended[trace.end_of(i)] = k
        self.failed = any(trace.outcome_of(i) == 'Failed' and self.origin(i) in self.begun for i in range(len(trace.live)))

    def names(self, k):
        request = self.trace.request_at(k)
        return (request != NO_REQUEST and request.kind != 'Reply' and self.trace.winner_at(k) in SYMMETRIC
                and self.trace.samples[k].a >> 2 == self.line)

    def agent(self, k):
        return self.trace.winner_at(k)

    def kind(self, k):
        return self.trace.request_at(k).kind

    def origin(self, i):
        """The first clock of the request that live request i is, or answers."""
        k = self.trace.live[i]
        if self.trace.request_at(k).kind != 'Reply':
            return k
        return next((other for other in self.trace.requests if self.trace.response_of_deferred(other) is not None
                     and self.trace.reply_clock_of(other) == k), None)

    def last_outstanding(self, k, t):
        return k <= t and (k == t or self.trace.is_outstanding(k, t))

    def is_bringing(self, a, t):
        """Bytes are under way to agent a at t, from the snoop end to the end, both included."""
        for s, (i, k) in self.snooped.items():
            kind, is_reply = self.kind(k), self.trace.request_of(i).kind == 'Reply'
            has_hitm, has_defer = (self.trace.has_at_snoop_end(i, line) for line in ('HITM', 'DEFER'))
            moves = is_reply or has_hitm or kind in ('Read', 'Invalidate') and not has_defer
            end = self.trace.end_of(i)
            if self.agent(k) == a and moves and s <= t and (end is None or t <= end):
                return True
        return False

    def is_upgrading(self, a, t):
        return any(self.agent(k) == a and self.kind(k) == 'Upgrade' and self.last_outstanding(k, t) for k in self.begun)


def put(states, a, state):
    return states[:a] + state + states[a + 1:]


def others(machine, a):
    return [machine.states[b] for b in SYMMETRIC if b != a]


def stores(machine, events, t):
    """Nobody stores, or the one that has the line Exclusive and awaits no link."""
    yield machine
    a = machine.states.find('E')
    if a >= 0 and all(events.agent(k) != a for k in machine.links):
        yield machine._replace(states=put(machine.states, a, 'M'))


def drops(machine, events, t):
    clean = [a for a in SYMMETRIC if machine.states[a] in 'SE' and not events.is_bringing(a, t) and not events.is_upgrading(a, t)]
    for dropping in chain.from_iterable(combinations(clean, count) for count in range(len(clean) + 1)):
        states = machine.states
        for a in dropping:
            states = put(states, a, 'I')
        yield machine._replace(states=states)


def begins(machine, events, t):
    if t not in events.begun:
        yield machine
        return
    a, kind = events.agent(t), events.kind(t)
    busy = [k for k in machine.asks + machine.links + machine.pending[:1] if events.agent(k) == a]
    is_outstanding = any(events.agent(k) == a and k < t and events.trace.is_outstanding(k, t) for k in events.begun)
    is_held_off = kind == 'WriteBack' and any(events.agent(k) != a for k in machine.asks)
    if not busy and not is_outstanding and not is_held_off and machine.states[a] in SUITS[kind]:
        yield machine._replace(asks=machine.asks + (t,))


def cancellations(machine, events, t):
    yield machine._replace(asks=tuple(k for k in machine.asks if k != t - 3 or not events.trace.is_cancelled(k)))


def fallen(machine, a, kind):
    """The states of the others behind the snoop end of a request of a."""
    fall = {'Read': {'S': 'S', 'E': 'S', 'M': 'S'}, 'WriteBack': {'S': 'S', 'E': 'E', 'M': 'M'}}.get(kind, {})
    return ''.join(state if b == a else fall.get(state, 'I') for b, state in enumerate(machine.states))


def snoop_ends(machine, events, t):
    if t not in events.snooped:
        yield machine
        return
    i, k = events.snooped[t]
    a, kind, trace = events.agent(k), events.kind(k), events.trace
    hit, hitm, defer = (trace.has(line, t) for line in ('HIT', 'HITM', 'DEFER'))
    if trace.request_of(i).kind == 'Reply':
        if machine.pending == (k, hit):
            state = 'M' if kind != 'Read' else 'S' if hit else 'E'
            yield machine._replace(states=put(machine.states, a, state), links=machine.links + (k,), pending=())
        return
    if machine.asks[:1] != (k,):
        return
    after = machine._replace(asks=machine.asks[1:], states=fallen(machine, a, kind))
    linked = after._replace(links=after.links + (k,))
    if kind == 'WriteBack':
        if machine.states[a] == 'M' and not hitm:
            yield linked._replace(states=put(after.states, a, 'I'))
        return
    is_owned, is_held = 'M' in others(machine, a), any(state != 'I' for state in others(machine, a))
    if hitm != is_owned or hit != (is_held and not is_owned):
        return
    if is_owned:
        yield linked._replace(states=put(after.states, a, 'S' if kind == 'Read' else 'M'))
    elif defer:
        outcome = trace.outcome_of(i)
        if outcome in (None, 'Retried'):
            yield after
        if outcome in (None, 'Deferred') and trace.request_at(k).den and not machine.pending:
            yield after._replace(pending=(k, hit))
    elif machine.pending:
        return
    elif kind == 'Upgrade':
        yield after if machine.states[a] == 'I' else linked._replace(states=put(after.states, a, 'M'))
    else:
        yield linked._replace(states=put(after.states, a, 'M' if kind == 'Invalidate' else 'S' if hit else 'E'))


def ends(machine, events, t):
    k = events.ended.get(t)
    if k in machine.links and machine.links[0] != k:
        return
    yield machine._replace(links=tuple(link for link in machine.links if link != k))


STEPS = stores, begins, cancellations, snoop_ends, ends, stores, drops


def broken_rule(trace, line, starts):
    """None where some course from one of these joint states has the events of the line that the trace shows, or where the line is
    spoiled. Else the rule of the event at which the courses that came furthest end."""
    events = Events(trace, line)
    if events.failed:
        return None
    length, seen = len(trace.samples) * len(STEPS), set()
    todo = [(0, Machine(start, (), (), ())) for start in starts]
    while todo:
        place, machine = todo.pop()
        if place == length:
            return None
        t, step = divmod(place, len(STEPS))
        for after in STEPS[step](machine, events, t):
            if (place + 1, after) not in seen:
                seen.add((place + 1, after))
                todo.append((place + 1, after))
    last = max(place for place, _ in seen)
    t, step = divmod(last, len(STEPS))
    machines = [machine for place, machine in seen if place == last]
    return rule_of_begin(events, t) if STEPS[step] is begins else rule_of_snoop(events, t, machines)


def rule_of_begin(events, t):
    a, kind = events.agent(t), events.kind(t)
    if any(events.agent(k) == a and k < t and events.trace.is_outstanding(k, t) for k in events.begun):
        return 21
    return {'WriteBack': 22, 'Upgrade': 23}.get(kind, 24)


def rule_of_snoop(events, t, machines):
    """The rule that a snoop end breaks at which these courses end. One that fits its answer is not given the line, since it is pending
    or is told Deferred."""
    i, k = events.snooped[t]
    a, kind, trace = events.agent(k), events.kind(k), events.trace
    hit, hitm = (trace.has(line, t) for line in ('HIT', 'HITM'))
    if trace.request_of(i).kind == 'Reply':
        return 30
    if kind == 'WriteBack':
        return 29
    owned = ['M' in others(machine, a) for machine in machines]
    held = [any(state != 'I' for state in others(machine, a)) for machine in machines]
    if any(hitm == is_owned and hit == (is_held and not is_owned) for is_owned, is_held in zip(owned, held)):
        return 31
    if hitm:
        return 25
    return 26 if all(owned) else 28 if hit else 27


def first_unexplained(marks, samples, *beginnings):
    """For each set of first joint states the first clock that no course explains, and the rule; and the first clock with a broken phase
    rule, up to which the trace is judged. None where there is none."""
    found = [None] * len(beginnings)
    for c in range(len(samples)):
        if None not in found or least_rule(marks, samples[:c + 1]) is not None:
            return found, None if None not in found else c
        trace = Trace(marks, samples[:c + 1])
        lines = {samples[k].a >> 2 for k in trace.requests if samples[k].a is not None}
        for place, starts in enumerate(beginnings):
            rules = [broken_rule(trace, line, starts) for line in lines] if found[place] is None else []
            if any(rules):
                found[place] = c, min(filter(None, rules))
    return found, None
