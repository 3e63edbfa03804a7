#!/usr/bin/env python3
"""A second judge of coherence, written from docs/ownership-rules.md, docs/phase-rules.md and docs/dump.md alone.

    second_coherence.py DUMP [--within]                 its verdict: `coherent clocks=N`, or `incoherent clock=C rule=J` with status 1
    second_coherence.py --trials [COUNT [SEED]]         tries the judge itself, on the rows and on twice COUNT (2,000) random traces
    second_coherence.py --program WORDS [COUNT [SEED]]  gives the same traces as dumps to a program, and compares its verdicts
    second_coherence.py --runs [COUNT [SEED]]           looks that COUNT (2,000) simulated runs of random bench files break no rule

The judge goes once over the samples. For each line it keeps the set of joint states, four letters each: agent 0 has the line
Shared in `SIII`. It judges rules 21 to 31 alone: the verdict means something where no phase rule is broken up to its clock.
`--within` begins with all 24 joint states, as of a trace that begins in traffic. The WORDS of a program may be
`crates/p6scope/out/p6scope coherence`. Its verdict is to be the first of all 31 rules, and a dump that it judges otherwise is kept.
"""
import collections
import os
import random
import re
import shlex
import subprocess
import sys
import tempfile
from functools import lru_cache

sys.dont_write_bytecode = True
from coherence_rows import all_rows, sample
from coherent_courses import first_unexplained
from dump_of_trace import dump
from random_benches import Form
from random_coherent import FAULTS, System, samples_of
from second_bench import Run
from second_dump import Marks, read_samples
from second_judge import (DEFERRED, HARD_FAILURE, IDLE, KINDS, NO_REQUEST, PRIORITY, REQUEST_LINES, RETRY, SYMMETRIC, Trace,
                          decode, verdict)
from second_reader import Reader

UNHELD = 'IIII'
SHARINGS = [''.join('S' if holders >> a & 1 else 'I' for a in SYMMETRIC) for holders in range(16)]
RESET = frozenset([UNHELD])
EVERY = frozenset(SHARINGS + [UNHELD[:a] + letter + UNHELD[a + 1:] for letter in 'EM' for a in SYMMETRIC])
LONGEST = 100  # the clocks of a run that is changed
# The states in which an agent may ask so, and the rule that is broken where it cannot be in one.
MAY_ASK = {'Read': 'I', 'Invalidate': 'IS', 'Upgrade': 'S', 'WriteBack': 'M'}
RULE_OF_KIND = {'Read': 24, 'Invalidate': 24, 'Upgrade': 23, 'WriteBack': 22}


class Request:
    """What is known of a request so far. A clock that has not come is None; of a reply, `asked` is the request that it answers."""

    def __init__(self, first, agent, line):
        self.first, self.agent, self.line, self.asked = first, agent, line, self
        self.kind = self.id = self.cancelled = self.snoop_end = self.outcome = self.response = self.end = self.reply = None
        self.hit = self.hitm = self.turned = False
        self.chunks = 0

    def moves_data(self):
        return self.outcome in ('Granted', 'Handed', 'Written', 'Replied')

    def brings_bytes(self):
        """From its snoop end on: its agent is to get the bytes of the line."""
        return self.kind == 'Reply' or self.kind != 'WriteBack' and (self.hitm or self.kind != 'Upgrade' and not self.turned)

    def last(self):
        """The last clock at which it is outstanding, or None."""
        if self.cancelled is not None:
            return self.cancelled
        if self.outcome == 'Deferred':
            return self.reply.end if self.reply else None
        return self.end

    def is_outstanding(self, c):
        return self.first < c and not is_below(self.last(), c)

    def awaits_snoop(self, c):
        return self.first < c and not is_below(self.cancelled, c) and not is_below(self.snoop_end, c)


def is_below(clock, c):
    return clock is not None and clock < c


class Wires:
    """Follows the requests sample by sample: `begun` was decoded at the last clock, `snooped` has its snoop end there, `answered` its
    response."""

    def __init__(self):
        self.samples, self.clock = collections.deque(maxlen=4), -1
        self.undecoded = self.begun = self.snooped = self.answered = None
        self.young, self.unsnooped, self.unanswered, self.moving, self.deferred = [], [], [], [], []
        self.last_begun, self.last_symmetric, self.last_snoop_end, self.due = None, 3, -9, None

    def had(self, line, back=0):
        return len(self.samples) > back and line in self.samples[-1 - back].asserted

    def feed(self, sample):
        self.samples.append(sample)
        self.clock += 1
        self.begun = self.decoded()
        self.cancel_or_let_live()
        self.snooped = self.snoop()
        self.answered = self.respond(sample.code)
        self.move()
        if 'ADS' in sample.asserted:
            self.begin(sample)

    def winner(self):
        asking = [agent for agent, line in REQUEST_LINES.items() if self.had(line, 2)]
        if self.had('LOCK', 2):
            return self.last_begun if self.last_begun in asking else None
        if PRIORITY in asking:
            return PRIORITY
        return min((agent for agent in asking), key=lambda agent: (agent - self.last_symmetric - 1) % 4, default=None)

    def begin(self, sample):
        agent = self.winner()
        self.last_begun = agent
        if agent in SYMMETRIC:
            self.last_symmetric = agent
        self.undecoded = Request(self.clock, agent, None if sample.a is None else sample.a >> 2)
        self.young.append(self.undecoded)

    def decoded(self):
        """The request that began in the clock before, where it names a line."""
        request, self.undecoded = self.undecoded, None
        if request is None:
            return None
        words = decode(self.samples[-2], self.samples[-1])
        request.kind, request.id = words.kind, words.id
        return request if words != NO_REQUEST and words.kind != 'Reply' and request.agent in SYMMETRIC else None

    def cancel_or_let_live(self):
        for request in [request for request in self.young if request.first == self.clock - 3]:
            self.young.remove(request)
            if self.had('AERR'):
                request.cancelled = self.clock
                continue
            self.unsnooped.append(request)
            self.unanswered.append(request)
            if request.kind == 'Reply':
                request.asked = next((asked for asked in self.deferred if asked.id == request.id and asked.reply is None
                                      and asked.response < request.first), None)
                if request.asked:
                    request.asked.reply = request

    def snoop(self):
        if not self.unsnooped:
            return None
        request = self.unsnooped[0]
        if self.due is None:
            self.due = max(request.first + 4, self.last_snoop_end + 3)
        if self.clock < self.due:
            return None
        if self.had('HIT') and self.had('HITM'):
            self.due += 2
            return None
        self.unsnooped.pop(0)
        request.snoop_end, self.last_snoop_end, self.due = self.clock, self.clock, None
        request.hit, request.hitm = self.had('HIT'), self.had('HITM')
        request.turned = self.had('DEFER') and not request.hitm
        return request

    def respond(self, code):
        if code == IDLE or not self.unanswered:
            return None
        request = self.unanswered.pop(0)
        by_kind = {'WriteBack': 'Written', 'Upgrade': 'Upgraded', 'Reply': 'Replied'}.get(request.kind, 'Granted')
        by_code = {RETRY: 'Retried', DEFERRED: 'Deferred'}.get(code, by_kind)
        request.outcome = 'Failed' if code == HARD_FAILURE else 'Handed' if request.hitm else by_code
        request.response = self.clock
        if request.moves_data():
            self.moving.append(request)
        else:
            request.end = self.clock
        if request.outcome == 'Deferred':
            self.deferred.append(request)
        return request

    def move(self):
        if self.moving and self.had('DRDY'):
            self.moving[0].chunks += 1
            if self.moving[0].chunks == 4:
                self.moving.pop(0).end = self.clock


# What an event leaves of the joint states, and what it turns each into.

def stored(joints, ready):
    """With the stores that agents of `ready` may have made into Exclusive copies."""
    return joints | {joint.replace('E', 'M') for joint in joints if joint.find('E') in ready}


@lru_cache(None)
def with_drops(joint, droppers):
    """What becomes of a joint state where each of the agents may have dropped a clean copy."""
    found = {joint}
    for a in droppers:
        if joint[a] in 'SE':
            found |= {other[:a] + 'I' + other[a + 1:] for other in found}
    return found


def dropped(joints, droppers):
    return frozenset(other for joint in joints for other in with_drops(joint, droppers))


def asked(joints, request):
    return frozenset(joint for joint in joints if joint[request.agent] in MAY_ASK[request.kind])


def has_other(joint, agent, letters):
    return any(joint[a] in letters for a in SYMMETRIC if a != agent)


def answered(joints, request):
    """Those that fit what the snoop end of the request shows. A reply shows nothing of what others hold."""
    if request.kind == 'Reply':
        return joints
    if request.kind == 'WriteBack':
        return frozenset(joint for joint in joints if joint[request.agent] == 'M')

    def fits(joint):
        is_owned = has_other(joint, request.agent, 'M')
        return request.hitm == is_owned and request.hit == (not is_owned and has_other(joint, request.agent, 'SE'))
    return frozenset(joint for joint in joints if fits(joint))


def own_state(request, state):
    """The state of the asker behind its snoop end."""
    kind, is_reply = request.asked.kind, request.kind == 'Reply'
    if kind == 'WriteBack':
        return 'I'
    if request.turned and not is_reply:
        return state
    if kind == 'Read':
        return 'S' if request.hit or request.hitm else 'E'
    return 'M' if kind == 'Invalidate' or request.hitm or state != 'I' else 'I'


def turned(joints, request):
    """What the snoop end turns the joint states into. A reply changes nothing at others."""
    agent, kind = request.asked.agent, request.kind

    def state(joint, a):
        if a == agent:
            return own_state(request, joint[a])
        return {'Read': 'I' if joint[a] == 'I' else 'S', 'Invalidate': 'I', 'Upgrade': 'I'}.get(kind, joint[a])
    return EVERY & {''.join(state(joint, a) for a in SYMMETRIC) for joint in joints}


class Line:
    """What is known of a line: its joint states before the last clock but one, and its requests that are not long over."""

    def __init__(self, joints):
        self.joints, self.requests, self.is_spoiled, self.snooped = joints, [], False, None

    def with_stores(self, joints, c):
        """An agent stores into a copy only in clocks after the end of its bytes."""
        waiting = {r.asked.agent for r in self.requests if is_below(r.snoop_end, c) and r.brings_bytes() and not is_below(r.end, c)}
        return stored(joints, [a for a in SYMMETRIC if a not in waiting])

    def with_drops(self, joints, c):
        """An agent keeps its copy from the snoop end to the end of what brings bytes, and as long as an upgrade is outstanding."""
        keeping = {r.asked.agent for r in self.requests
                   if is_below(r.snoop_end, c + 1) and r.brings_bytes() and not is_below(r.end, c)
                   or r.kind == 'Upgrade' and r.first <= c and not is_below(r.last(), c)}
        return dropped(joints, tuple(a for a in SYMMETRIC if a not in keeping))

    def forget(self, c):
        if all(is_below(r.last() if r.kind != 'Reply' else r.cancelled or r.end, c - 2) for r in self.requests):
            self.requests.clear()


class Judge:
    """Fed sample by sample, it gives the first clock with a broken rule, and the least rule there; None where there is none."""

    def __init__(self, first=RESET):
        self.wires, self.lines, self.first, self.found = Wires(), {}, first, None

    def feed(self, sample):
        self.wires.feed(sample)
        if self.found is None:
            broken = set(self.broken(self.wires, self.wires.clock))
            self.found = (self.wires.clock, min(broken)) if broken else None
        return self.found

    def line_of(self, request):
        if request is None or request.asked is None or request.asked.kind is None or request.asked.agent not in SYMMETRIC:
            return None
        if request.asked.line not in self.lines:
            self.lines[request.asked.line] = Line(self.first)
        return self.lines[request.asked.line]

    def broken(self, wires, c):
        """The rules that are broken at c. What the clock before shows is whole now: its request is decoded."""
        begun, failed = self.line_of(wires.begun), self.line_of(wires.answered)
        if failed and wires.answered.outcome == 'Failed':
            failed.is_spoiled = True
        if begun:
            yield from self.begun_at(begun, wires.begun, c - 1)
        for line in self.lines.values():
            yield from self.whole_clock(line, wires.begun if line is begun else None, c - 1)
        line = self.line_of(wires.snooped)
        if line:
            yield from self.snooped_at(line, wires.snooped, c)
        for line in {self.line_of(wires.snooped), self.line_of(wires.answered)} - {None}:
            if not line.is_spoiled and is_given_again(line.requests):
                yield 31

    def begun_at(self, line, request, q):
        """Rules 21 to 24 of a request that begins at q, but for what its agent has."""
        others = list(line.requests)
        line.requests.append(request)
        if line.is_spoiled:
            return
        if any(other.agent == request.agent and other.kind != 'Reply' and other.is_outstanding(q) for other in others):
            yield 21
        if request.kind == 'WriteBack' and any(
                other.agent != request.agent and other.kind != 'Reply' and other.awaits_snoop(q) for other in others):
            yield 22

    def whole_clock(self, line, begun, c):
        """Goes on by the clock c, at which `begun` begins."""
        joints = line.joints = line.with_stores(line.joints, c)
        if begun:
            joints = asked(joints, begun)
            if line.joints and not joints and not line.is_spoiled:
                yield RULE_OF_KIND[begun.kind]
        request, line.snooped = line.snooped, None
        if request:
            left = answered(joints, request)
            if not line.is_spoiled:
                yield from rules_of_answer(joints, left, request)
            joints = turned(left, request)
        line.joints = line.with_drops(joints, c)
        line.forget(c)

    def snooped_at(self, line, request, c):
        """The first look at a snoop end at c. A request that begins there is not decoded yet."""
        if request.kind == 'Reply':
            line.requests.append(request)
        line.snooped = request
        if line.is_spoiled:
            return
        if request.kind == 'Reply' and request.hit != request.asked.hit:
            yield 30
        joints = line.with_stores(line.joints, c)
        yield from rules_of_answer(joints, answered(joints, request), request)


def rules_of_answer(joints, left, request):
    """The rule that a snoop end breaks which leaves none of the joint states."""
    if left or not joints:
        return
    if request.kind == 'WriteBack':
        yield 29
    elif request.hitm:
        yield 25
    elif all(has_other(joint, request.agent, 'M') for joint in joints):
        yield 26
    else:
        yield 28 if request.hit else 27


def is_given_again(requests):
    """Rule 31: a Deferred request has not been answered, and a later one for its line is served or Deferred."""
    def is_given(i, j):
        answer = i.reply.snoop_end if i.reply else None
        return (is_below(i.snoop_end, j.snoop_end) and not is_below(answer, j.snoop_end)
                and (not (j.turned or j.hitm) or j.outcome == 'Deferred'))
    return any(is_given(i, j) for i in requests if i.outcome == 'Deferred'
               for j in requests if j.kind in ('Read', 'Invalidate', 'Upgrade') and j.snoop_end is not None)


def finding(samples, first=RESET):
    """The first clock and rule of 21 to 31, or None."""
    judge = Judge(first)
    for sample in samples:
        if judge.feed(sample):
            return judge.found
    return None


def verdict_of_all(marks, samples, first=0):
    """The first clock and rule of 1 to 31, or None. No phase rule is broken below the first clock."""
    rejected = re.match(r'rejected clock=(\d+) rule=(\d+)', verdict(marks, samples, first))
    check = (int(rejected[1]), int(rejected[2])) if rejected else None
    return finding(samples if check is None else samples[:check[0]]) or check


def verdict_of_program(words, path):
    """The clock and the rule that the program names, or None; or all that it says where its status does not fit that."""
    done = subprocess.run(shlex.split(words) + [path], capture_output=True, text=True)
    named = re.search(r'^rejected at clock (\d+),.*?rule (\d+)', done.stdout, re.M)
    if done.returncode == 0 and not named:
        return None
    if done.returncode == 1 and named:
        return int(named[1]), int(named[2])
    return f'{done.stdout}{done.stderr}status {done.returncode}'


def difference_to_program(words, lines, expected):
    """What the program says of a dump of these lines where it is not the expected verdict; the dump is kept then."""
    with tempfile.NamedTemporaryFile('w', suffix='.vcd', prefix='coherence.', delete=False) as dump_file:
        dump_file.writelines(line + '\n' for line in lines)
    said = verdict_of_program(words, dump_file.name)
    if said == expected:
        os.remove(dump_file.name)
        return None
    return f'{dump_file.name}: the program says {said}, the judges say {expected}'


def shown(found):
    return 'coherent' if found is None else 'clock=%d rule=%d' % found


def simulated(chance, longest=None):
    """The samples of a simulated run of a random bench file, of so many clocks at most."""
    plan = Reader(''.join(line + '\n' for line in Form(chance).text())).plan
    plan.clocks = min(plan.clocks, longest or plan.clocks)
    return [sample(*clock) for clock in Run(plan).trace]


def quiet_clocks(samples):
    """The clocks before which requests were made, and all of them are over, and behind which others are made."""
    wires, found = Wires(), []
    last = max((c for c, clock in enumerate(samples) if 'ADS' in clock.asserted), default=0)
    for c, clock in enumerate(samples):
        wires.feed(clock)
        is_busy = wires.young or wires.unsnooped or wires.unanswered or wires.moving
        if c < last - 2 and wires.last_snoop_end > 0 and not is_busy and all(r.reply and r.reply.end for r in wires.deferred):
            found.append(c + 1)
    return found


class Trials:
    """Compares the judge with the search for courses, or a program with the judges, and counts."""

    def __init__(self, program=None):
        self.program = program
        self.counts, self.first_rules = collections.Counter(), collections.Counter()

    def compare(self, name, marks, samples):
        """The finding must be the first clock that no course explains, up to the first broken phase rule, and the rule of the event at
        which the courses end. Where the trace begins with empty caches and where it may begin in traffic is counted apart."""
        self.counts['traces'] += 1
        self.counts['clocks'] += len(samples)
        if self.program:
            return self.compare_program(name, samples)
        unexplained, lawless = first_unexplained(marks, samples, RESET, EVERY)
        self.counts['with a broken phase rule'] += lawless is not None
        found = [finding(samples if lawless is None else samples[:lawless], first) for first in (RESET, EVERY)]
        for place, (mine, other) in enumerate(zip(found, unexplained)):
            self.first_rules[place, mine and mine[1]] += 1
            if mine != other:
                self.differ(f'{name}: the judge says {shown(mine)}, the courses {shown(other)}, beginning {place}')
        return found[0]

    def compare_program(self, name, samples):
        """The program must have the first of all 31 rules, without parity lines. An unknown word, which nobody reads, is written as 0."""
        mine = verdict_of_all(Marks(False, False), samples)
        clocks = [(clock.asserted, {'REQ': clock.req or 0, 'A': clock.a or 0, 'D': clock.d or 0}) for clock in samples]
        self.first_rules[0, mine and mine[1]] += 1
        difference = samples and difference_to_program(self.program, dump(clocks, 20), mine)
        if difference:
            self.differ(f'{name}, {difference}')
        return mine

    def differ(self, text):
        self.counts['differences'] += 1
        print(text, flush=True)

    def rows(self):
        for name, samples, is_within, expected in all_rows():
            self.counts['rows'] += 1
            found = finding(samples, EVERY if is_within else RESET)
            if found != expected:
                self.differ(f'{name}: the judge says {shown(found)}, the row {shown(expected)}')
            self.compare(name, Marks(False, False), samples)

    def system(self, seed, number):
        """A random system, coherent or not: a coherent one breaks no rule."""
        chance = random.Random(f'coherent {seed} {number}')
        fault = chance.choice(FAULTS) if number % 3 else None
        marks, samples = samples_of(System(chance, fault).samples)
        found = self.compare(f'system {number} of seed {seed}, {fault}', marks, samples)
        self.counts['coherent systems' if fault is None else 'faulty systems'] += 1
        if found and fault is None:
            self.differ(f'system {number} of seed {seed} is coherent: {shown(found)}')

    def changed_run(self, seed, number):
        """A simulated run with one thing changed: a line at a snoop end, or the kind or the line of a request."""
        chance = random.Random(f'changed {seed} {number}')
        samples = simulated(chance, LONGEST)
        trace = Trace(Marks(False, False), samples)
        ends = [trace.snoop_end_of(i) for i in range(len(trace.live)) if trace.snoop_end_of(i) is not None]
        requests = [k for k in trace.requests if trace.request_at(k).kind in RULE_OF_KIND]
        if not ends or not requests:
            return
        way, c, k = chance.choice(('HIT', 'HITM', 'DEFER', 'kind', 'line')), chance.choice(ends), chance.choice(requests)
        if way == 'kind':
            first, second = chance.choice(list(KINDS))
            samples[k], samples[k + 1] = samples[k]._replace(req=first | samples[k].req & 0b01000), samples[k + 1]._replace(req=second)
        elif way == 'line':
            samples[k] = samples[k]._replace(a=samples[k].a & 0b11 | samples[chance.choice(requests)].a & ~0b11)
        else:
            samples[c] = samples[c]._replace(asserted=samples[c].asserted ^ {way})
        self.counts['changed runs'] += 1
        self.compare(f'changed run {number} of seed {seed}, {way}', Marks(False, False), samples)

    def run(self, seed, number):
        """A simulated run is coherent, where it begins with empty caches and where it may begin in traffic; and every tenth time the
        clocks from a quiet one on, up to their first broken phase rule."""
        chance = random.Random(f'run {seed} {number}')
        samples = simulated(chance)
        self.counts['runs'] += 1
        self.counts['clocks'] += len(samples)
        for found in (finding(samples, RESET), finding(samples, EVERY)):
            if found:
                self.differ(f'run {number} of seed {seed}: {shown(found)}')
        quiet = quiet_clocks(samples) if number % 10 == 0 else []
        if quiet:
            first = chance.choice(quiet)
            rest = samples[first:first + 200]
            lawless = re.match(r'rejected clock=(\d+)', verdict(Marks(False, False), rest))
            self.counts['clocks from a quiet one on'] += len(rest)
            self.counts['with a broken phase rule'] += lawless is not None
            found = finding(rest[:int(lawless[1])] if lawless else rest, EVERY)
            if found:
                self.differ(f'run {number} of seed {seed} from clock {first} on: {shown(found)}')

    def table(self):
        self.counts['differences'] += 0
        print(' '.join(f'{name}={count}' for name, count in self.counts.items()))
        for rule in (None, *range(1, 32)) if self.counts['traces'] else ():
            counts = [self.first_rules[place, rule] for place in (0, 1)]
            if any(counts):
                print(f'{"coherent" if rule is None else f"rule {rule}":10}{counts[0]:8}{counts[1]:8}')
        return int(self.counts['differences'] > 0)


def trials(count=2000, seed=1, program=None):
    trial = Trials(program)
    trial.rows()
    for number in range(int(count)):
        trial.system(seed, number)
        trial.changed_run(seed, number)
    return trial.table()


def runs(count=2000, seed=1):
    trial = Trials()
    for number in range(int(count)):
        trial.run(seed, number)
    return trial.table()


def status_and_line(path, first):
    with open(path, 'rb') as source:
        _, samples = read_samples(source.read())
    found = finding(samples, first)
    return (0, f'coherent clocks={len(samples)}') if found is None else (1, 'incoherent ' + shown(found))


def main(words):
    sys.setrecursionlimit(100000)
    if words[:1] == ['--program'] and 2 <= len(words) <= 4:
        return trials(*words[2:], program=words[1])
    if words[:1] in (['--trials'], ['--runs']) and len(words) <= 3:
        return (trials if words[0] == '--trials' else runs)(*words[1:])
    if words[1:] not in ([], ['--within']) or words[:1] == [] or words[0].startswith('--'):
        sys.exit(__doc__)
    status, line = status_and_line(words[0], EVERY if words[1:] else RESET)
    print(line)
    return status


if __name__ == '__main__':
    sys.exit(main(sys.argv[1:]))
