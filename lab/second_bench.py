#!/usr/bin/env python3
"""A second simulator of the bus, written from the documents alone: phase-rules.md and dump.md of docs/,
bench-file.md, dump-format.md and commands.md of docs/reference/, bus.md and agents.md of docs/proof/.

    second_bench.py BENCH [TRACE]                       the log as `p6bench run` prints it; the waveform into the file TRACE
    second_bench.py --gen SEED AGENTS ITEMS             the summary as `p6bench gen` prints it
    second_bench.py --plan SEED AGENTS ITEMS            the bench file that a seed makes
    second_bench.py --stored                            the stored runs of crates/rows_benches/data, log and waveform
    second_bench.py --random SEED COUNT [--program P]   so many random bench files, by the built program too

A waveform stands clock by clock: the clock, the asserted control lines or `-`, and the words that are not 0, as REQ=, A= and
D= in hexadecimal. A file that is no bench file is refused by `bench line N: CAUSE`, with status 3. The simulator is slow and
plain: an agent's bytes are not kept at all, since the documents say that each load and each chunk has what one flat memory
would have.
"""
import collections
import os
import random
import subprocess
import sys
import tempfile

sys.dont_write_bytecode = True
from common import TOP, built_program
from dump_of_trace import dump
from edge_benches import edge_benches
from random_benches import random_bench
from second_reader import BadLine, DEFER, KEEP, NO_HAZARD, RETRY, Reader

CONTROL_LINES = ('BREQ0 BREQ1 BREQ2 BREQ3 BPRI LOCK BNR ADS AERR HIT HITM DEFER RS0 RS1 RS2 TRDY DBSY DRDY AP0 AP1 RP').split()
BRIDGE = 'bridge'
MODIFIED, EXCLUSIVE, SHARED = 'Modified', 'Exclusive', 'Shared'
READ, INVALIDATE, WRITE_BACK, UPGRADE, REPLY = 'Read', 'Invalidate', 'WriteBack', 'Upgrade', 'Reply'
HANDED, RETRIED, DEFERRED, WRITTEN, UPGRADED, REPLIED, GRANTED = (
    'Handed', 'Retried', 'Deferred', 'Written', 'Upgraded', 'Replied', 'Granted')
# The lines of RS# that an outcome has, from the codes of the response.
CODES = {HANDED: ('RS2', 'RS1'), RETRIED: ('RS0',), DEFERRED: ('RS1',), WRITTEN: ('RS2', 'RS0'), UPGRADED: ('RS2', 'RS0'),
         REPLIED: ('RS2', 'RS1', 'RS0'), GRANTED: ('RS2', 'RS1', 'RS0')}
MOVING = (HANDED, WRITTEN, REPLIED, GRANTED)
# The first word on REQ, without the bit of a high address, and the second one.
REQUEST_CODES = {READ: (0b00110, 0b00010), INVALIDATE: (0b00010, 0b00010), WRITE_BACK: (0b00101, 0b00010),
                 UPGRADE: (0b00010, 0b00000), REPLY: (0b00000, 0b00000)}
Want = collections.namedtuple('Want', 'kind line chunk is_locked den')


class Request:
    """A request of the run. A clock or an outcome that is not known yet is None."""

    def __init__(self, number, first, agent, want, id, hazard, answered=None):
        self.number, self.first, self.agent, self.id, self.hazard = number, first, agent, id, hazard
        self.kind, self.line, self.chunk, self.is_locked, self.den = want
        self.answered, self.reply = answered, None  # of a reply, its deferred request; of that one, the reply
        self.snoop_end = self.outcome = self.ready = self.response = self.end = None
        self.turn, self.has_hit, self.is_grant = (KEEP, 0), False, False

    def pairs(self):
        """The words on REQ and A of the two clocks."""
        first, second = REQUEST_CODES[self.kind]
        if self.kind == REPLY:
            return (first, self.id << 13), (second, 0)
        return (first | 0b01000 * (self.line >= 1 << 27), self.line << 2 | self.chunk), (second, self.id << 13 | self.den << 1)

    def moves_data(self):
        return self.outcome in MOVING

    def takes(self):
        return self.outcome in (HANDED, WRITTEN)

    def gap(self):
        return 1 + self.hazard.data


class Agent:
    """What an agent holds, and its place in its script. `ends` has the end of the latest grant of each line."""

    def __init__(self, number, script):
        self.number, self.script, self.states, self.ends = number, script, {}, {}
        self.outstanding, self.loaded, self.has_lock, self.began = [], 0, False, None
        self.completed = self.releases = False  # of this clock alone
        self.place, self.idles_to = -1, -1
        self.go_on(-1)

    def go_on(self, c):
        """The next item, behind a completion at c or before the first clock."""
        self.place, idle = self.place + 1, 0
        while self.place < len(self.script) and not self.script[self.place].accesses:
            idle += self.script[self.place].clocks
            self.place += 1
        self.idles_to = c + idle
        self.item = self.script[self.place] if self.place < len(self.script) else None

    def has(self, line, alone):
        state = self.states.get(line)
        return state in (MODIFIED, EXCLUSIVE) if alone else state is not None

    def has_ready(self, line, alone, c):
        return self.has(line, alone) and self.ends[line] < c

    def is_idling(self, c):
        return c <= self.idles_to

    def window(self, ahead):
        yield self.item
        for item in self.script[self.place + 1:self.place + ahead] if not self.item.is_locked else ():
            if item.is_locked or not item.accesses:
                return
            yield item


class Run:
    """A run of a plan: `log` has its lines, `trace` the lines and words of each clock."""

    def __init__(self, plan):
        self.plan, self.memory = plan, dict(plan.memory)
        self.agents = [Agent(number, script) for number, script in enumerate(plan.scripts)]
        self.log, self.trace, self.requests = [], [], []
        self.in_flight, self.unsnooped, self.deferrals, self.pending = [], [], [], set()
        self.last_agent, self.last_symmetric, self.last_first = None, 3, -9
        self.last_snoop_end, self.last_end = -9, -9
        for c in range(plan.clocks):
            self.step(c)
        accesses = sum(len(item.accesses) for script in plan.scripts for item in script)
        self.last_line = f'end clocks={plan.clocks} done={len(self.log)} of={accesses}'

    def step(self, c):
        self.lines, self.req, self.a, self.d = set(), 0, 0, 0
        for request in self.in_flight:
            if request.response == c and request.moves_data():
                request.bytes = self.line_bytes(request.line)
        for agent in self.agents:
            agent.completed = agent.releases = False
            self.hit(agent, c)
        self.ask_and_begin(c)
        cancelled = next((request for request in self.in_flight if request.first == c - 3 and request.hazard.aerr), None)
        if cancelled is not None:
            self.lines.add('AERR')
            self.unsnooped.remove(cancelled)
        if any(agent.has_lock for agent in self.agents):
            self.lines.add('LOCK')
        snooped = self.snoop(c)
        for request in self.in_flight:
            self.respond(request, c)
        if self.plan.profile == 2:
            self.drive_parity()
        self.trace.append((self.lines, self.req, self.a, self.d))
        if snooped is not None:
            self.settle(snooped, c)
        self.drop_victim(c)
        self.end_clock(cancelled, c)

    # Accesses and their values.

    def value_at(self, address, size):
        return sum(self.memory.get(address + place, 0) << 8 * place for place in range(size))

    def line_bytes(self, line):
        return [self.value_at(32 * line + 8 * chunk, 8) for chunk in range(4)]

    def complete(self, agent, c):
        for access in agent.item.accesses:
            value = access.value
            if access.is_store:
                if access.is_relative:
                    value = (agent.loaded + value) % (1 << 8 * access.size)
                for place in range(access.size):
                    self.memory[access.address + place] = value >> 8 * place & 0xff
                if agent.states.get(access.address >> 5) == EXCLUSIVE:
                    agent.states[access.address >> 5] = MODIFIED
            else:
                value = agent.loaded = self.value_at(access.address, access.size)
            word = 'st' if access.is_store else 'ld'
            self.log.append(f'{c} {agent.number} {agent.place} {word} {access.size} {access.address:x} = {value:x}')
        agent.completed = True
        agent.releases |= agent.item.is_locked

    def hit(self, agent, c):
        item = agent.item
        if item is not None and not agent.is_idling(c) and all(
                agent.has_ready(line, item.needs_alone, c) for line in item.chunks):
            self.complete(agent, c)

    def arrive(self, agent, line, kind, c):
        item = agent.item
        if (item is None or agent.is_idling(c) or agent.completed or line not in item.chunks
                or kind == READ and item.needs_alone):
            return
        if all(agent.has_ready(other, item.needs_alone, c) for other in item.chunks if other != line):
            self.complete(agent, c)

    # Wants, arbitration and beginning.

    def want_of(self, agent, c):
        if agent.item is None or agent.is_idling(c) or len(agent.outstanding) >= self.plan.ahead:
            return None
        taken = {request.line % self.plan.cache for request in agent.outstanding}
        for item in agent.window(self.plan.ahead):
            for line, chunk in item.chunks.items():
                if not agent.has(line, item.needs_alone) and line % self.plan.cache not in taken:
                    return self.want_for(agent, item, line, chunk)
            taken |= {line % self.plan.cache for line in item.chunks}
        return None

    def want_for(self, agent, item, line, chunk):
        for victim in sorted(agent.states):
            if victim != line and victim % self.plan.cache == line % self.plan.cache and agent.states[victim] == MODIFIED:
                return Want(WRITE_BACK, victim, 0, False, False)
        if not item.needs_alone:
            kind = READ
        else:
            kind = UPGRADE if self.plan.profile == 2 and agent.has(line, False) else INVALIDATE
        return Want(kind, line, chunk, item.is_locked, kind != UPGRADE and not item.is_locked)

    def due_at(self, c):
        """The oldest deferral that is due, or None."""
        return next((request for request in self.deferrals if request.response is not None and request.reply is None
                     and c >= request.response + 1 + request.turn[1]), None)

    def winner_at(self, c):
        lines = self.trace[c - 2][0] if c >= 2 else ()
        if 'LOCK' in lines:
            line = 'BPRI' if self.last_agent == BRIDGE else f'BREQ{self.last_agent}'
            return self.last_agent if line in lines else None
        if 'BPRI' in lines:
            return BRIDGE
        turns = [(self.last_symmetric + turn) % 4 for turn in (1, 2, 3, 4)]
        return next((number for number in turns if f'BREQ{number}' in lines), None)

    def is_held_back(self, number, want):
        return want.kind == WRITE_BACK and any(
            request.agent != number and request.kind != REPLY and request.line == want.line and request.snoop_end is None
            for request in self.in_flight)

    def ask_and_begin(self, c):
        wants = {agent.number: self.want_of(agent, c) for agent in self.agents}
        due = self.due_at(c)
        for number, want in wants.items():
            if want is not None and not (self.last_agent == number and self.last_first == c - 1):
                self.lines.add(f'BREQ{number}')
        if due is not None and not (self.last_agent == BRIDGE and self.last_first == c - 1):
            self.lines.add('BPRI')
        if any(first <= c <= last for first, last in self.plan.holds):
            self.lines.add('BNR')
        if self.last_first == c - 1:
            self.req, self.a = self.requests[-1].pairs()[1]
        winner = self.winner_at(c)
        self.begun = None
        if (winner is None or c - self.last_first < 3 or len(self.in_flight) > 7 or 'BNR' in self.trace[c - 2][0]
                or winner != BRIDGE and self.is_held_back(winner, wants[winner])):
            return
        self.begin(winner, due, wants.get(winner), c)

    def begin(self, winner, due, want, c):
        number = len(self.requests)
        hazard = self.plan.hazards.get(number, NO_HAZARD)
        if winner == BRIDGE:
            request = Request(number, c, BRIDGE, Want(REPLY, due.line, due.chunk, False, False), due.id, hazard, due)
            due.reply = request
        else:
            agent = self.agents[winner]
            ids = {other.id for other in agent.outstanding}
            id = next(id for id in range(winner << 4, winner + 1 << 4) if id not in ids)
            request = Request(number, c, winner, want, id, hazard)
            agent.outstanding.append(request)
            agent.has_lock |= request.is_locked
            self.last_symmetric = winner
        self.begun, self.last_agent, self.last_first = request, winner, c
        for requests in (self.requests, self.in_flight, self.unsnooped):
            requests.append(request)
        self.lines.add('ADS')
        self.req, self.a = request.pairs()[0]

    # Snoops and what they settle.

    def snoop(self, c):
        """Drives the snoop lines, and gives the request that has its snoop end at c, if there is one."""
        if not self.unsnooped:
            return None
        request = self.unsnooped[0]
        since = c - max(request.first + 4, self.last_snoop_end + 3)
        if since < 0 or since % 2 != 0:
            return None
        if since // 2 < request.hazard.stall:
            self.lines |= {'HIT', 'HITM'}
            return None
        self.unsnooped.pop(0)
        has_modified, request.has_hit = self.answer_to(request)
        request.turn = self.effective_turn(request)
        self.lines |= {line for line, is_asserted in (('HITM', has_modified), ('HIT', request.has_hit),
                                                      ('DEFER', request.turn[0] != KEEP)) if is_asserted}
        request.snoop_end = self.last_snoop_end = c
        request.outcome = self.outcome_of(request, has_modified)
        self.time_answer(request, c)
        return request

    def answer_to(self, request):
        """Whether HITM# and HIT# are there at the snoop end."""
        if request.kind == REPLY:
            return False, request.answered.has_hit
        states = [agent.states.get(request.line) for agent in self.agents if agent.number != request.agent]
        return MODIFIED in states, MODIFIED not in states and any(states)

    def effective_turn(self, request):
        if request.kind in (WRITE_BACK, REPLY):
            return KEEP, 0
        if request.line in self.pending:
            return RETRY, 0
        base, size = self.plan.bridge or (0, 0)
        if request.hazard.turn[0] == DEFER and not (request.den and base <= 32 * request.line < base + size):
            return KEEP, 0
        return request.hazard.turn

    def outcome_of(self, request, has_modified):
        if has_modified:
            return HANDED
        if request.turn[0] != KEEP:
            return RETRIED if request.turn[0] == RETRY else DEFERRED
        return {WRITE_BACK: WRITTEN, UPGRADE: UPGRADED, REPLY: REPLIED}.get(request.kind, GRANTED)

    def time_answer(self, request, c):
        clock = max(c + 2, self.last_end + 1)
        if request.takes():
            request.ready = clock + request.hazard.trdy
            clock = request.ready + 2
        request.response = clock + request.hazard.resp
        request.end = self.last_end = request.response + 3 * request.gap() * request.moves_data()

    def respond(self, request, c):
        if request.ready == c:
            self.lines.add('TRDY')
        if request.response is None or not request.response <= c <= request.end:
            return
        if request.response == c:
            self.lines |= set(CODES[request.outcome])
        if request.moves_data():
            place, rest = divmod(c - request.response, request.gap())
            if rest == 0:
                self.lines.add('DRDY')
                self.d = request.bytes[request.chunk ^ place]
            if c < request.end:
                self.lines.add('DBSY')

    def drive_parity(self):
        groups = {'AP0': self.a & (1 << 21) - 1, 'AP1': self.a >> 21, 'RP': self.req << 1 | ('ADS' in self.lines)}
        self.lines |= {line for line, bits in groups.items() if bin(bits).count('1') % 2 == 1}

    def settle(self, request, c):
        """What a snoop end at c changes of the states, from the next clock on."""
        line, granted = request.line, request.answered or request
        if request.kind in (READ, INVALIDATE, UPGRADE):
            for agent in self.agents:
                if agent.number != request.agent and line in agent.states:
                    self.give_up(agent, request)
        if request.outcome == DEFERRED:
            self.pending.add(line)
            self.deferrals.append(request)
        if request.kind == REPLY:
            self.pending.discard(line)
        owner = self.agents[granted.agent]
        if request.kind == WRITE_BACK:
            owner.states.pop(line, None)
        if request.outcome in (HANDED, GRANTED, REPLIED) or request.outcome == UPGRADED and self.is_won(owner, line):
            is_shared = not self.lines.isdisjoint(('HIT', 'HITM'))
            owner.states[line] = self.granted_state(granted.kind, is_shared)
            owner.ends[line] = request.end
            request.is_grant = True

    def give_up(self, agent, request):
        """The agent's state behind the snoop end of another's request for a line that it holds."""
        if request.kind == READ:
            agent.states[request.line] = SHARED
        else:
            del agent.states[request.line]

    def is_won(self, agent, line):
        """The upgrade of the agent came in time: it still holds the line."""
        return line in agent.states

    def granted_state(self, kind, is_shared):
        return MODIFIED if kind != READ else SHARED if is_shared else EXCLUSIVE

    def drop_victim(self, c):
        request = self.begun
        if request is not None and request.kind in (READ, INVALIDATE, UPGRADE):
            states = self.agents[request.agent].states
            for line in [line for line in states if line % self.plan.cache == request.line % self.plan.cache]:
                if line != request.line:
                    del states[line]

    def end_clock(self, cancelled, c):
        for request in [request for request in self.in_flight if request.end == c or request is cancelled]:
            self.in_flight.remove(request)
            owned = request.answered or request
            agent = self.agents[owned.agent]
            if request.is_grant:
                self.arrive(agent, request.line, owned.kind, c)
            agent.releases |= request.is_locked and (request is cancelled or request.outcome == RETRIED)
            if request is cancelled and request.kind == REPLY:
                owned.reply = None
            elif request.outcome != DEFERRED:
                agent.outstanding.remove(owned)
                if request.kind == REPLY:
                    self.deferrals.remove(owned)
        for agent in self.agents:
            agent.has_lock &= not agent.releases
            if agent.completed:
                agent.go_on(c)

    # What is printed.

    def log_lines(self):
        return self.log + [self.last_line]

    def trace_lines(self):
        return [trace_line(c, *sample) for c, sample in enumerate(self.trace)]

    def dump_lines(self):
        """The lines of the dump of the waveform."""
        clocks = [(lines, {'REQ': req, 'A': a, 'D': d}) for lines, req, a, d in self.trace]
        return list(dump(clocks, 22 if self.plan.profile == 2 else 20))

    def bus_line(self):
        kinds = collections.Counter(request.kind for request in self.requests if request.first + 1 < self.plan.clocks)
        return (f'bus requests={sum(kinds.values())} reads={kinds[READ]} invalidates={kinds[INVALIDATE]} '
                f'writebacks={kinds[WRITE_BACK]} replies={kinds[REPLY]}')


def trace_line(c, lines, req, a, d):
    words = [f'{name}={value:x}' for name, value in (('REQ', req), ('A', a), ('D', d)) if value]
    return ' '.join([str(c)] + ([line for line in CONTROL_LINES if line in lines] or ['-']) + words)


class Draws:
    """The numbers of the generator, one behind the other."""

    def __init__(self, state):
        self.state = state % (1 << 64)

    def below(self, bound):
        self.state = (self.state * 6364136223846793005 + 1442695040888963407) % (1 << 64)
        return (self.state >> 33) % bound


def seeded_item(draws):
    """The lines of one item."""
    kind = draws.below(16)
    if kind < 13:
        size = 1 << draws.below(4)
        address = 32 * draws.below(64)
        address += size * draws.below(32 // size)
        return [f'ld {size} {address:x}' if kind < 7 else f'st {size} {address:x} {draws.below(256):x}']
    return [f'idle {1 + draws.below(8)}'] if kind == 13 else ['lock', 'ld 1 0', 'st 1 0 r+1', 'unlock']


def seeded_bench(seed, agents, items):
    """The bench file that a seed makes."""
    draws = Draws(seed)
    lines = ['p6bench 1', f'agents {agents}', f'clocks {min(200000, 40 * agents * items)}', 'cache 16', 'ahead 1', 'bridge 600 200']
    for agent in range(agents):
        lines += [f'agent {agent}'] + [line for _ in range(items) for line in seeded_item(draws)] + ['end']
    hazards = 'stall 1', 'retry', 'defer 5', 'aerr', 'resp 2', 'trdy 1', 'data 1'
    for number in range(min(agents * items, 4096)):
        place = Draws(seed + number).below(16)
        lines += [f'tx {number} {hazards[place]}'] if place < len(hazards) else []
    return ''.join(line + '\n' for line in lines)


def summary(seed, agents, items):
    run = Run(Reader(seeded_bench(seed, agents, items)).plan)
    return [f'gen seed={seed} agents={agents} items={items}', run.last_line, run.bus_line()]


def answer_of(text):
    """The status, the lines of standard output, the one of standard error, and the run, None where there is none."""
    if len(text) > 4194304:
        return 9, [], ['too long'], None
    try:
        run = Run(Reader(text).plan)
    except BadLine as bad:
        return 3, [], ['bench line %d: %s' % bad.args], None
    return 0, run.log_lines(), [], run


def difference(mine, other):
    """The first place at which two lists of lines differ, or None."""
    for place in range(max(len(mine), len(other))):
        pair = [lines[place] if place < len(lines) else '(nothing)' for lines in (mine, other)]
        if pair[0] != pair[1]:
            return 'here %s, there %s' % tuple(pair)
    return None


def lines_of(path):
    with open(path) as source:
        return source.read().splitlines()


def read_text(path):
    with open(path, encoding='latin-1', newline='') as source:
        return source.read()


def stored_runs():
    """Compares with the stored runs, and gives whether all are alike."""
    folder = os.path.join(TOP, 'crates/rows_benches/data')
    names = sorted(name[:-6] for name in os.listdir(folder) if name.endswith('.bench'))
    different = 0
    for name in names:
        path = os.path.join(folder, name)
        _, log, refusal, run = answer_of(read_text(path + '.bench'))
        found = difference(refusal + log, lines_of(path + '.log')) or difference(run.trace_lines() if run else [], lines_of(path + '.trace'))
        if found:
            different += 1
            print(f'{name}: {found}')
    print(f'stored runs={len(names)} different={different}')
    return different == 0


def lines_in(text):
    """The lines of a text, each of which is to end with a line feed."""
    lines = text.split('\n')
    return lines[:-1] + [line + ' without a line feed' for line in lines[-1:] if line]


def answer_of_program(program, bench, written):
    if os.path.exists(written):
        os.remove(written)
    done = subprocess.run([program, 'run', bench, written], capture_output=True)
    texts = [lines_in(text.decode('latin-1')) for text in (done.stdout, done.stderr)]
    return done.returncode, *texts, lines_in(read_text(written)) if os.path.exists(written) else []


def compare_one(program, text, folder):
    """What differs in the two answers to a bench file, the dumps among them, or None, and this simulator's answer."""
    bench, written = os.path.join(folder, 'random.bench'), os.path.join(folder, 'random.vcd')
    with open(bench, 'w', encoding='latin-1', newline='') as out:
        out.write(text)
    mine, other = answer_of(text), answer_of_program(program, bench, written)
    parts = [(['status %d' % mine[0]], ['status %d' % other[0]]), (mine[1], other[1]), (mine[2], other[2]),
             (mine[3].dump_lines() if mine[3] else [], other[3])]
    return next((found for found in (difference(*part) for part in parts) if found), None), mine


def compare_seed(program, chance, folder):
    """What differs in the summaries of a random seed, or in the runs of its plan as a bench file, or None."""
    seed, agents, items = chance.getrandbits(chance.choice((3, 64))), chance.randint(1, 4), chance.choice((1, 2, 5, 20, 20, 60))
    done = subprocess.run([program, 'gen', str(seed), str(agents), str(items)], capture_output=True, text=True)
    found = (difference(summary(seed, agents, items), done.stdout.splitlines())
             or compare_one(program, seeded_bench(seed, agents, items), folder)[0])
    return found and f'gen {seed} {agents} {items}: {found}'


def random_runs(seed, count, program):
    """Compares random bench files, prints each difference and one line of counts, and gives whether all are alike."""
    counts = collections.Counter()
    with tempfile.TemporaryDirectory() as folder:
        for number, text in enumerate(edge_benches()):
            found, _ = compare_one(program, text, folder)
            if found:
                print(f'edge {number}: {found}', flush=True)
                counts['different'] += 1
            counts['edges'] += 1
        for number in range(count):
            chance = random.Random(f'{seed} {number}')
            text = random_bench(chance)
            found, (status, log, _, run) = compare_one(program, text, folder)
            if number % 20 == 0 and not found:
                found = compare_seed(program, chance, folder)
                counts['seeds'] += 1
            if found:
                print(f'file {number} of seed {seed}: {found}', flush=True)
                counts['different'] += 1
            counts.update({'refused': status == 3, 'clocks': len(run.trace) if run else 0, 'accesses': max(0, len(log) - 1)})
    print(f'edges={counts["edges"]} random files={count} refused={counts["refused"]} clocks={counts["clocks"]} '
          f'accesses={counts["accesses"]} seeds={counts["seeds"]} different={counts["different"]}')
    return counts['different'] == 0


def main(words):
    if words == ['--stored']:
        return int(not stored_runs())
    if len(words) == 4 and words[0] in ('--gen', '--plan'):
        seed, agents, items = map(int, words[1:])
        print('\n'.join(summary(seed, agents, items)) if words[0] == '--gen' else seeded_bench(seed, agents, items).rstrip('\n'))
        return 0
    if len(words) in (3, 5) and words[0] == '--random' and words[3:4] in ([], ['--program']):
        return int(not random_runs(words[1], int(words[2]), built_program(*words[4:])))
    if len(words) not in (1, 2) or words[0].startswith('-'):
        sys.exit(__doc__)
    status, log, refusal, run = answer_of(read_text(words[0]))
    for lines, out in ((log, sys.stdout), (refusal, sys.stderr)):
        out.writelines(line + '\n' for line in lines)
    if run is not None and len(words) == 2:
        with open(words[1], 'w') as out:
            out.writelines(line + '\n' for line in run.trace_lines())
    return status


if __name__ == '__main__':
    sys.exit(main(sys.argv[1:]))
