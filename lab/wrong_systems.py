#!/usr/bin/env python3
"""Plants faults in the agents of a simulator, and counts which of them the wires show to which judge.

    wrong_systems.py [COUNT [SEED [--courses] [--program WORDS]]]

Each fault is planted in run_with_bytes.py, and run over COUNT (300) random bench files. Runs whose wires are those of the right
simulator are left out: the fault was never met. Of the others the table has how many there are, in how many of them a load gets a
value that no one memory has, and the share that is found: by the phase rules (`check`), by the bytes on the bus (`audit`), by either,
by rules 21 to 31 up to the first broken phase rule, and by all. Which of these rules was the first one stands behind. The right
simulator stands in the first row. The judges are those in Python.

With --courses the search of coherent_courses.py must come to the same clock and rule. It takes eight times as long. With --program each
dump is judged by a program too, as by `--program "crates/p6scope/out/p6scope coherence"`. Each verdict that is another is printed,
and its dump is kept; the status is 1 then, or where the right simulator has a finding.
"""
import collections
import random
import re
import sys

sys.dont_write_bytecode = True
from coherence_rows import sample
from coherent_courses import first_unexplained
from random_benches import Form
from run_with_bytes import RunWithBytes, is_log_right
from second_bench import EXCLUSIVE, INVALIDATE, KEEP, MODIFIED, READ, REPLY, SHARED, UPGRADE, WRITE_BACK, Want
from second_coherence import difference_to_program, finding
from second_dump import Marks
from second_judge import Trace, verdict
from second_look import foul_chunk
from second_reader import Reader

LONGEST = 160
WRONG = 'all faults, where a load got a wrong value'


class SilentOwner(RunWithBytes):
    """an owner asserts nothing, and memory answers"""
    def answer_to(self, request):
        has_modified, has_hit = super().answer_to(request)
        return False, has_hit


class OwnerSaysHit(RunWithBytes):
    """an owner asserts HIT# in place of HITM#"""
    def answer_to(self, request):
        has_modified, has_hit = super().answer_to(request)
        return False, has_hit or has_modified


class OwnerWithoutBytes(RunWithBytes):
    """an owner asserts nothing while its bytes are to come"""
    def answer_to(self, request):
        has_modified, has_hit = super().answer_to(request)
        owner = self.owner_of(request)
        grant = owner and self.grants.get((owner.number, request.line))
        return has_modified and not (grant and grant.end >= len(self.trace)), has_hit


class SilentHolder(RunWithBytes):
    """a holder never asserts HIT#"""
    def answer_to(self, request):
        return super().answer_to(request)[0], request.kind == REPLY and super().answer_to(request)[1]


class LateHolder(RunWithBytes):
    """a holder asserts no HIT# while its bytes are to come"""
    def answer_to(self, request):
        has_modified, has_hit = super().answer_to(request)
        if request.kind == REPLY or not has_hit:
            return has_modified, has_hit
        return has_modified, any((agent.number, request.line) in self.copies for agent in self.agents if agent.number != request.agent)


class TagWithoutLine(RunWithBytes):
    """an agent asserts HIT# for a line that it has lost"""
    def answer_to(self, request):
        has_modified, has_hit = super().answer_to(request)
        had = any(request.line in agent.ends for agent in self.agents if agent.number != request.agent)
        return has_modified, has_hit if request.kind in (REPLY, WRITE_BACK) else not has_modified and had


class CleanOwner(RunWithBytes):
    """an agent asserts HITM# for a line that it has Exclusive and clean"""
    def answer_to(self, request):
        owner = self.owner_of(request)
        return (True, False) if owner and request.kind != REPLY else super().answer_to(request)

    def owner_of(self, request):
        return next((agent for agent in self.agents if agent.number != request.agent
                     and agent.states.get(request.line) in (MODIFIED, EXCLUSIVE)), None)


class ReplyWithoutHit(RunWithBytes):
    """a reply never has HIT#"""
    def answer_to(self, request):
        return (False, False) if request.kind == REPLY else super().answer_to(request)


class CleanWriteBack(RunWithBytes):
    """a line that was only read is written back"""
    states_written = MODIFIED, EXCLUSIVE, SHARED

    def want_for(self, agent, item, line, chunk):
        for victim in sorted(agent.states):
            if victim != line and (victim - line) % self.plan.cache == 0 and agent.states[victim] in self.states_written:
                return Want(WRITE_BACK, victim, 0, False, False)
        return super().want_for(agent, item, line, chunk)


class DirtyDropped(CleanWriteBack):
    """a Modified line is dropped, and not written back"""
    def want_for(self, agent, item, line, chunk):
        want = super(CleanWriteBack, self).want_for(agent, item, line, chunk)
        if want.kind != WRITE_BACK:
            return want
        kind = READ if not item.needs_alone else UPGRADE if self.plan.profile == 2 and agent.has(line, False) else INVALIDATE
        return Want(kind, line, chunk, item.is_locked, kind != UPGRADE and not item.is_locked)


class WriteBackTooSoon(RunWithBytes):
    """a write-back begins while another's request for the line is open"""
    def is_held_back(self, number, want):
        return want is None


class PendingGiven(RunWithBytes):
    """a line whose request is deferred is given to another"""
    def effective_turn(self, request):
        pending, self.pending = self.pending, set()
        turn = super().effective_turn(request)
        self.pending = pending
        return turn


class LostUpgradeWon(RunWithBytes):
    """an upgrade that has lost its copy makes its agent the owner"""
    def is_won(self, agent, line):
        return True


class KeptWhenInvalidated(RunWithBytes):
    """an agent keeps a Shared copy behind another's request to own"""
    def give_up(self, agent, request):
        if request.kind == READ or agent.states[request.line] != SHARED:
            super().give_up(agent, request)


class OwnerStaysOwner(RunWithBytes):
    """an owner keeps the line Modified behind another's request to own"""
    def give_up(self, agent, request):
        if request.kind == READ or agent.states[request.line] != MODIFIED:
            super().give_up(agent, request)


class OwnerStaysAtRead(RunWithBytes):
    """an owner keeps the line Modified behind another's read"""
    def give_up(self, agent, request):
        if request.kind != READ or agent.states[request.line] != MODIFIED:
            super().give_up(agent, request)


class SharedAsExclusive(RunWithBytes):
    """a read that sees HIT# is taken Exclusive"""
    def granted_state(self, kind, is_shared):
        return EXCLUSIVE if kind == READ else super().granted_state(kind, is_shared)


class StoreIntoShared(RunWithBytes):
    """an agent stores into a Shared line, and has it Modified"""
    def asks(self, agent):
        return bool(self.trace) and f'BREQ{agent.number}' in self.trace[-1][0]

    def want_of(self, agent, c):
        for line in [line for line, state in agent.states.items() if state == SHARED and agent.ends[line] < c]:
            if agent.item is not None and agent.item.needs_alone and line in agent.item.chunks and not self.asks(agent):
                agent.states[line] = EXCLUSIVE
        return super().want_of(agent, c)


class ExclusiveAsksToOwn(RunWithBytes):
    """an agent asks to own a line before it stores into it Exclusive"""
    def hit(self, agent, c):
        if agent.item is not None and agent.item.needs_alone:
            for line in agent.item.chunks:
                if agent.states.get(line) == EXCLUSIVE:
                    agent.states[line] = SHARED
        super().hit(agent, c)


class ForgetsWhatItHas(RunWithBytes):
    """an agent reads a line again that it has Modified"""
    def hit(self, agent, c):
        if agent.item is not None and not agent.item.needs_alone:
            for line in agent.item.chunks:
                if agent.states.get(line) == MODIFIED and agent.ends[line] < c:
                    del agent.states[line]
            self.forget_lost()
        super().hit(agent, c)


class StaleHandedOver(RunWithBytes):
    """an owner asserts HITM#, and gives the bytes of memory"""
    def give(self, request, owner, c):
        request.given = bytes(self.in_memory(request.line))


SYSTEMS = (RunWithBytes, SilentOwner, OwnerSaysHit, OwnerWithoutBytes, SilentHolder, LateHolder, TagWithoutLine, CleanOwner,
           ReplyWithoutHit, CleanWriteBack, DirtyDropped, WriteBackTooSoon, PendingGiven, LostUpgradeWon, KeptWhenInvalidated,
           OwnerStaysOwner, OwnerStaysAtRead, SharedAsExclusive, StoreIntoShared, ExclusiveAsksToOwn, ForgetsWhatItHas,
           StaleHandedOver)


def random_plan(chance):
    """The text of a bench file in which the agents have lines in common."""
    form, wanted = Form(chance), chance.choice(('', '', 'upgrades', 'deferrals', None))
    while form.agents == 1 or form.items < 6 or wanted not in (None, form.theme):
        form = Form(chance)
    if chance.random() < 0.5:
        form.lines, form.cache = form.lines[:3], chance.choice((1, 2, 4))
    lines = ['clocks %d' % min(LONGEST, int(line.split()[1])) if line.startswith('clocks') else line for line in form.text()]
    return ''.join(line + '\n' for line in lines)


class Judged:
    """What the judges say of a run: the clock of a finding, or None."""

    def __init__(self, run, first):
        self.marks = Marks(run.plan.profile == 2, run.plan.profile == 2)
        self.samples = [sample(*clock) for clock in run.trace]
        line = verdict(self.marks, self.samples, first)
        self.check = None if line.startswith('accepted') else tuple(map(int, re.findall(r'\d+', line)))
        foul = foul_chunk(Trace(self.marks, self.samples))
        self.foul = foul if foul and (self.check is None or foul[0] < self.check[0]) else None
        self.coherence = finding(self.samples if self.check is None else self.samples[:self.check[0]])


class Trials:
    """The counts by system, and the other judges that are asked: the search for courses, and a program."""

    def __init__(self, has_courses, program):
        self.has_courses, self.program = has_courses, program
        self.counts, self.rules, self.differences = collections.Counter(), collections.Counter(), 0

    def run(self, system, text, trace):
        run = system(Reader(text).plan)
        first = next((c for c, clocks in enumerate(zip(run.trace, trace)) if clocks[0] != clocks[1]), None)
        if first is None and system is not RunWithBytes:
            return
        judged = Judged(run, first or 0)
        found = [judged.check, judged.foul, judged.check or judged.foul, judged.coherence,
                 judged.check or judged.foul or judged.coherence]
        names = ['check', 'audit', 'either', 'coherence', 'all']
        is_wrong = not is_log_right(run.log, run.plan.memory)
        for of in (system, WRONG) if is_wrong else (system,):
            self.counts[of, 'runs'] += 1
            self.counts[of, 'wrong'] += is_wrong
            self.counts.update((of, name) for name, finding_of in zip(names, found) if finding_of is not None)
        if judged.coherence:
            self.rules[system, judged.coherence[1]] += 1
        if self.has_courses:
            (unexplained,), _ = first_unexplained(judged.marks, judged.samples, ['IIII'])
            if unexplained != judged.coherence:
                self.differ(f'{system.__name__} over\n{text}the courses say {unexplained}, the judge {judged.coherence}')
        difference = self.program and difference_to_program(self.program, run.dump_lines(), judged.coherence or judged.check)
        if difference:
            self.differ(f'{system.__name__}, {difference}')

    def differ(self, text):
        self.differences += 1
        print(text, flush=True)

    def table(self):
        names = 'runs', 'wrong', 'check', 'audit', 'either', 'coherence', 'all'
        print(f'{"fault":68}' + ''.join(f'{name:>10}' for name in names) + '  rules')
        total = collections.Counter()
        for system in SYSTEMS:
            of = {name: self.counts[system, name] for name in names}
            print(row(system.__doc__ if system is not RunWithBytes else 'none', of), self.rules_of(system))
            total.update(of if system is not RunWithBytes else {})
        print(row('all faults', total))
        print(row(WRONG, {name: self.counts[WRONG, name] for name in names}))

    def rules_of(self, system):
        return ' '.join(f'{rule}:{self.rules[system, rule]}' for rule in range(21, 32) if self.rules[system, rule])


def row(name, of):
    shares = ''.join(f'{100 * of[key] / of["runs"]:9.1f}%' if of['runs'] else f'{"-":>10}'
                     for key in ('wrong', 'check', 'audit', 'either', 'coherence', 'all'))
    return f'{name:68}{of["runs"]:10}{shares} '


def main(words):
    program, has_courses = None, False
    if words[-2:-1] == ['--program']:
        program, words = words[-1], words[:-2]
    if words[-1:] == ['--courses']:
        has_courses, words = True, words[:-1]
    if len(words) > 2 or any(word.startswith('-') for word in words):
        sys.exit(__doc__)
    count, seed = int(words[0]) if words else 300, words[1] if words[1:] else 1
    sys.setrecursionlimit(100000)
    trials = Trials(has_courses, program)
    for number in range(count):
        text = random_plan(random.Random(f'wrong {seed} {number}'))
        trace = RunWithBytes(Reader(text).plan).trace
        for system in SYSTEMS:
            trials.run(system, text, trace)
    trials.table()
    return int(trials.differences > 0 or any(trials.counts[RunWithBytes, name] for name in ('wrong', 'all')))


if __name__ == '__main__':
    sys.exit(main(sys.argv[1:]))
