"""The second simulator with caches that have bytes of their own, so that a wrong one moves wrong bytes.

Bytes go as docs/proof/coherence.md says: an owner gives them at the snoop end, or when its own have come; memory has what was put
there last. A run without a fault is the one of second_bench.py, wire by wire and value by value.
"""
from second_bench import HANDED, INVALIDATE, MODIFIED, READ, UPGRADED, WRITTEN, Run


class RunWithBytes(Run):
    """`copies` has the bytes of each agent's line that has come, `grants` the latest grant of it."""

    def __init__(self, plan):
        self.stored, self.copies, self.grants = dict(plan.memory), {}, {}
        self.moving = self.arriving = None
        super().__init__(plan)

    def in_memory(self, line):
        return bytearray(self.stored.get(32 * line + place, 0) for place in range(32))

    def step(self, c):
        self.moving = next((request for request in self.in_flight if request.response == c), None)
        super().step(c)

    def line_bytes(self, line):
        """The four chunks that move from this clock on."""
        request = self.moving
        request.moved = bytes(request.given) if request.takes() and request.given is not None else bytes(self.in_memory(line))
        return [int.from_bytes(request.moved[8 * chunk:8 * chunk + 8], 'little') for chunk in range(4)]

    # Accesses, on the copies of their agent.

    def copy_of(self, agent, line):
        if self.arriving and self.arriving[:2] == (agent.number, line):
            return self.arriving[2]
        return self.copies.setdefault((agent.number, line), self.in_memory(line))

    def complete(self, agent, c):
        for access in agent.item.accesses:
            line, place, value = access.address >> 5, access.address & 31, access.value
            copy = self.copy_of(agent, line)
            if access.is_store:
                if access.is_relative:
                    value = (agent.loaded + value) % (1 << 8 * access.size)
                copy[place:place + access.size] = value.to_bytes(access.size, 'little')
                self.store_shows(agent, line)
            else:
                value = agent.loaded = int.from_bytes(copy[place:place + access.size], 'little')
            word = 'st' if access.is_store else 'ld'
            self.log.append(f'{c} {agent.number} {agent.place} {word} {access.size} {access.address:x} = {value:x}')
        agent.completed = True
        agent.releases |= agent.item.is_locked

    def store_shows(self, agent, line):
        if agent.states.get(line) == 'Exclusive':
            agent.states[line] = MODIFIED

    def is_held_back(self, number, want):
        """An agent of a wrong system may want nothing any more when it wins."""
        return want is None or super().is_held_back(number, want)

    # Where the bytes of a request come from, and where they go.

    def owner_of(self, request):
        return next((agent for agent in self.agents if agent.number != request.agent
                     and agent.states.get(request.line) == MODIFIED), None)

    def settle(self, request, c):
        request.given = request.promised_by = request.kept = None
        owned = request.answered or request
        if request.outcome == HANDED:
            owner = self.owner_of(request)
            if owner is not None:
                self.give(request, owner, c)
        elif request.outcome == WRITTEN:
            request.given = bytes(self.copy_of(self.agents[request.agent], request.line))
        elif request.outcome == UPGRADED:
            request.kept = self.copies.get((request.agent, request.line))
        super().settle(request, c)
        if request.is_grant:
            self.grants[owned.agent, request.line] = request
            if request.outcome != UPGRADED:
                self.copies.pop((owned.agent, request.line), None)
        self.forget_lost()

    def give(self, request, owner, c):
        """The owner gives its bytes, or promises them where its own are still to come."""
        grant = self.grants.get((owner.number, request.line))
        if grant is not None and grant.end >= c:
            request.promised_by = grant
        else:
            request.given = bytes(self.copy_of(owner, request.line))

    def forget_lost(self):
        for number, line in list(self.copies):
            if line not in self.agents[number].states:
                del self.copies[number, line]

    def drop_victim(self, c):
        super().drop_victim(c)
        self.forget_lost()

    def end_clock(self, cancelled, c):
        request = next((request for request in self.in_flight if request.end == c), None)
        if request is not None and request.takes():
            self.stored.update((32 * request.line + place, byte) for place, byte in enumerate(request.moved))
        if request is not None and request.is_grant:
            agent = self.agents[(request.answered or request).agent]
            copy = bytearray(request.moved) if request.moves_data() else request.kept or self.in_memory(request.line)
            self.arriving = agent.number, request.line, copy
            if request.line in agent.states and self.grants[agent.number, request.line] is request:
                self.copies[agent.number, request.line] = copy
        super().end_clock(cancelled, c)
        for other in self.in_flight if self.arriving else ():
            if other.snoop_end is not None and other.promised_by is request:
                other.given = bytes(self.arriving[2])
        self.arriving = None


def is_log_right(log, memory):
    """Each load has the value of one memory into which the stores are made in the order of the log."""
    memory = dict(memory)
    for line in log:
        words = line.split()
        size, address, value = int(words[4]), int(words[5], 16), int(words[7], 16)
        if words[3] == 'st':
            memory.update((address + place, value >> 8 * place & 0xff) for place in range(size))
        elif value != sum(memory.get(address + place, 0) << 8 * place for place in range(size)):
            return False
    return True
