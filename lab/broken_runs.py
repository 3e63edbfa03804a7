"""Lawful runs of the bus, and such runs broken on purpose, for second_trials.py and second_look.py.

A run is that of a random bench file, of the plan of a seed, or random traffic that keeps all rules. Each mutation changes a few
things of it, and is aimed at one of the phase rules, at none of them, or at another lawful waveform. What comes of it is for the
judges to say. Samples are digits by the name of their variable, and 0 is asserted.
"""
from random_benches import Form
from random_dumps import Traffic, inverted
from second_bench import Run, seeded_bench
from second_dump import LINES, Marks, WIDTHS, sample_of
from second_judge import DEN_BIT, HARD_FAILURE, IDLE, PRIORITY, REQUEST_LINES, RETRY, SYMMETRIC, Trace
from second_reader import Reader

PLACES = {line: (name, place) for name, lines in LINES.items() for place, line in enumerate(lines)}
SNOOP_LINES = 'HIT', 'HITM', 'DEFER'
DATA_LINES = 'DRDY', 'DBSY'
# The codes on REQ of the two clocks.
REQUEST_CODES = (0b00110, 0b00010), (0b00010, 0b00010), (0b00101, 0b00010), (0b00010, 0b00000)
THEMES = '', '', 'upgrades', 'deferrals', 'full', 'full', 'locks'
AIMS = ['nothing', 'lawful', *range(1, 21), 4, 12, 18]


class NotHere(Exception):
    """The run has nothing that a mutation could change."""


def digits_of(profile, lines, req, a, d):
    """The digits of a clock of a simulated run."""
    words = {'REQ_n': req, 'A_n': a, 'D_n': d}
    names = [name for name in WIDTHS if profile == 2 or name not in ('AP_n', 'RP_n')]
    return {name: inverted(name, words[name]) if name in words else
            '1' if name == 'BCLK' else ''.join('0' if line in lines else '1' for line in LINES[name]) for name in names}


def value_of(digits):
    return int(digits.translate(str.maketrans('01zx', '1000')), 2)


def simulated_run(chance, themes, longest):
    """The digits of a lawful run: its first clocks, as many as a plain judge can look at, and `longest` at most."""
    if chance.random() < 0.1:
        text = seeded_bench(chance.getrandbits(64), chance.randint(1, 4), chance.choice((1, 2, 5, 20)))
    else:
        form, wanted = Form(chance), chance.choice(themes)
        while form.theme != wanted.replace('again', ''):
            form = Form(chance)
        if wanted == 'full':
            form.agents, form.ahead, form.items = chance.choice((3, 4)), 4, 12
        if wanted == 'again':  # lines that leave small caches, and are asked for once more
            form.cache, form.lines, form.items = chance.choice((1, 1, 2)), form.lines[:3], 12
        text = ''.join(line + '\n' for line in form.text())
    plan = Reader(text).plan
    plan.clocks = min(plan.clocks, chance.choice((60, 100, 140, 180)) * longest // 180)
    return [digits_of(plan.profile, *clock) for clock in Run(plan).trace]


class Base:
    """A lawful run: its samples, and the words over it, by which a mutation is aimed."""

    def __init__(self, samples):
        names = samples[0]
        others = {name: '1' * width for name, width in WIDTHS.items()}
        trace = Trace(Marks('AP_n' in names, 'RP_n' in names), [sample_of({**others, **digits}) for digits in samples])
        self.samples, self.trace = samples, trace
        self.clocks, self.requests, self.live = trace.clocks, trace.requests, trace.live
        self.winners = [trace.winner_at(c) for c in self.clocks]
        self.flight = [sum(trace.is_in_flight(k, c) for k in self.requests) for c in self.clocks]
        self.snooped = [i for i in range(len(self.live)) if trace.snoop_end_of(i) is not None]
        self.answered = [i for i in range(len(self.live)) if trace.response_clock_of(i) is not None]

    def has(self, line, c):
        return self.trace.has(line, c)

    def may_begin(self, c):
        """Nothing but the queue, the winner and the outstanding requests could be against a request at c."""
        return c >= 2 and not self.has('BNR', c - 2) and not any(self.has('ADS', d) for d in range(c - 2, c + 3))

    def is_asked(self, c):
        return any(self.has(line, c) for line in REQUEST_LINES.values())


def base_of(chance, themes=THEMES, longest=180):
    """A lawful run of one clock or more, of a bench file with one of these themes, of a seed, or of random traffic."""
    samples = []
    while not samples:
        samples = Traffic(chance).samples if chance.random() < 0.25 else simulated_run(chance, themes, longest)
    return Base(samples)


class Mutant:
    """A copy of a run that is changed, clock by clock."""

    def __init__(self, chance, base):
        self.chance, self.base, self.trace, self.clocks = chance, base, base.trace, base.clocks
        self.samples = [dict(digits) for digits in base.samples]

    def change(self, mutation):
        """The name of the mutation, or None where it found nothing to change."""
        try:
            mutation(self)
            return mutation.__name__
        except NotHere:
            return None

    def some(self, *values):
        return self.chance.choice(values)

    def happens(self, probability):
        return self.chance.random() < probability

    def pick(self, values):
        values = list(values)
        if not values:
            raise NotHere
        return self.chance.choice(values)

    def clock(self, after=0):
        return self.pick(self.clocks[after:])

    def request(self):
        return self.pick(self.base.requests)

    def digits(self, c):
        if c not in self.clocks:
            raise NotHere
        return self.samples[c]

    def put_digit(self, line, c, digit):
        name, place = PLACES[line]
        digits = self.digits(c)
        if name not in digits:
            raise NotHere
        digits[name] = digits[name][:place] + digit + digits[name][place + 1:]

    def put(self, line, c, is_asserted=True):
        self.put_digit(line, c, '0' if is_asserted else '1')

    def has(self, line, c):
        name, place = PLACES[line]
        return c in self.clocks and self.samples[c].get(name, '111')[place] == '0'

    def move(self, line, c, to):
        """The line is let go at c, and is there at another clock."""
        self.put(line, c, False)
        self.put(line, to)

    def code(self, c):
        return value_of(self.digits(c)['RS_n'])

    def put_code(self, c, code):
        self.digits(c)['RS_n'] = inverted('RS_n', code)

    def word(self, name, c):
        return value_of(self.digits(c)[name])

    def put_word(self, name, c, value):
        self.digits(c)[name] = inverted(name, value)
        self.mend(c)

    def put_request(self, c, first, second):
        """The words of a request, each of REQ and A."""
        for clock, words in ((c, first), (c + 1, second)):
            if clock in self.clocks:
                for name, value in zip(('REQ_n', 'A_n'), words):
                    self.put_word(name, clock, value)

    def begin(self, c, id=None):
        """A request begins at c, with this ID or one of its winner's."""
        self.put('ADS', c)
        winner = self.base.winners[c]
        if id is None:
            id = 16 * (winner if winner in SYMMETRIC else self.chance.randrange(4)) + self.chance.randrange(16)
        first, second = self.some(*REQUEST_CODES)
        line = self.chance.getrandbits(20) << 2
        self.put_request(c, (first, line), (second, id << 13))

    def flip_word(self, name, c, count=1):
        for _ in range(count):
            self.digits(c)[name] = inverted(name, self.word(name, c) ^ 1 << self.chance.randrange(WIDTHS[name]))

    def mend(self, c):
        """Makes the parity of a clock right, where it is asked for."""
        digits = self.samples[c]
        if 'AP_n' in digits:
            digits['AP_n'] = ''.join(odd_digit(digits['A_n'][group]) for group in (slice(0, 12), slice(12, 33)))
        if 'RP_n' in digits:
            digits['RP_n'] = odd_digit(digits['REQ_n'] + digits['ADS_n'])

    def asking_runs(self):
        """Each longest run of clocks in which a request line is asserted: the line, its first clock and the one behind it."""
        for line in REQUEST_LINES.values():
            start = None
            for c in range(len(self.clocks) + 1):
                if self.has(line, c) and start is None:
                    start = c
                elif not self.has(line, c) and start is not None:
                    yield line, start, c
                    start = None

    def snoop_lines(self):
        return [(line, c) for c in self.clocks for line in SNOOP_LINES if self.has(line, c)]

    def data_clocks(self):
        return [c for i in self.base.answered for c in self.trace.data_clocks_of(i)]

    def id_of(self, k):
        return self.trace.request_at(k).id

    def first_change(self):
        """The first clock that is not as it was."""
        pairs = zip(self.samples, self.base.samples)
        return next((c for c, (new, old) in enumerate(pairs) if new != old), min(len(self.samples), len(self.base.samples)))


def odd_digit(digits):
    return '0' if digits.count('0') % 2 == 1 else '1'


# Rule 1.

def unknown_line(run):
    run.put_digit(run.pick(PLACES), run.clock(), 'x')


def unknown_where_asserted(run):
    line, c = run.pick((line, c) for c in run.clocks for line in PLACES if run.has(line, c))
    run.put_digit(line, c, 'x')


# Rule 2.

def second_first_clock(run):
    c = run.request() + run.some(1, 2)
    run.put('ADS', c)
    run.mend(c)


def begun_close_before(run):
    c = run.request() - run.some(1, 2)
    if run.base.winners[max(c, 0)] is None:
        raise NotHere
    run.begin(c)


def begun_at_once(run):
    run.begin(run.some(0, 1))


# Rule 3.

def other_bits(run):
    name, c = run.some('REQ_n', 'A_n'), run.request() + run.some(0, 1, 1)
    run.flip_word(name, c, run.some(1, 1, 2))
    run.mend(c)


def other_request_word(run):
    run.put_word('REQ_n', run.request() + run.some(0, 1), run.chance.randrange(32))


def unknown_word(run):
    name, c = run.some('REQ_n', 'A_n'), run.request() + run.some(0, 1)
    place = run.chance.randrange(WIDTHS[name])
    digits = run.digits(c)
    digits[name] = digits[name][:place] + 'x' + digits[name][place + 1:]


def chunk_of_write_back(run):
    k = run.pick(k for k in run.base.requests if run.trace.request_at(k).kind in ('WriteBack', 'Reply'))
    run.put_word('A_n', k, run.word('A_n', k) | run.some(1, 2, 3))


# Rule 4.

def one_too_many(run):
    c = run.pick(c for c in run.clocks if run.base.flight[c] >= 8 and run.base.may_begin(c))
    run.begin(c)


# Rule 5.

def blocked(run):
    run.put('BNR', run.request() - 2)


def blocked_longer(run):
    k = run.request()
    for c in range(max(0, k - 2 - run.chance.randrange(4)), k - run.some(1, 2)):
        run.put('BNR', c)


# Rule 6.

def begun_by_nobody(run):
    run.begin(run.pick(c for c in run.clocks if run.base.may_begin(c) and run.base.winners[c] is None))


def begun_earlier(run):
    k, by = run.request(), run.some(1, 1, 2, 3)
    words = [[run.word(name, c) for name in ('REQ_n', 'A_n')] for c in (k, k + 1)]
    run.put('ADS', k, False)
    run.put_request(k, (0, 0), (0, 0))
    run.put('ADS', k - by)
    run.put_request(k - by, *words)


def locked_longer(run):
    c = run.pick(c for c in run.clocks if run.has('LOCK', c) and not run.has('LOCK', c + 1))
    for clock in range(c + 1, c + 1 + run.chance.randint(1, 12)):
        run.put('LOCK', clock)


# Rule 7.

def foreign_id(run):
    k = run.request() + 1
    run.put_word('A_n', k, run.word('A_n', k) ^ run.some(*range(1, 16)) << 17)


def askers_swapped(run):
    one, other = run.chance.sample(list(REQUEST_LINES.values()), 2)
    for c in run.clocks:
        had = run.has(one, c), run.has(other, c)
        run.put(one, c, had[1])
        run.put(other, c, had[0])


def rival_asks(run):
    k = run.request()
    line = REQUEST_LINES[run.pick(agent for agent in REQUEST_LINES if agent != run.base.winners[k])]
    c = max(0, k - 2 - run.chance.randrange(3))
    while c in run.clocks and not run.has(line, c):
        run.put(line, c)
        c += 1


def replies_unasked(run):
    k = run.request()
    run.put_request(k, (0, run.chance.randrange(64) << 13), (0, 0))


def reply_with_a_line(run):
    k = run.pick(k for k in run.base.requests if run.base.winners[k] == PRIORITY)
    run.begin(k)


# Rule 8.

def asks_no_more(run):
    line, first, end = run.pick(run.asking_runs())
    run.put(line, run.pick(range(first + 1, end)), False)


def asks_on(run):
    line, _, end = run.pick(run.asking_runs())
    run.put(line, end)


def asks_for_a_clock(run):
    run.put(run.pick(REQUEST_LINES.values()), run.clock())


# Rule 9.

def locks_alone(run):
    run.put('LOCK', run.clock())


def locks_early(run):
    c = run.pick(c for c in run.clocks if run.has('LOCK', c) and not run.has('LOCK', c - 1))
    for clock in range(c - run.some(1, 1, 2), c):
        run.put('LOCK', clock)


def lock_with_a_gap(run):
    run.put('LOCK', run.pick(c for c in run.clocks if all(run.has('LOCK', c + place) for place in (-1, 0, 1))), False)


# Rule 10.

def error_alone(run):
    run.put('AERR', run.clock())


def error_moved(run):
    c = run.pick(c for c in run.clocks if run.has('AERR', c))
    run.move('AERR', c, c + run.some(-1, 1))


# Rule 11.

def snoop_line_alone(run):
    run.put(run.some(*SNOOP_LINES), run.clock())


def snoop_line_moved(run):
    line, c = run.pick(run.snoop_lines())
    run.move(line, c, c + run.some(-1, 1))


def snoop_line_longer(run):
    line, c = run.pick(run.snoop_lines())
    run.put(line, c + 1)


# Rule 12.

def unfit_result(run):
    i = run.pick(i for i in run.base.snooped if run.trace.request_of(i).kind in ('WriteBack', 'Reply'))
    run.put(run.some(*SNOOP_LINES), run.trace.snoop_end_of(i))


# Rule 13.

def response_earlier(run):
    r = run.pick(run.trace.responses)
    by = run.some(1, 1, 2, 3)
    lines = ('RS_n',) if run.happens(0.3) else ('RS_n', 'DBSY_n', 'DRDY_n', 'D_n')
    moved = {name: [digits[name] for digits in run.samples[r:r + 12]] for name in lines}
    for name, values in moved.items():
        if r < by:
            raise NotHere
        for place, value in enumerate(values):
            run.samples[r - by + place][name] = value
    if lines == ('RS_n',):
        run.put_code(r, IDLE)


def response_again(run):
    r = run.pick(run.trace.responses)
    run.put_code(r + run.some(1, 1, 2, 3, 4), run.code(r))


def response_alone(run):
    run.put_code(run.clock(), run.chance.randint(1, 7))


# Rule 14.

def other_code(run):
    r = run.pick(run.trace.responses)
    run.put_code(r, run.pick(code for code in (1, 2, 3, 5, 6, 7) if code != run.code(r)))


def result_turned(run):
    c, line = run.trace.snoop_end_of(run.pick(run.base.snooped)), run.some('HITM', 'DEFER')
    run.put(line, c, not run.has(line, c))


def not_to_be_deferred(run):
    i = run.pick(i for i in run.base.answered if run.trace.request_of(i).den and run.trace.outcome_of(i) in ('Deferred', 'Retried'))
    c = run.base.live[i] + 1
    run.put_word('A_n', c, run.word('A_n', c) & ~DEN_BIT)


def other_kind(run):
    i = run.pick(i for i in run.base.answered if run.trace.request_of(i).kind in ('Invalidate', 'Upgrade', 'WriteBack'))
    k, kind = run.base.live[i], run.trace.request_of(i).kind
    if kind == 'WriteBack':
        run.put_word('REQ_n', k, run.word('REQ_n', k) ^ 0b00011)
    else:
        run.put_word('REQ_n', k + 1, run.word('REQ_n', k + 1) ^ 0b00010)
        run.put_word('A_n', k + 1, run.word('A_n', k + 1) & ~DEN_BIT)


# Rule 15.

def ready_alone(run):
    i = run.pick(run.base.snooped)
    run.put('TRDY', run.trace.snoop_end_of(i) + run.some(0, 1, 2, 2, 3, 4))


def ready_changed(run):
    c = run.pick(c for c in run.clocks if run.has('TRDY', c))
    if run.happens(0.4):
        run.move('TRDY', c, c + run.some(-2, -1, 1, 2))
    elif run.happens(0.5):
        run.put('TRDY', c, False)
    else:
        run.put('TRDY', c + run.some(1, 2, 3, 5))


# Rule 16.

def chunk_lost(run):
    run.put('DRDY', run.pick(run.data_clocks()), False)


def chunk_too_many(run):
    c = run.pick(run.data_clocks()) + run.some(1, 1, 2) if run.happens(0.7) else run.clock()
    run.put('DRDY', c)


def chunk_moved(run):
    c = run.pick(run.data_clocks())
    run.move('DRDY', c, c + run.some(-1, 1))


def busy_changed(run):
    c = run.pick(c for c in run.clocks if run.has('DBSY', c) != run.has('DBSY', c + 1))
    run.put('DBSY', c + run.some(-1, 0, 1), run.happens(0.5))


# Rule 17.

def unknown_data(run):
    c, place = run.pick(run.data_clocks()), run.chance.randrange(64)
    run.digits(c)['D_n'] = run.digits(c)['D_n'][:place] + 'x' + run.digits(c)['D_n'][place + 1:]


# Rule 18.

def reply_to_another(run):
    k = run.pick(k for k in run.base.requests if run.trace.request_at(k).kind == 'Reply')
    run.put_word('A_n', k, (run.id_of(k) ^ run.some(1, 2, 8, 16, 32, 64, 128)) << 13)


def not_deferred_after_all(run):
    i = run.pick(i for i in run.base.answered if run.trace.outcome_of(i) == 'Deferred')
    run.put_code(run.trace.response_clock_of(i), run.some(RETRY, HARD_FAILURE))


def reply_once_more(run):
    replies = [k for k in run.base.requests if run.trace.request_at(k).kind == 'Reply']
    k, last = run.pick((k, r) for k in replies for r in replies if k > r)
    run.put_word('A_n', k, run.id_of(last) << 13)


def reply_not_cancelled(run):
    k = run.pick(k for k in run.base.requests if run.trace.request_at(k).kind == 'Reply' and run.trace.is_cancelled(k))
    run.put('AERR', k + 3, False)


def id_in_use(run):
    pairs = ((k, other) for k in run.base.requests for other in run.base.requests
             if run.base.winners[k] == run.base.winners[other] != PRIORITY and run.trace.is_outstanding(other, k))
    k, other = run.pick(pairs)
    if run.id_of(k) is None:
        raise NotHere
    run.put_word('A_n', k + 1, run.word('A_n', k + 1) ^ (run.id_of(k) ^ run.id_of(other)) << 13)


def fifth_outstanding(run):
    places = ((agent, c) for c in run.clocks[2:] if run.base.may_begin(c) and not run.base.is_asked(c - 2)
              and run.base.flight[c] < 8 and not run.has('LOCK', c - 2) for agent in SYMMETRIC
              if sum(run.base.winners[k] == agent and run.trace.is_outstanding(k, c) for k in run.base.requests) >= 4)
    agent, c = run.pick(places)
    for clock in (c - 2, c - 1, c):
        run.put(REQUEST_LINES[agent], clock)
    used = {run.id_of(k) for k in run.base.requests}
    run.begin(c, run.pick(id for id in range(16 * agent, 16 * agent + 16) if id not in used))


# Rules 19 and 20.

def parity_turned(run, *lines):
    line, c = run.some(*lines), run.request() + run.some(0, 1)
    run.put(line, c, not run.has(line, c))


def word_turned(run, name, mark):
    """A word of a request changes, and its parity does not."""
    if mark not in run.samples[0]:
        raise NotHere
    run.flip_word(name, run.request() + run.some(0, 0, 1), run.some(1, 1, 3))


def address_parity_turned(run):
    parity_turned(run, 'AP0', 'AP1')


def address_turned(run):
    word_turned(run, 'A_n', 'AP_n')


def request_parity_turned(run):
    parity_turned(run, 'RP')


def request_word_turned(run):
    word_turned(run, 'REQ_n', 'RP_n')


# Aimed at nothing.

def a_line_turned(run):
    line, c = run.pick(PLACES), run.clock()
    run.put(line, c, not run.has(line, c))


def two_clocks_swapped(run):
    c = run.pick(run.clocks[:-1])
    run.samples[c], run.samples[c + 1] = run.samples[c + 1], run.samples[c]


def clocks_left_out(run):
    c = run.clock(1)
    del run.samples[c:c + run.chance.randint(1, 6)]


def cut_off(run):
    del run.samples[run.clock(1):]


def a_clock_again(run):
    c = run.clock()
    run.samples[c:c] = [dict(run.samples[c]) for _ in range(run.chance.randint(1, 3))]


def idle_clocks(run):
    c = run.clock()
    run.samples[c:c] = [{name: '1' * len(digits) for name, digits in run.samples[c].items()} for _ in range(run.chance.randint(1, 8))]


def a_line_never(run):
    line = run.pick(PLACES)
    for c in run.clocks:
        if run.has(line, c):
            run.put(line, c, False)


def a_line_moved(run):
    """From a clock on a line comes a clock later, or sooner."""
    name, first, by = run.pick(name for name in run.samples[0] if name != 'BCLK'), run.clock(), run.some(-1, 1)
    values = [digits[name] for digits in run.samples]
    for c in run.clocks[first:]:
        if c + by in run.clocks:
            run.samples[c][name] = values[c + by]


def begun_with(run):
    """Other words of a request, from another one."""
    k, other = run.request(), run.request()
    words = [[run.word(name, c) for name in ('REQ_n', 'A_n')] for c in (other, other + 1) if c in run.clocks]
    run.put_request(k, *words if len(words) == 2 else [words[0]] * 2)


# Aimed at waveforms that are lawful still.

def failed(run):
    i = run.pick(run.base.answered)
    r, end = run.trace.response_clock_of(i), run.trace.end_of(i)
    run.put_code(r, HARD_FAILURE)
    for c in run.clocks[r:len(run.clocks) if end is None else end + 1]:
        for line in DATA_LINES:
            run.put(line, c, False)


def retried(run):
    i = run.pick(i for i in run.base.answered if run.trace.outcome_of(i) == 'Granted')
    failed_at, end = run.trace.response_clock_of(i), run.trace.end_of(i)
    run.put('DEFER', run.trace.snoop_end_of(i))
    run.put_code(failed_at, RETRY)
    for c in run.clocks[failed_at:len(run.clocks) if end is None else end + 1]:
        for line in DATA_LINES:
            run.put(line, c, False)


def other_data(run):
    for _ in range(run.some(1, 1, 2)):
        run.flip_word('D_n', run.pick(run.data_clocks()), run.some(1, 3))


def data_of_a_line(run):
    """Some chunks of one transfer are other ones."""
    clocks = run.pick(clocks for clocks in (run.trace.data_clocks_of(i) for i in run.base.answered) if clocks)
    for c in clocks:
        run.digits(c)['D_n'] = run.some(inverted('D_n', 0), inverted('D_n', 1), run.digits(clocks[0])['D_n'])


def noise_where_nobody_looks(run):
    for c in run.clocks:
        digits, is_asked = run.samples[c], run.has('ADS', c) or run.has('ADS', c - 1)
        if run.happens(0.2):
            if not run.has('DRDY', c):
                digits['D_n'] = ''.join(run.chance.choices('01xz', k=64))
            if not is_asked:
                digits['A_n'], digits['REQ_n'] = (''.join(run.chance.choices('01xz', k=WIDTHS[name])) for name in ('A_n', 'REQ_n'))
        for name in ('AP_n', 'RP_n'):
            if name in digits and not is_asked and run.happens(0.2):
                digits[name] = ''.join(run.chance.choices('01z', k=WIDTHS[name]))


def other_addresses(run):
    turned = run.chance.randrange(1 << 27) << 2
    for k in run.base.requests:
        if run.trace.request_at(k).kind not in (None, 'Reply') and run.word('A_n', k) < 1 << 29:
            run.put_word('A_n', k, run.word('A_n', k) ^ turned)


def other_ids(run):
    turned = run.chance.randrange(16) << 13
    for k in run.base.requests:
        c = k + (run.trace.request_at(k).kind != 'Reply')
        if run.trace.request_at(k).kind is not None:
            run.put_word('A_n', c, run.word('A_n', c) ^ turned)


def stalled_once_more(run):
    i = run.pick(run.base.snooped)
    end, hit = run.trace.snoop_end_of(i), [line for line in SNOOP_LINES if run.has(line, run.trace.snoop_end_of(i))]
    for line in SNOOP_LINES:
        run.put(line, end, line != 'DEFER')
    for line in hit:
        run.put(line, end + 2)


def shared_or_not(run):
    end = run.trace.snoop_end_of(run.pick(run.base.snooped))
    run.put('HIT', end, not run.has('HIT', end))


MUTATIONS = {
    'nothing': (a_line_turned, a_line_turned, two_clocks_swapped, clocks_left_out, a_clock_again, idle_clocks, cut_off, a_line_never,
                a_line_moved, begun_with),
    'lawful': (failed, retried, other_data, data_of_a_line, noise_where_nobody_looks, other_addresses, other_ids, stalled_once_more,
               shared_or_not, locked_longer),
    'data': (other_data, data_of_a_line),
    1: (unknown_line, unknown_where_asserted),
    2: (second_first_clock, second_first_clock, begun_close_before, begun_at_once),
    3: (other_bits, other_request_word, unknown_word, chunk_of_write_back),
    4: (one_too_many,),
    5: (blocked, blocked_longer),
    6: (begun_by_nobody, begun_earlier, locked_longer),
    7: (foreign_id, askers_swapped, rival_asks, replies_unasked, reply_with_a_line),
    8: (asks_no_more, asks_on, asks_for_a_clock),
    9: (locks_alone, locks_early, lock_with_a_gap),
    10: (error_alone, error_moved),
    11: (snoop_line_alone, snoop_line_moved, snoop_line_longer),
    12: (unfit_result,),
    13: (response_earlier, response_again, response_alone),
    14: (other_code, result_turned, not_to_be_deferred, other_kind),
    15: (ready_alone, ready_changed),
    16: (chunk_lost, chunk_too_many, chunk_moved, busy_changed),
    17: (unknown_data,),
    18: (reply_to_another, not_deferred_after_all, reply_once_more, reply_not_cancelled, id_in_use, fifth_outstanding),
    19: (address_parity_turned, address_turned),
    20: (request_parity_turned, request_word_turned),
}


def broken(chance, base, aim, before):
    """The run after a mutation with this aim, and the names of the mutations, or NotHere where none finds anything to change.
    So many times as `before` says it is changed into what may be lawful still, at first."""
    for mutation in chance.sample(MUTATIONS[aim], len(MUTATIONS[aim])):
        run, names = Mutant(chance, base), []
        for number in range(before):
            names.append(run.change(chance.choice(MUTATIONS['lawful'])))
        names.append(run.change(mutation))
        if names[-1] is not None:
            return run, ' '.join(name for name in names if name)
    raise NotHere


def mutant_of(chance, base):
    """A changed run, what it was aimed at, and the names of its mutations."""
    while True:
        aim = chance.choice(AIMS)
        try:
            return (aim, *broken(chance, base, aim, chance.choice((0, 0, 0, 1, 2))))
        except NotHere:
            pass
