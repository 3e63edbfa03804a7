"""The rows of the repository that have a verdict of rules 21 to 31: those of crates/rows_cohere/src, those that the prover computes in
crates/rows_owners/proofs, and the worked runs, which break none."""
import glob
import os
import re

from common import TOP
from dump_of_trace import clocks
from second_bench import CONTROL_LINES
from second_dump import Sample

FLAGS = {line: 1 << place for place, line in enumerate(CONTROL_LINES)}
IDLE = set(), 0, 0, 0


def sample(lines, req, a, d=0):
    return Sample(set(), lines, sum(1 << bit for bit in range(3) if f'RS{bit}' in lines), req, a, d)


def samples_of_trace(path):
    """The samples of a trace that stands clock by clock in a file."""
    return [sample(lines, *(words.get(word, 0) for word in ('REQ', 'A', 'D'))) for lines, words in clocks(path)]


def read(path):
    with open(os.path.join(TOP, path), encoding='utf-8') as source:
        return source.read()


def worked_runs(folder='crates/rows_benches/data'):
    """The name, the samples and the verdict of each worked run."""
    for path in sorted(glob.glob(os.path.join(TOP, folder, '*.trace'))):
        yield os.path.basename(path), samples_of_trace(path), False, None


def clock_of(flags, req, a):
    return {line for line, bit in FLAGS.items() if flags & bit}, req, a


def rows_of_tests():
    """The calls of the tests of rows_cohere, which are run as they stand, but for the signs that Python has not."""
    names = dict(FLAGS, Some=lambda found: found, rt=None)
    for path in ('crates/rows_store/src/runs.rt', 'crates/rows_cohere/src/short.rt'):
        for name, rows in re.findall(r'const (\w+): \[Clock; \d+\] = (\[.*?\]);', read(path), re.S):
            names[name] = eval(rows, dict(FLAGS))
    found = []

    def expect(of, is_within, clocks, changes, expected):
        changed = dict(changes)
        samples = [sample(*clock_of(*changed.get(at, clock))) for at, clock in enumerate(clocks)]
        found.append(('row %d of rows_cohere' % (len(found) + 1), samples, is_within, expected))

    class Coherence:
        @staticmethod
        def from_within(alloc):
            return True
    names.update(Coherence=Coherence, expect_verdict=lambda rt, a, *row: expect(rt, False, *row), expect_of=expect)
    for body in re.findall(r'#\[test\]\nfn \w+\(rt: HostRuntime\) \{\n(.*?)\n\}', read('crates/rows_cohere/src/verdicts.rt'), re.S):
        text = re.sub(r'^ {4}', '', body, flags=re.M).replace('rt.alloc()', 'None').replace('::', '.').replace('&', '')
        exec(re.sub(r'\blet ', '', text), names)
    return found


def proved_clock(text):
    """A clock as the rows of the prover write it: `clock (BREQ0 ∷ ADS ∷ []) 0x6 0x8 0x0`, or `idle`."""
    if text.strip('() ') == 'idle':
        return sample(*IDLE)
    lines, req, a, d = re.fullmatch(r'\(*clock (\(.*?\)|\[\]) (\w+) (\w+) (\w+)\)*', text.strip()).groups()
    return sample(set(re.findall(r'\w+', lines)), int(req, 16), int(a, 16), int(d, 16))


def verdict_of(text):
    return None if text == 'None' else tuple(map(int, re.findall(r'\d+', text)))


def rows_of_proofs():
    short, rows = (read(f'crates/rows_owners/proofs/{name}.antt') for name in ('ShortTraces', 'Rows'))
    traces = dict(re.findall(r'^(\w+)-trace =\n(.*?)∷ \[\]$', short, re.S | re.M))
    for name, expected in re.findall(r'^pub \w+ : judged (\w+)-trace ≡ (.*)$', short, re.M):
        yield name, [proved_clock(text) for text in re.split(r'\n\s*∷ ', traces[name].strip())], False, verdict_of(expected)
    for name, changed, expected in re.findall(r'^pub (\w+) : judged (\(set .*\)) ≡ (.*)$', rows, re.M):
        samples = samples_of_trace(os.path.join(TOP, 'crates/rows_benches/data', re.search(r'(\w+)\.trace', changed)[1] + '.trace'))
        for at, text in re.findall(r' (\d+) (\((?:idle|clock (?:\(.*?\)|\[\]) \w+ \w+ \w+)\))', changed):
            samples[int(at)] = proved_clock(text)
        yield name, samples, False, verdict_of(expected)


def all_rows():
    """The name of each row, its samples, whether it begins in traffic, and its verdict."""
    yield from worked_runs()
    yield from rows_of_tests()
    yield from rows_of_proofs()
