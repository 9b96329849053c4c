#!/usr/bin/env python3
"""Writes the batch of job packs that `least_hex` and `draw_hex` are run on, and what each must print for each pack.

The drawings come from the plain recurrence below, the refusals from the plain reader below. They follow docs/RULES.md,
docs/FORMATS.md and docs/REFUSALS.md, and share no code with the crates; measures, areas and records are those of
mark_cases.py. Of small lines all families are listed too, and none may be cheaper than the drawing. The same author wrote
the crates, so this finds slips, and not a rule that was misread in both. The numbers are drawn from a fixed start, so a
second run writes the same files.

    tools/least_cases.py            writes stdin and stdout of crates/least_hex and crates/draw_hex
    tools/least_cases.py --check    only compares these files, and ends with status 1 where they differ
"""
import os
import random
import struct
import sys
from itertools import combinations, product

sys.dont_write_bytecode = True
from mark_cases import FIVE, LARGEST, TWO_LEVELS, Refused, allowed, area, family, job, read, record, refuse

CRATES = os.path.join(os.path.dirname(os.path.abspath(__file__)), '..', 'crates')

# The grades, prices and stays that `draw` lends.
LENT = 1600, 4000, 40


def read_job(data):
    """The measure, the price, the line and the levels of a job pack, or the first fault."""
    numbers, at = read(data, 0, 1, lambda s: s == 2)
    vertices, at = read(data, at, 2, lambda s: s % 4 == 0 and 8 <= s <= 1024)
    levels, at = read(data, at, 3, lambda s: s % 8 == 0 and 8 <= s <= 64)
    if at != len(data):
        refuse(4, 1, at)
    measure, price = numbers
    if measure not in LARGEST:
        refuse(8, 2, 0)
    if price not in (1, 2):
        refuse(8, 2, 1)
    line = list(struct.iter_unpack('<hh', vertices))
    for v, (x, y) in enumerate(line):
        if not (-16384 <= x <= 16383 and -16384 <= y <= 16383):
            refuse(5, 2, v)
    levels = list(struct.iter_unpack('<II', levels))
    before = -1
    for k, (tolerance, weight) in enumerate(levels, 1):
        if not before < tolerance <= LARGEST[measure]:
            refuse(6, 2, k)
        if not 1 <= weight <= 1000:
            refuse(7, 2, k)
        before = tolerance
    return measure, price, line, levels


def add(a, b):
    """Two prices joined. The totals of a job are far below the ceilings."""
    return a[0] + b[0], a[1] + b[1]


class Job:
    """A lawful job, and pins that no link may skip: what links cost and which are allowed, the least totals, and the first least family."""

    def __init__(self, measure, price, line, levels, pins=frozenset()):
        self.n, self.m = len(line), len(levels)
        self.weights = [w for _, w in levels]
        links = list(combinations(range(self.n), 2))
        self.areas = {(i, j): area(line, i, j) if price == 2 else 0 for i, j in links}
        self.open = [[[j for j in range(i + 1, self.n) if pins.isdisjoint(range(i + 1, j)) and allowed(measure, line, i, j, t)]
                      for i in range(self.n)] for t, _ in levels]
        self.least = {}
        for k in range(1, self.m + 1):
            self.fill(k)

    def price(self, k, i, j):
        return self.weights[k - 1], self.areas[i, j]

    def total(self, k, i, j):
        """L(k, i, j): neutral at level 0 and from a vertex to itself."""
        return self.least[k, i, j] if k and i < j else (0, 0)

    def over(self, k, i, j, v):
        """The total from i to j at level k when the first link goes to v."""
        return add(add(self.price(k, i, v), self.total(k - 1, i, v)), self.total(k, v, j))

    def fill(self, k):
        for i in reversed(range(self.n)):
            for j in range(i + 1, self.n):
                self.least[k, i, j] = min(self.over(k, i, j, v) for v in self.open[k - 1][i] if v <= j)

    def links(self, k, i, j):
        """The links from i to j at level k: each goes to the smallest vertex that gives the least total."""
        while i < j:
            v = next(v for v in self.open[k - 1][i] if v <= j and self.over(k, i, j, v) == self.total(k, i, j))
            yield i, v
            i = v

    def chains(self):
        """The chains of the first least family, level 1 first: those of the coarsest level, filled in level by level."""
        links, found = [(0, self.n - 1)], []
        for k in range(self.m, 0, -1):
            links = [link for i, j in links for link in self.links(k, i, j)]
            found.insert(0, [0] + [j for _, j in links])
        return found

    def drawing(self):
        """What a program prints for the job."""
        lines = [f'level {k} links {len(chain) - 1}: ' + ' '.join(map(str, chain)) for k, chain in enumerate(self.chains(), 1)]
        return lines + ['total %d %d' % self.total(self.m, 0, self.n - 1)]

    def cost(self, k, chain):
        """What a chain costs at level k, or none where the level does not allow one of its links."""
        paid = 0, 0
        for i, j in zip(chain, chain[1:]):
            if j not in self.open[k - 1][i]:
                return None
            paid = add(paid, self.price(k, i, j))
        return paid

    def families(self, pins=frozenset()):
        """The totals of all families that have these pins at every level, found by trying every stay of every other vertex."""
        for inner in product(*([self.m] if v in pins else range(self.m + 1) for v in range(1, self.n - 1))):
            stays = self.m, *inner, self.m
            sums = [self.cost(k, [v for v in range(self.n) if stays[v] >= k]) for k in range(1, self.m + 1)]
            if None not in sums:
                yield tuple(map(sum, zip(*sums)))


def check_memory(line, levels):
    """The memory that `draw` lends: grades first, then prices, then stays."""
    n, m = len(line), len(levels)
    for place, cells in enumerate((n * n, m * n * n, n)):
        if cells > LENT[place]:
            refuse(18, 4, place)


def answer(data, lent):
    """What `least_hex` prints for a pack, or `draw_hex`, where a line has only the memory that is lent."""
    try:
        content = read_job(data)
        if lent:
            check_memory(*content[2:])
    except Refused as r:
        return [str(r)]
    work = Job(*content)
    if (work.m + 1) ** (work.n - 2) <= 300:
        assert min(work.families()) == work.total(work.m, 0, work.n - 1)
        chains = work.chains()
        costs = [work.cost(k, chain) for k, chain in enumerate(chains, 1)]
        assert tuple(map(sum, zip(*costs))) == work.total(work.m, 0, work.n - 1)
    return work.drawing()


def sound(rng):
    """Two jobs of each measure, price, number of levels and number of vertices."""
    for measure, price, m, n, _ in product((1, 2, 3), (1, 2), (1, 2, 3), range(2, 10), range(2)):
        span = rng.choice([3, 12, 12, 16383])
        line = [(rng.randint(-span, span), rng.randint(-span, span)) for _ in range(n)]
        most = min(span * span * 2 if measure == 3 else span + 4, LARGEST[measure])
        tolerances = sorted(rng.sample(range(most + 1), m))
        yield job(measure, price, line, [(t, rng.choice([1, 1, 2, 10, 1000])) for t in tolerances])


def largest():
    """256 vertices and 8 levels: a walk to the right, up and down."""
    rng = random.Random(20261126)
    line = [(-16000, 0)]
    while len(line) < 256:
        x, y = line[-1]
        line.append((x + rng.randint(0, 120), y + rng.randint(-60, 60)))
    for measure, price, step in ((1, 1, 4), (3, 2, 100)):
        yield job(measure, price, line, [(step * k, 1 + k * k) for k in range(1, 9)])


def limits():
    """Numbers at their limits, from both sides."""
    for x in (16383, 16384, -16384, -16385):
        for spot, axis in ((0, 0), (0, 1), (4, 0), (4, 1)):
            line = [list(v) for v in FIVE]
            line[spot][axis] = x
            yield job(1, 1, line, [(32768, 1)])
    for n in (0, 1, 2, 3, 256, 257):
        yield job(2, 1, [(k % 7, k % 5) for k in range(n)], [(0, 1)])
    for m in (0, 1, 8, 9):
        yield job(3, 2, FIVE, [(3 * k, k + 1) for k in range(m)])
    for measure, top in LARGEST.items():
        for t in (0, top - 1, top, top + 1, 2**32 - 1):
            yield job(measure, 1, FIVE, [(t, 1)])
    for w in (0, 1, 1000, 1001, 2**32 - 1):
        yield job(1, 2, FIVE, [(1, w)])
        yield job(1, 1, FIVE, [(1, 5), (2, w)])
    for measure, price in product((0, 1, 2, 3, 4, 255), (0, 1, 2, 3, 255)):
        yield job(measure, price, FIVE, TWO_LEVELS)
    for levels in ([(1, 1), (1, 1)], [(2, 1), (1, 1)], [(1, 0), (1, 1)], [(1, 1), (1, 0)], [(40000, 0), (1, 1)], [(1, 1), (2, 1), (2, 1)]):
        yield job(1, 1, FIVE, levels)


def memories():
    """Lines about as long as the memory of `draw` reaches."""
    for m, most in ((1, 40), (2, 40), (3, 36), (4, 31), (5, 28), (8, 22)):
        for n in (most, most + 1):
            yield job(2, 1, [(k * 3, k * k % 11) for k in range(n)], [(2 * k, k) for k in range(1, m + 1)])


def damaged():
    """One job cut at each length, with each byte changed, and with bytes left over; then two faults at once."""
    whole = job(1, 1, FIVE, TWO_LEVELS)
    for k in range(len(whole)):
        yield whole[:k]
        for change in (1, 16, 255):
            yield whole[:k] + bytes([(whole[k] + change) % 256]) + whole[k + 1:]
    yield whole
    yield whole + b'\0'
    yield whole + whole
    yield whole + family([[0, 2, 3, 4], [0, 4]], (4, 0))
    yield job(9, 1, FIVE, TWO_LEVELS) + b'\0'
    yield job(9, 9, [(20000, 0)] * 2, [(1, 0)])
    yield job(1, 9, [(20000, 0)] * 2, [(1, 0)])
    yield job(1, 1, [(20000, 0)] * 2, [(1, 0)])
    yield job(1, 1, [(0, 0)] * 2, [(40000, 0)])
    yield record(2, b'\1\1') + whole[8:]
    yield whole[:8] + whole[34:]
    yield whole[:34] + record(3, b'\1' * 12)


def cases(lent):
    """Each line of the input, and the lines that are printed for it."""
    rng = random.Random(20261126)
    for source in (sound(rng), largest(), limits(), memories(), damaged()):
        for data in source:
            yield data.hex(), answer(data, lent)
    yield job(2, 2, FIVE, TWO_LEVELS).hex().upper(), answer(job(2, 2, FIVE, TWO_LEVELS), lent)
    for text in ('0', 'xyz', '0g', '02000000010', '0x02', ' 02'):
        yield text, ['not hex']


def compare(crate, cases):
    """Writes the files of a crate, or answers whether they differ from what they must be."""
    texts, answers = zip(*cases)
    files = {'stdin': list(texts), 'stdout': [line for lines in answers for line in lines]}
    differ = False
    for name, lines in files.items():
        text, path = ''.join(line + '\n' for line in lines), os.path.join(CRATES, crate, name)
        if '--check' not in sys.argv[1:]:
            with open(path, 'w') as f:
                f.write(text)
        else:
            with open(path) as f:
                if f.read() != text:
                    print(f'{crate}/{name} differs')
                    differ = True
    return differ


def main():
    differ = [compare('least_hex', cases(False)), compare('draw_hex', cases(True))]
    sys.exit(any(differ))


if __name__ == '__main__':
    main()
