#!/usr/bin/env python3
"""Writes the batch of family packs that `mark_hex` is run on, and the verdicts that it must print.

The verdicts come from the plain marker below. It follows the same rules as docs/RULES.md, docs/FORMATS.md and
docs/REFUSALS.md and shares no code with the crates, but the author of the crates wrote it: it finds slips, not a
rule that was misread in both. The numbers are drawn from a fixed start, so a second
run writes the same files.

    tools/mark_cases.py            writes crates/mark_hex/stdin and crates/mark_hex/stdout
"""
import os
import random
import struct

LARGEST = {1: 32768, 2: 32768, 3: 2147483647}
CEILING = 2**32 - 1, 2**64 - 1


def record(kind, body):
    return struct.pack('<IH', len(body), kind) + body


def job(measure, price, line, levels):
    return (record(1, bytes([measure, price]))
            + record(2, b''.join(struct.pack('<hh', x, y) for x, y in line))
            + record(3, b''.join(struct.pack('<II', t, w) for t, w in levels)))


def chain_record(chain):
    return record(4, b''.join(struct.pack('<H', v) for v in chain))


def family(chains, form):
    return b''.join(map(chain_record, chains)) + record(5, struct.pack('<IQ', *form))


def near(measure, p, q, v, t):
    ax, ay, bx, by = q[0] - p[0], q[1] - p[1], v[0] - p[0], v[1] - p[1]
    length, d, c = ax * ax + ay * ay, ax * bx + ay * by, ax * by - ay * bx
    if measure == 1:
        if d <= 0:
            return bx * bx + by * by <= t * t
        if d >= length:
            return (v[0] - q[0]) ** 2 + (v[1] - q[1]) ** 2 <= t * t
        return c * c <= t * t * length
    return bx * bx + by * by <= t * t if length == 0 else c * c <= t * t * length


def area(line, i, j):
    walk = list(range(i, j + 1)) + [i]
    return abs(sum(line[p][0] * line[q][1] - line[q][0] * line[p][1] for p, q in zip(walk, walk[1:])))


def allowed(measure, line, i, j, t):
    if not (i < j < len(line) and t <= LARGEST[measure]):
        return False
    if measure == 3:
        return area(line, i, j) <= t
    return all(near(measure, line[i], line[j], line[k], t) for k in range(i + 1, j))


def total(price, line, levels, chains):
    count = extra = 0
    for (_, w), chain in zip(levels, chains):
        for i, j in zip(chain, chain[1:]):
            count = min(count + w, CEILING[0])
            if price == 2:
                extra = min(extra + area(line, i, j), CEILING[1])
    if price == 2 and count == CEILING[0]:
        extra = CEILING[1]
    return count, extra


class Refused(Exception):
    pass


def refuse(number, layer, place, spot=0):
    raise Refused(f'refused {number} layer {layer} place {place} spot {spot}')


def read(data, at, kind, fits):
    if len(data) - at < 6:
        refuse(1, 1, at)
    size, found = struct.unpack_from('<IH', data, at)
    if found != kind:
        refuse(2, 1, at)
    if not fits(size):
        refuse(3, 1, at)
    if len(data) - at - 6 < size:
        refuse(1, 1, at)
    return data[at + 6:at + 6 + size], at + 6 + size


def judge_chain(measure, line, chain, finer, level, tolerance):
    n = len(line)
    for spot, v in enumerate(chain):
        first, last = spot == 0, spot == len(chain) - 1
        if first and v != 0 or last and v != n - 1 or not first and v <= chain[spot - 1]:
            refuse(9, 3, level, spot)
    for spot, v in enumerate(chain):
        if finer is not None and v not in finer:
            refuse(10, 3, level, spot)
    for spot, (i, j) in enumerate(zip(chain, chain[1:])):
        if not allowed(measure, line, i, j, tolerance):
            refuse(11, 3, level, spot)


def marked(data):
    numbers, at = read(data, 0, 1, lambda s: s == 2)
    vertices, at = read(data, at, 2, lambda s: s % 4 == 0 and 8 <= s <= 1024)
    levels, at = read(data, at, 3, lambda s: s % 8 == 0 and 8 <= s <= 64)
    measure, price = numbers
    if measure not in (1, 2, 3):
        refuse(8, 2, 0)
    if price not in (1, 2):
        refuse(8, 2, 1)
    line = list(struct.iter_unpack('<hh', vertices))
    for i, (x, y) in enumerate(line):
        if not (-16384 <= x <= 16383 and -16384 <= y <= 16383):
            refuse(5, 2, i)
    levels = list(struct.iter_unpack('<II', levels))
    for k, (t, w) in enumerate(levels):
        if k and t <= levels[k - 1][0] or t > LARGEST[measure]:
            refuse(6, 2, k + 1)
        if not 1 <= w <= 1000:
            refuse(7, 2, k + 1)
    data, at, chains = data[at:], 0, []
    for _ in levels:
        body, at = read(data, at, 4, lambda s: s % 2 == 0 and 4 <= s <= 2 * len(line))
        chains.append([v for v, in struct.iter_unpack('<H', body)])
    body, at = read(data, at, 5, lambda s: s == 12)
    if at != len(data):
        refuse(4, 1, at)
    for k, chain in enumerate(chains):
        judge_chain(measure, line, chain, chains[k - 1] if k else None, k + 1, levels[k][0])
    form = total(price, line, levels, chains)
    if struct.unpack('<IQ', body) != form:
        refuse(12, 3, 0)
    return 'valid %d %d' % form


def verdict(data):
    try:
        return marked(data)
    except Refused as r:
        return str(r)


FIVE = [(0, 0), (2, 1), (4, 0), (6, 3), (8, 0)]
TWO_LEVELS = [(1, 1), (3, 1)]
CHAINS = [[0, 2, 3, 4], [0, 4]]


def with_total(measure, price, line, levels, chains):
    return job(measure, price, line, levels) + family(chains, total(price, line, levels, chains))


def limits():
    five = FIVE[:]
    for x in (16383, 16384, -16384, -16385, 32767, -32768):
        for spot in (0, 4):
            for axis in (0, 1):
                line = [list(v) for v in five]
                line[spot][axis] = x
                yield job(1, 1, line, [(32768, 1)]) + family([[0, 1, 2, 3, 4]], (4, 0))
    for n in (1, 2, 3, 255, 256, 257):
        line = [(k % 7, k % 5) for k in range(n)]
        yield job(2, 1, line, [(0, 1)]) + family([list(range(n))], (n - 1, 0))
    for m in (0, 1, 7, 8, 9):
        levels = [(k, k + 1) for k in range(m)]
        chains = [[0, 1, 2, 3, 4]] * m
        yield job(3, 2, five, levels) + family(chains, total(2, five, levels, chains))
    for measure, top in LARGEST.items():
        for t in (0, top - 1, top, top + 1, 2**32 - 1):
            yield with_total(measure, 1, five, [(t, 1)], [[0, 1, 2, 3, 4]])
    for w in (0, 1, 1000, 1001, 2**32 - 1):
        yield with_total(1, 2, five, [(1, w)], [[0, 1, 2, 3, 4]])
        yield with_total(1, 1, five, [(1, 5), (2, w)], [[0, 1, 2, 3, 4]] * 2)
    for measure in (0, 1, 2, 3, 4, 255):
        for price in (0, 1, 2, 3, 255):
            yield job(measure, price, five, TWO_LEVELS) + family(CHAINS, (4, 0))
    for levels in ([(1, 1), (1, 1)], [(2, 1), (1, 1)], [(1, 0), (1, 1)], [(1, 1), (1, 0)], [(40000, 0), (1, 1)]):
        yield job(1, 1, five, levels) + family(CHAINS, (4, 0))


def chain_faults():
    for chains in ([[1, 2, 3, 4], [0, 4]], [[0, 2, 3], [0, 4]], [[0, 3, 2, 4], [0, 4]], [[0, 2, 2, 4], [0, 4]], [[0, 9, 4], [0, 4]], [[0, 65535, 4], [0, 4]],
                   [[0, 2, 3, 4], [0, 1, 4]], [[0, 2, 3, 4], [0, 3, 1, 4]], [[0, 4], [0, 4]], [[0, 2, 4], [0, 4]], [[0, 2, 3, 4], [0, 3, 4]],
                   [[0, 2, 3, 4], [2, 4]], [[0, 4], [1, 4]], [[0, 2, 3, 4], [0, 3]], [[0, 1, 2, 3, 4], [0, 4]], [[0, 2, 3, 4], [0, 2, 3, 4]],
                   [[0, 2, 3, 4], [1, 1]], [[0, 1, 3, 4], [0, 2, 4]], [[0, 0], [0, 4]], [[4, 4], [0, 4]], [[0, 1, 2, 3, 4, 4], [0, 4]], [[0, 5], [0, 4]]):
        yield job(1, 1, FIVE, TWO_LEVELS) + family(chains, (4, 0))
    wide = [(100, 1), (200, 1), (300, 2)]
    for chains in ([[0, 2, 4], [0, 1, 4], [0, 4]], [[0, 2, 4], [0, 2, 4], [0, 3, 4]], [[0, 4], [0, 1, 2, 4], [0, 4]], [[0, 1, 4], [0, 1, 4], [0, 1, 2, 4]],
                   [[0, 1, 2, 4], [0, 4], [0, 1, 4]], [[0, 1, 4], [0, 3, 4], [0, 5, 4]], [[0, 1, 2, 3, 4], [0, 2, 4], [0, 2, 4]]):
        yield with_total(2, 1, FIVE, wide, chains)
    for form in ((4, 1), (3, 0), (5, 0), (0, 4), (4, 2**63)):
        yield job(1, 1, FIVE, TWO_LEVELS) + family(CHAINS, form)
    good = total(2, FIVE, TWO_LEVELS, CHAINS)
    for form in (good, (good[0], good[1] + 1), (good[0] + 1, good[1]), (good[0], 0)):
        yield job(1, 2, FIVE, TWO_LEVELS) + family(CHAINS, form)


def damaged():
    sound = job(1, 1, FIVE, TWO_LEVELS) + family(CHAINS, (4, 0))
    for k in range(len(sound)):
        yield sound[:k]
        for change in (1, 255):
            yield sound[:k] + bytes([(sound[k] + change) % 256]) + sound[k + 1:]
    yield sound
    yield sound + b'\0'
    yield sound + sound
    head = job(1, 1, FIVE, TWO_LEVELS)
    # two faults at once: structure before content, content before the chains' structure
    yield head.replace(b'\x01\x01', b'\x09\x01', 1)[:-1]
    yield job(9, 9, [(20000, 0)] * 2, [(1, 0)]) + b'\0'
    yield job(1, 9, [(20000, 0)] * 2, [(1, 0)])
    yield job(1, 1, [(20000, 0)] * 2, [(1, 0)])
    yield job(1, 1, [(0, 0)] * 2, [(1, 0)])
    yield head + chain_record([0, 2, 3, 4])
    yield head + chain_record([0, 4]) + record(5, struct.pack('<IQ', 4, 0))
    yield head + chain_record([1, 2]) + chain_record([0, 4]) + record(5, struct.pack('<IQ', 4, 0)) + b'\0'
    yield head + record(4, b'\0\0') + chain_record([0, 4]) + record(5, struct.pack('<IQ', 4, 0))
    yield head + record(4, b'\0\0\1') + chain_record([0, 4]) + record(5, struct.pack('<IQ', 4, 0))


def drawn(rng, count):
    for _ in range(count):
        n = rng.choice([2, 3, 4, 5, 8, 12, 20])
        m = rng.choice([1, 2, 3, 4])
        span = rng.choice([4, 30, 16383])
        line = [(rng.randint(-span, span), rng.randint(-span, span)) for _ in range(n)]
        measure, price = rng.choice([1, 2, 3]), rng.choice([1, 2])
        reach = span * span * 4 if measure == 3 else span * 2
        tolerances = sorted(rng.sample(range(min(reach, LARGEST[measure]) + m), m))
        levels = [(t, rng.choice([1, 2, 10, 1000])) for t in tolerances]
        chains, finer = [], list(range(n))
        for t, _ in levels:
            chain = [0]
            while chain[-1] != n - 1:
                open_to = [v for v in finer if v > chain[-1] and allowed(measure, line, chain[-1], v, t)]
                chain.append(rng.choice(open_to) if open_to else n - 1)
            chains.append(chain)
            finer = chain
        form = total(price, line, levels, chains)
        if rng.random() < 0.1:
            form = form[0] + rng.choice([-1, 1]) if form[0] else 1, form[1]
        data = bytearray(job(measure, price, line, levels) + family(chains, form))
        if rng.random() < 0.25:
            data[rng.randrange(len(data))] = rng.randrange(256)
        yield bytes(data)


def largest_pack():
    line = [(k * 64 - 8192, 0) for k in range(256)]
    levels = [(k, 1000) for k in range(8)]
    yield with_total(1, 2, line, levels, [list(range(256))] * 8)
    yield with_total(3, 2, line, levels, [list(range(256))] * 7 + [[0, 255]])


def lines():
    rng = random.Random(20261117)
    for source in (limits(), chain_faults(), damaged(), drawn(rng, 300), largest_pack()):
        for data in source:
            yield data.hex(), verdict(data)
    for size in (0, 1, 5, 6, 7, 40, 200):
        data = rng.randbytes(size)
        yield data.hex().upper(), verdict(data)
    for text in ('0', 'xyz', '0g', '02000000010', '0x02', ' 02'):
        yield text, 'not hex'


def main():
    here = os.path.join(os.path.dirname(os.path.abspath(__file__)), '..', 'crates', 'mark_hex')
    cases = list(lines())
    with open(os.path.join(here, 'stdin'), 'w') as f:
        f.writelines(text + '\n' for text, _ in cases)
    with open(os.path.join(here, 'stdout'), 'w') as f:
        f.writelines(line + '\n' for _, line in cases)


if __name__ == '__main__':
    main()
