"""Job packs, family packs and scripts of edits, sound and damaged, all drawn from a random.Random that the caller gives.

What stands here knows the bytes of packs and the limits of their numbers. It judges no link and finds no family: the chains of
family packs are handed in, and links are measured only to put tolerances right at what they need, or one below."""
import math
import struct

LOWEST, HIGHEST = -16384, 16383
LARGEST = {1: 32768, 2: 32768, 3: 2147483647}
MOST_VERTICES, MOST_LEVELS, MOST_WEIGHT = 256, 8, 1000
U16, U32, U64 = 2**16 - 1, 2**32 - 1, 2**64 - 1


# Bytes.

def record(kind, body, length=None):
    """A record; another length than that of its body may be written."""
    return struct.pack('<IH', len(body) if length is None else length, kind) + body


def numbers_record(measure, price):
    return record(1, bytes([measure, price]))


def line_record(line):
    return record(2, b''.join(struct.pack('<hh', x, y) for x, y in line))


def levels_record(levels):
    return record(3, b''.join(struct.pack('<II', t & U32, w & U32) for t, w in levels))


def chain_record(chain):
    return record(4, b''.join(struct.pack('<H', v & U16) for v in chain))


def total_record(total):
    return record(5, struct.pack('<IQ', total[0] & U32, total[1] & U64))


class Job:
    """A job, lawful or not, as the values that its pack holds."""

    def __init__(self, measure, price, line, levels):
        self.measure, self.price, self.line, self.levels = measure, price, list(line), list(levels)

    def copy(self):
        return Job(self.measure, self.price, self.line, self.levels)

    def records(self):
        return [numbers_record(self.measure, self.price), line_record(self.line), levels_record(self.levels)]

    def pack(self):
        return b''.join(self.records())


class Family:
    """A job with a chain for each level and a total, true or not."""

    def __init__(self, job, chains, total):
        self.job, self.chains, self.total = job.copy(), [list(c) for c in chains], tuple(total)

    def copy(self):
        return Family(self.job, self.chains, self.total)

    def records(self):
        return self.job.records() + [chain_record(c) for c in self.chains] + [total_record(self.total)]

    def pack(self):
        return b''.join(self.records())


# Sound jobs.

def clamp(value):
    return max(LOWEST, min(HIGHEST, value))


def some_count(rng, longest):
    """A number of vertices: most often up to 40, sometimes more, at times the limit."""
    draw = rng.random()
    if draw < 0.03:
        return 2
    if draw < 0.94:
        return rng.randint(2, min(40, longest))
    if draw < 0.985:
        return rng.randint(min(41, longest), min(128, longest))
    return rng.choice([longest, longest, rng.randint(2, longest)])


def scattered(rng, n, span):
    return [(rng.randint(-span, span), rng.randint(-span, span)) for _ in range(n)]


def walked(rng, n, span):
    """Each vertex a small step from the one before."""
    x, y, line = rng.randint(-span, span), rng.randint(-span, span), []
    for _ in range(n):
        line.append((clamp(x), clamp(y)))
        x, y = x + rng.randint(-span // 4 - 1, span // 2 + 1), y + rng.randint(-span // 4 - 1, span // 4 + 1)
    return line


def straight(rng, n, span):
    """Nearly on one straight, with noise across it."""
    dx, dy, noise = rng.randint(-span, span), rng.randint(-span, span), rng.choice([0, 0, 1, 2, 5])
    return [(clamp(k * dx // n + rng.randint(-noise, noise)), clamp(k * dy // n + rng.randint(-noise, noise))) for k in range(n)]


def doubled(rng, n, span):
    """Few different points, met again and again."""
    points = scattered(rng, rng.randint(1, 4), span)
    return [rng.choice(points) for _ in range(n)]


def closed(rng, n, span):
    line = walked(rng, n, span)
    line[-1] = line[0]
    return line


def there_and_back(rng, n, span):
    half = walked(rng, (n + 1) // 2, span)
    return half + half[::-1][:n - len(half)]


def cornered(rng, n, _span):
    """Between the corners and the middle of what is in range."""
    ends = [LOWEST, LOWEST + 1, -1, 0, 1, HIGHEST - 1, HIGHEST]
    return [(rng.choice(ends), rng.choice(ends)) for _ in range(n)]


SHAPES = [scattered, walked, walked, walked, straight, straight, doubled, closed, there_and_back, cornered]


def some_tolerances(rng, measure, m, span):
    """So many tolerances that rise, most often about as large as the line is wide, sometimes up to the largest."""
    largest = LARGEST[measure]
    reach = max(m, span * span // rng.choice([1, 4, 20]) if measure == 3 else span // rng.choice([1, 2, 8]))
    if rng.random() < 0.06:
        reach = largest
    reach = min(reach + m, largest)
    tolerances = sorted(rng.sample(range(reach + 1), m))
    if rng.random() < 0.15:
        tolerances[0] = 0
    if rng.random() < 0.04:
        tolerances[-1] = largest
    if rng.random() < 0.02:
        tolerances = [largest - m + 1 + k for k in range(m)]
    return tolerances


def root(square):
    """The least whole number whose square is not below a number."""
    return math.isqrt(square - 1) + 1 if square else 0


def needed(measure, line, i, k, j):
    """The least tolerance that suffices for a link, by area; else for one vertex that it skips, by segment or strip."""
    if measure == 3:
        walk = line[i:j + 1] + [line[i]]
        return abs(sum(px * qy - py * qx for (px, py), (qx, qy) in zip(walk, walk[1:])))
    (px, py), (qx, qy), (vx, vy) = line[i], line[j], line[k]
    ax, ay, bx, by = qx - px, qy - py, vx - px, vy - py
    length, along, across = ax * ax + ay * ay, ax * bx + ay * by, ax * by - ay * bx
    if length == 0 or measure == 1 and along <= 0:
        return root(bx * bx + by * by)
    if measure == 1 and along >= length:
        return root((vx - qx) ** 2 + (vy - qy) ** 2)
    return root(-(-across * across // length))


def sharpened(rng, measure, line, tolerances):
    """The same tolerances, but some are what a link needs or one below, where they still rise and are lawful."""
    for _ in range(len(tolerances)):
        i = rng.randrange(len(line) - 2)
        j = min(len(line) - 1, i + rng.choice([2, 2, 2, 3, 4, 9]))
        sharp = needed(measure, line, i, rng.randrange(i + 1, j), j) - rng.randint(0, 1)
        others = rng.sample(tolerances, len(tolerances) - 1)
        if 0 <= sharp <= LARGEST[measure] and sharp not in others:
            tolerances = sorted([*others, sharp])
    return tolerances


def some_weights(rng, m):
    style = rng.randrange(5)
    if style == 0:
        return [1] * m
    if style == 1:
        return [rng.choice([1, 10, MOST_WEIGHT]) for _ in range(m)]
    if style == 2:
        return [MOST_WEIGHT] * m
    return [rng.randint(1, 9 if style == 3 else MOST_WEIGHT) for _ in range(m)]


def some_job(rng, longest=MOST_VERTICES):
    """A lawful job."""
    n, m = some_count(rng, longest), rng.choice([1, 1, 2, 2, 3, 3, 4, 5, 6, 7, 8])
    span = rng.choice([2, 5, 10, 10, 30, 100, 1000, 16000])
    line = rng.choice(SHAPES)(rng, n, span)
    measure, price = rng.randint(1, 3), rng.randint(1, 2)
    tolerances = some_tolerances(rng, measure, m, span)
    if n > 2 and rng.random() < 0.4:
        tolerances = sharpened(rng, measure, line, tolerances)
    return Job(measure, price, line, list(zip(tolerances, some_weights(rng, m))))


def close_jobs():
    """Jobs with one skipped vertex, which misses a tolerance of 2 k by so little that floating point of 64 bits may not tell it: for the link
    (k, 1) and the way (-1, 2 k) to the vertex, c^2 is t^2 A + 1."""
    for k in (3, 100, 4096, 9999, 15000, 16382, 16383):
        for measure in (1, 2):
            for line in ([(0, 0), (-1, 2 * k), (k, 1)], [(0, 0), (2 * k, -1), (1, k)], [(0, 1), (2 * k, 0), (1, 1 - k)]):
                x, y = min(px for px, _ in line), min(py for _, py in line)
                moved = [(px - x + LOWEST, py - y + LOWEST) for px, py in line]
                yield Job(measure, 2, moved, [(2 * k, 1)])
                yield Job(measure, 2, moved, [(2 * k - 1, 1), (2 * k, 7), (2 * k + 1, 1)])


# Numbers of vertices and levels.
LIMITS = [
    (2, 1), (2, 8), (3, 1), (22, 8), (23, 8), (25, 6), (26, 6), (36, 3), (37, 3), (40, 1), (40, 2), (40, 3), (41, 1), (255, 2), (256, 1), (256, 8),
]


def limit_jobs():
    """Jobs at the limits: the fewest and most vertices and levels, the numbers on both sides of where the memory of `draw` ends, the
    extreme coordinates, tolerances and weights."""
    ends = [(LOWEST, LOWEST), (HIGHEST, HIGHEST), (HIGHEST, LOWEST), (LOWEST, HIGHEST)]
    for measure, largest in LARGEST.items():
        for price in (1, 2):
            for n, m in LIMITS:
                across = [ends[k * 3 % 4] for k in range(n)]
                around = [ends[(0, 2, 1, 3)[k % 4]] for k in range(n)]
                least = [(k, 1) for k in range(m)]
                most = [(largest - m + 1 + k, MOST_WEIGHT) for k in range(m)]
                for line, levels in ((across, most), (around, most), (around, least), ([ends[0]] * n, most)):
                    yield Job(measure, price, line, levels)
    yield from close_jobs()


# Jobs with numbers that are not lawful. Each changes the job that it is given.

def bad_numbers(rng, job):
    if rng.random() < 0.5:
        job.measure = rng.choice([0, 4, 5, 128, 255])
    else:
        job.price = rng.choice([0, 3, 4, 129, 255])


def bad_coordinate(rng, job):
    for _ in range(rng.choice([1, 1, 2, 5])):
        k = rng.choice([0, len(job.line) - 1, rng.randrange(len(job.line))])
        bad = rng.choice([HIGHEST + 1, LOWEST - 1, 32767, -32768, rng.randint(HIGHEST + 1, 32767)])
        other = rng.randint(LOWEST, HIGHEST)
        job.line[k] = rng.choice([(bad, other), (other, bad), (bad, bad)])


def bad_tolerance(rng, job):
    k = rng.randrange(len(job.levels))
    before = job.levels[k - 1][0] if k else 0
    bad = rng.choice([before, max(0, before - 1), LARGEST.get(job.measure, 32768) + 1, U32, 0])
    job.levels[k] = bad, job.levels[k][1]


def bad_weight(rng, job):
    k = rng.randrange(len(job.levels))
    job.levels[k] = job.levels[k][0], rng.choice([0, MOST_WEIGHT + 1, U32, rng.randint(MOST_WEIGHT + 1, U32)])


def bad_size(rng, job):
    """Too few or too many vertices or levels, or the most that there may be."""
    if rng.random() < 0.5:
        n = rng.choice([0, 1, 255, 256, 257, 258, 300])
        job.line = (job.line * (n // len(job.line) + 1))[:n]
    else:
        m = rng.choice([0, 8, 9, 10])
        job.levels = (job.levels + [(job.levels[-1][0] + 1 + k, 1) for k in range(m)])[:m]


JOB_FAULTS = {
    'numbers': bad_numbers, 'coordinate': bad_coordinate, 'tolerance': bad_tolerance, 'weight': bad_weight, 'sizes': bad_size,
}


# Families whose chains or total are not right. Each changes the family that it is given.

def some_chain(rng, family):
    return rng.choice(family.chains)


def bad_order(rng, family):
    chain = some_chain(rng, family)
    k = rng.randrange(len(chain))
    way = rng.randrange(6)
    if way == 0:
        chain[k] = rng.choice([len(family.job.line), U16, rng.randint(0, U16)])
    elif way == 1:
        chain.insert(k, chain[k])
    elif way == 2:
        j = rng.randrange(len(chain))
        chain[k], chain[j] = chain[j], chain[k]
    elif way == 3:
        chain[0] = rng.choice([1, U16])
    elif way == 4:
        chain[-1] = rng.choice([chain[-1] - 1, chain[-1] + 1, 0])
    else:
        chain.reverse()


def other_vertex(rng, family):
    """A vertex more, or a vertex moved to a neighbour, in one chain."""
    chain = some_chain(rng, family)
    if rng.random() < 0.5:
        v = rng.randrange(len(family.job.line))
        if v not in chain:
            chain.append(v)
            chain.sort()
    else:
        k = rng.randrange(len(chain))
        chain[k] = max(0, chain[k] + rng.choice([-1, 1]))


def bad_nesting(rng, family):
    """A vertex that the next finer chain does not have, where there is one."""
    coarser = [k for k in range(1, len(family.chains)) if len(family.chains[k - 1]) < len(family.job.line)]
    if coarser:
        k = rng.choice(coarser)
        family.chains[k] = sorted({*family.chains[k], rng.choice([v for v in range(len(family.job.line)) if v not in family.chains[k - 1]])})


def less_in_one(rng, family):
    """A vertex less in one chain, which a coarser one may still have."""
    chain = some_chain(rng, family)
    if len(chain) > 2:
        del chain[rng.randrange(1, len(chain) - 1)]


def less_in_coarser(rng, family):
    """A vertex less from one level on, so that the chains stay nested."""
    k = rng.randrange(len(family.chains))
    if len(family.chains[k]) > 2:
        v = rng.choice(family.chains[k][1:-1])
        for chain in family.chains[k:]:
            if v in chain:
                chain.remove(v)


def more_in_finer(rng, family):
    """A vertex more up to one level, so that the chains stay nested."""
    k, v = rng.randrange(len(family.chains)), rng.randrange(len(family.job.line))
    for chain in family.chains[:k + 1]:
        if v not in chain:
            chain.append(v)
            chain.sort()


def chains_swapped(rng, family):
    if len(family.chains) > 1:
        k = rng.randrange(len(family.chains) - 1)
        family.chains[k], family.chains[k + 1] = family.chains[k + 1], family.chains[k]


def chain_count(rng, family):
    k = rng.randrange(len(family.chains))
    if rng.random() < 0.5:
        family.chains.insert(k, family.chains[k])
    else:
        del family.chains[k]


def chain_length(rng, family):
    k = rng.randrange(len(family.chains))
    n = len(family.job.line)
    family.chains[k] = rng.choice([[], [0], list(range(n)) + [n], list(range(n)) + [n - 1], [0] * (n + 1), family.chains[k][:1]])


def bad_total(rng, family):
    count, area = family.total
    family.total = rng.choice([
        (count + 1, area), (max(0, count - 1), area), (count, area + 1), (count, max(0, area - 1)), (0, 0), (count, 0),
        (count, U64), (U32, area), (area & U32, count), (count, area ^ 2**63), (count, area ^ 2**32), (count ^ 2**31, area),
    ])


def other_tolerance(rng, family):
    """A tolerance of another size, at which a link may not be allowed."""
    k = rng.randrange(len(family.job.levels))
    t, w = family.job.levels[k]
    family.job.levels[k] = rng.choice([max(0, t - 1), t // 2, t + 1, t * 2 & U32]), w


def other_numbers(rng, family):
    """Another known measure or price, by which the family may be none or its total another."""
    if rng.random() < 0.5:
        family.job.measure = rng.randint(1, 3)
    else:
        family.job.price = 3 - family.job.price


def moved_vertex(rng, family):
    """A vertex of the line elsewhere, so that links and areas differ."""
    k = rng.randrange(len(family.job.line))
    x, y = family.job.line[k]
    family.job.line[k] = clamp(x + rng.choice([-7, -1, 0, 1, 9])), clamp(y + rng.choice([-7, -1, 0, 1, 9]))


FAMILY_FAULTS = {
    'order': bad_order, 'nesting': bad_nesting, 'another vertex': other_vertex, 'vertex less': less_in_one, 'links': less_in_coarser,
    'vertex more': more_in_finer, 'chains swapped': chains_swapped, 'number of chains': chain_count, 'length of a chain': chain_length,
    'total': bad_total,
    'another tolerance': other_tolerance, 'another measure or price': other_numbers, 'a vertex moved': moved_vertex,
}


# Damage to the bytes of a pack, which is given as its records.

def cut(rng, records):
    data = b''.join(records)
    return data[:rng.randrange(len(data) + 1)]


def cut_near_record(rng, records):
    """Cut a few bytes before or after where a record begins."""
    data = b''.join(records)
    start = sum(map(len, records[:rng.randrange(len(records) + 1)]))
    return data[:max(0, start + rng.randint(-3, 8))]


def byte_changed(rng, records):
    data = bytearray(b''.join(records))
    for _ in range(rng.choice([1, 1, 1, 2, 4])):
        k = rng.randrange(len(data))
        data[k] = rng.choice([0, 255, data[k] ^ 1 << rng.randrange(8), (data[k] + 1) % 256, (data[k] - 1) % 256, rng.randrange(256)])
    return bytes(data)


def bytes_more_or_less(rng, records):
    data = b''.join(records)
    k, size = rng.randrange(len(data) + 1), rng.choice([1, 2, 4, 6, 8])
    if rng.random() < 0.5:
        return data[:k] + data[k + size:]
    return data[:k] + rng.choice([bytes(size), rng.randbytes(size)]) + data[k:]


def left_over(rng, records):
    return b''.join(records) + rng.choice([b'\0', rng.randbytes(rng.randint(1, 20)), records[-1], b''.join(records)])


def records_swapped(rng, records):
    records = list(records)
    i, j = rng.randrange(len(records)), rng.randrange(len(records))
    records[i], records[j] = records[j], records[i]
    return b''.join(records)


def record_left_out(rng, records):
    k = rng.randrange(len(records))
    return b''.join(records[:k] + records[k + 1:])


def record_doubled(rng, records):
    k = rng.randrange(len(records))
    return b''.join(records[:k + 1] + records[k:])


def header_changed(rng, records):
    """Another kind or another length in one header; the body stays or is made as long as it says."""
    records = list(records)
    k = rng.randrange(len(records))
    length, kind = struct.unpack_from('<IH', records[k])
    body = records[k][6:]
    if rng.random() < 0.4:
        kind = rng.choice([0, 1, 2, 3, 4, 5, 6, kind + 256, U16])
    else:
        length = rng.choice([0, 1, 2, 3, 4, 8, 12, 1024, 1028, 64, 72, 512, 514, length + 1, length + 2, length + 4, length + 8, length * 2,
                             max(0, length - 1), max(0, length - 2), max(0, length - 4), max(0, length - 8), length + 2**16, U32])
        if rng.random() < 0.5:
            body = (body + rng.choice([bytes(2100), rng.randbytes(2100)]))[:length]
    records[k] = record(kind, body, length)
    return b''.join(records)


BYTE_FAULTS = {
    'cut': cut, 'cut near a record': cut_near_record, 'bytes changed': byte_changed, 'bytes more or less': bytes_more_or_less,
    'left over': left_over, 'records swapped': records_swapped, 'record left out': record_left_out, 'record doubled': record_doubled,
    'header changed': header_changed,
}


def noise(rng):
    return rng.randbytes(rng.choice([0, 1, 5, 6, 7, 8, 36, 64, rng.randint(0, 300)]))


def any_fault(rng, faults):
    """A fault, each as likely as another, with its name."""
    return rng.choice(list(faults.items()))


def damaged_job(rng, job):
    """The name of a sort of damage, and a job pack with it."""
    way = rng.random()
    if way < 0.03:
        return 'noise', noise(rng)
    job = job.copy()
    if way < 0.50:
        name, fault = any_fault(rng, JOB_FAULTS)
        fault(rng, job)
        return name, job.pack()
    if way < 0.85:
        name, fault = any_fault(rng, BYTE_FAULTS)
        return name, fault(rng, job.records())
    for _ in range(rng.randint(1, 4)):
        any_fault(rng, JOB_FAULTS)[1](rng, job)
        if not job.line or not job.levels:
            break
    data = any_fault(rng, BYTE_FAULTS)[1](rng, job.records()) if rng.random() < 0.5 else job.pack()
    return 'several faults', data


def damaged_family(rng, family):
    """The name of a sort of damage, and a family pack with it."""
    way = rng.random()
    if way < 0.02:
        return 'noise', noise(rng)
    family = family.copy()
    if way < 0.58:
        name, fault = any_fault(rng, FAMILY_FAULTS)
        fault(rng, family)
        return name, family.pack()
    if way < 0.66:
        name, fault = any_fault(rng, JOB_FAULTS)
        fault(rng, family.job)
        return name, family.pack()
    if way < 0.86:
        name, fault = any_fault(rng, BYTE_FAULTS)
        return name, fault(rng, family.records())
    return 'several faults', several_faults(rng, family)


def several_faults(rng, family):
    for _ in range(rng.randint(2, 4)):
        if not family.chains or not all(family.chains):
            break
        any_fault(rng, FAMILY_FAULTS)[1](rng, family)
    if rng.random() < 0.3:
        any_fault(rng, JOB_FAULTS)[1](rng, family.job)
    if rng.random() < 0.3:
        return any_fault(rng, BYTE_FAULTS)[1](rng, family.records())
    return family.pack()


# Scripts.

def family_script(rng, job):
    """Edits that make the drawn family one of the job itself: pins, and tolerances that go down. It ends in a draw."""
    n, edits = len(job.line), []
    inner = range(1, n - 1)
    for v in rng.sample(inner, min(len(inner), rng.choice([0, 0, 1, 2, 3, 8, 32]))):
        edits.append(f'pin {v}')
    before = -1
    for k, (t, _) in enumerate(job.levels, 1):
        if rng.random() < 0.3:
            t = rng.randint(before + 1, t)
            edits.append(f'retune {k} {t}')
        before = t
    return edits + ['draw']


def some_number(rng, most):
    """Most often one that is met, sometimes one at or beyond a limit."""
    if rng.random() < 0.08:
        return rng.choice([0, most, most + 1, most + 2, U16, U32])
    return rng.randint(1, max(1, most))


def some_edit(rng, job):
    n = len(job.line)
    way = rng.random()
    if way < 0.40:
        return f'pin {some_number(rng, n - 2)}'
    if way < 0.58:
        return f'release {some_number(rng, n - 2)}'
    if way < 0.88:
        k = some_number(rng, len(job.levels))
        t = job.levels[min(max(k, 1), len(job.levels)) - 1][0]
        t = rng.choice([t, t + 1, max(0, t - 1), t // 2, min(U32, t * 2), rng.choice([0, LARGEST[job.measure], LARGEST[job.measure] + 1, U32])])
        return f'retune {k} {t}'
    return 'draw'


def spelled(rng, edit):
    """The same edit written otherwise."""
    words = edit.split()
    if rng.random() < 0.5:
        words = [w if not w.isdigit() else '0' * rng.choice([1, 2, 12]) + w for w in words]
    blanks = [' ', '  ', '\t', ' \t ', '\r', ' \r\t']
    return rng.choice(['', ' ', '\t']) + rng.choice(blanks).join(words) + rng.choice(['', ' ', '\r', '\t\r'])


PASSED_OVER = ['', ' ', '\t', '\r', '# note', '#', '  # pin 1', '#draw', '\t#\t']
UNREADABLE = [
    'pin', 'pin 1 2', 'pin -1', 'pin +1', 'pin 1.5', 'pin one', 'pin 0x1', 'pin 4294967296', 'pin 99999999999999999999999', 'pin 1 #', 'Pin 1',
    'PIN 1', 'pins 1', 'pin1', 'release', 'release 1 1', 'release x', 'retune', 'retune 1', 'retune 1 2 3', 'retune 1 4294967296',
    'retune 4294967296 1', 'retune a 1', 'draw 1', 'draw #', 'undo', '-', 'pin\f1', 'pin\v1', 'pin 1,', 'pin \u00a01', 'pin \u0661', 'pin 1\u00a0',
    'd raw', 'drawdraw', '0', 'pin 1_0', 'pin \0', '\ufeffdraw', 'pin 1e1', 'pin \u00bd', 'draw,', '// draw', "pin '1'",
]


def some_script(rng, job, bad):
    """Edits of all kinds, some written otherwise, with lines that are passed over and, if so asked, some that cannot be read."""
    most = rng.choice([1, 5, 12, 25, 60]) if len(job.line) <= 60 else 8
    edits = [some_edit(rng, job) for _ in range(rng.randint(0, most))]
    if len(job.line) > 36 and rng.random() < 0.3:
        edits = [f'pin {v}' for v in rng.sample(range(1, len(job.line) - 1), 34)] + edits
    edits.append('draw')
    edits = [spelled(rng, e) if rng.random() < 0.15 else e for e in edits]
    for extra in [PASSED_OVER] * rng.choice([0, 0, 1, 3]) + [UNREADABLE] * (rng.choice([1, 1, 2]) if bad else 0):
        edits.insert(rng.randint(0, len(edits)), rng.choice(extra))
    return edits


# Lines of hexadecimal digits.

def some_digits(rng, data):
    """The digits of a pack: most often small letters, sometimes large or both."""
    text = data.hex()
    way = rng.random()
    if way < 0.9:
        return text
    if way < 0.95:
        return text.upper()
    return ''.join(rng.choice([c, c.upper()]) for c in text)


def no_digits(rng, data):
    """A line that is no hexadecimal text of whole bytes."""
    text = data.hex()
    k = rng.randrange(len(text) + 1)
    bad = rng.choice(['g', 'G', 'x', ' ', '-', '+', '.', '\t', '\r', '\0', ':', '@', '`', '/', '\u00e9', '\u0660', '\uff10', '\ufeff', '\U0001d7d8'])
    return rng.choice([text[:k] + bad + text[k:], text[:k] + bad + text[k + 1:], text[:-1], text + '0', '0x' + text, bad + text, text + bad])
