#!/usr/bin/env python3
"""Writes the batch of job packs and edits that `edit_hex` is run on, and what it must print for each line.

The answers come from the plain sheet below, which follows docs/RULES.md and docs/REFUSALS.md and shares no code with the
crates; it draws by the plain recurrence of least_cases.py, where no link may skip a pin. Of small lines all families with the
pins are listed too, and none may be cheaper than the drawing. The same author wrote the crates, so this finds slips, and not
a rule that was misread in both. The numbers are drawn from a fixed start, so a second run writes the same files.

    tools/edit_cases.py            writes stdin and stdout of crates/edit_hex
    tools/edit_cases.py --check    only compares these files, and ends with status 1 where they differ
"""
import random
import re
import sys

sys.dont_write_bytecode = True
from least_cases import Job, compare, largest, read_job
from mark_cases import FIVE, LARGEST, TWO_LEVELS, Refused, job, refuse

MOST_PINS = 32

# What the lines of a script may be: the name of an edit, and how many numbers follow it.
EDITS = {'pin': 1, 'release': 1, 'retune': 2, 'draw': 0}


class Sheet:
    """A sheet opened with a lawful job: each edit answers what is printed for it, or refuses and changes nothing."""

    def __init__(self, measure, price, line, levels):
        self.measure, self.price, self.line = measure, price, line
        self.levels, self.pins = list(levels), set()

    def check_inner(self, v):
        if not 1 <= v <= len(self.line) - 2:
            refuse(13, 4, v)

    def pin(self, v):
        self.check_inner(v)
        if v in self.pins:
            refuse(14, 4, v)
        if len(self.pins) == MOST_PINS:
            refuse(16, 4, 0)
        self.pins.add(v)
        return [f'pinned {v}']

    def release(self, v):
        self.check_inner(v)
        if v not in self.pins:
            refuse(15, 4, v)
        self.pins.remove(v)
        return [f'released {v}']

    def neighbours(self, k):
        """The numbers strictly between which the tolerance of level k may lie."""
        before = self.levels[k - 2][0] if k > 1 else -1
        after = self.levels[k][0] if k < len(self.levels) else LARGEST[self.measure] + 1
        return before, after

    def retune(self, k, t):
        if not 1 <= k <= len(self.levels):
            refuse(19, 4, k)
        before, after = self.neighbours(k)
        if not before < t < after:
            refuse(6, 4, k)
        self.levels[k - 1] = t, self.levels[k - 1][1]
        return [f'retuned {k} {t}']

    def draw(self):
        content = self.measure, self.price, self.line, self.levels
        work = Job(*content, self.pins)
        if (work.m + 1) ** (work.n - 2 - len(self.pins)) <= 100:
            assert min(Job(*content).families(self.pins)) == work.total(work.m, 0, work.n - 1)
        return work.drawing()

    def perform(self, name, *numbers):
        """The lines that are printed for an edit."""
        try:
            return getattr(self, name)(*numbers)
        except Refused as r:
            return [str(r)]


def read_edit(words):
    """The edit that words order, or none."""
    name, *numbers = words
    if EDITS.get(name) != len(numbers) or not all(re.fullmatch('[0-9]+', w) and int(w) < 2**32 for w in numbers):
        return None
    return name, *map(int, numbers)


def read_script(text):
    """The edits of a script, or the number of the first line that cannot be read."""
    edits = []
    for n, line in enumerate(text.split(';'), 1):
        words = re.findall('[^ \t\r]+', line)
        if words and not words[0].startswith('#'):
            edit = read_edit(words)
            if edit is None:
                return None, n
            edits.append(edit)
    return edits, None


def answer(data, script):
    """What `edit_hex` prints for a pack and the edits of a script."""
    edits, unreadable = read_script(script)
    if unreadable:
        return [f'line {unreadable}: expected pin V, release V, retune K T or draw']
    try:
        sheet = Sheet(*read_job(data))
    except Refused as r:
        return [str(r)]
    return [line for edit in edits for line in sheet.perform(*edit)]


def some_vertex(rng, sheet):
    """Most often an inner vertex, sometimes none."""
    n = len(sheet.line)
    return rng.choice([0, n - 1, n, 2**32 - 1]) if rng.random() < 0.1 else rng.randint(1, max(1, n - 2))


def some_tolerance(rng, sheet, k):
    """Most often between the neighbours of a level, sometimes at one of them or beyond."""
    if not 1 <= k <= len(sheet.levels):
        return rng.randint(0, 50)
    before, after = sheet.neighbours(k)
    if rng.random() < 0.2:
        return max(0, rng.choice([before - 1, before, after, after + 1, 2**32 - 1]))
    return rng.randint(before + 1, min(after - 1, before + 40)) if after - before > 1 else before + 1


def some_edit(rng, sheet):
    name = rng.choices(list(EDITS), [35, 20, 20, 25])[0]
    if name == 'pin':
        return name, some_vertex(rng, sheet)
    if name == 'release':
        return name, rng.choice(sorted(sheet.pins)) if sheet.pins and rng.random() < 0.7 else some_vertex(rng, sheet)
    if name == 'retune':
        m = len(sheet.levels)
        k = rng.choice([0, m + 1, 2**32 - 1]) if rng.random() < 0.1 else rng.randint(1, m)
        return name, k, some_tolerance(rng, sheet, k)
    return name,


def some_job(rng):
    measure, m, n = rng.randint(1, 3), rng.randint(1, 4), rng.randint(3, 12)
    span = rng.choice([3, 8, 12, 20, 16383])
    line = [(rng.randint(-span, span), rng.randint(-span, span)) for _ in range(n)]
    most = min(span * span if measure == 3 else span + 4, LARGEST[measure])
    levels = [(t, rng.choice([1, 1, 2, 10, 1000])) for t in sorted(rng.sample(range(most + 1), m))]
    return measure, rng.randint(1, 2), line, levels


def drawn():
    """Jobs drawn at random, each with edits drawn to fit the sheet as it stands after the edits before them."""
    rng = random.Random(20261126)
    for _ in range(300):
        content = some_job(rng)
        sheet, edits = Sheet(*content), []
        for _ in range(rng.randint(5, 25)):
            edit = some_edit(rng, sheet)
            edits.append(' '.join(map(str, edit)))
            if edit[0] != 'draw':
                sheet.perform(*edit)
        yield job(*content), ';'.join(edits)


def limits():
    """The shortest line, the most pins, the longest line, and numbers at their limits."""
    shortest = job(1, 1, [(0, 0), (5, 5)], [(0, 1)])
    yield shortest, 'draw;pin 0;pin 1;pin 2;release 0;release 1;retune 1 32768;retune 1 32769;draw'
    line = [(k * 3, k * k % 11) for k in range(45)]
    pins = ';'.join(f'pin {v}' for v in range(1, 33))
    wide = job(2, 2, line, [(2, 1), (5, 3)])
    yield wide, f'{pins};draw;pin 33;pin 5;pin 44;pin 0;draw;release 7;pin 33;pin 7;pin 33;release 7;draw;release 33;pin 43;draw'
    spread = ';'.join(f'pin {v}' for v in range(7, 255, 8))
    yield next(largest()), f'{spread};draw;pin 254;retune 8 33;pin 1;pin 2;release 127;pin 254;draw'
    for measure, top in LARGEST.items():
        yield (job(measure, 1, FIVE, [(1, 1), (top, 2)]),
               f'retune 2 {top};retune 2 {top + 1};retune 2 {2**32 - 1};retune 1 {top};retune 1 {top - 1};retune 1 0;retune 0 1;retune 3 1;draw')
    yield job(3, 1, FIVE, [(k, 1) for k in range(1, 9)]), ';'.join(f'retune {k} {k - 1}' for k in range(10)) + ';draw'
    yield job(3, 1, FIVE, [(k, 1) for k in range(1, 9)]), ';'.join(f'retune {k} {k + 1}' for k in range(9, -1, -1)) + ';draw'


SCRIPTS = [
    '', ';', ';;draw', 'draw;', ' \t;draw', '# pin 1;draw', '#;#draw;  # draw', ' \tpin   002\t;draw', 'pin 2; # a corner;;draw;',
    'pin 00000000000000000000002;draw', 'pin 4294967295', 'pin 4294967296', 'retune 4294967295 4294967295',
    'retune 1 4294967296', 'pin', 'pin 1 2', 'pin -1', 'pin +1', 'pin 1.0', 'pin one', 'pin 0x1', 'pin 1 # corner', 'Pin 1',
    'pins 1', 'pin1', 'release', 'release 1 2', 'release a', 'retune', 'retune 1', 'retune 1 2 3', 'retune x 2', 'retune 1 y',
    'draw 1', 'draw draw', 'undo', 'draw # now', 'pin\f1', 'pin 1,draw', 'pin 1;draw;undo;draw;redo', ';# one;undo', 'pin 9;undo',
]


def scripts():
    """Blank lines, comments, numbers written otherwise, and lines that cannot be read."""
    for text in SCRIPTS:
        yield job(1, 1, FIVE, TWO_LEVELS), text


def refused():
    """Packs that are no job, with scripts that can be read and some that cannot."""
    whole = job(1, 1, FIVE, TWO_LEVELS)
    for data in (b'', whole[:-1], whole + b'\0', job(4, 1, FIVE, TWO_LEVELS), job(1, 3, FIVE, TWO_LEVELS), job(1, 1, FIVE, [(1, 1), (1, 1)]),
                 job(1, 1, FIVE, [(1, 0)]), job(1, 1, [(20000, 0), (0, 0)], TWO_LEVELS), job(1, 1, FIVE[:1], TWO_LEVELS)):
        for text in ('', 'draw', 'pin 2;draw', 'pin 2;undo'):
            yield data, text


def cases():
    """Each line of the input, and the lines that are printed for it."""
    for source in (drawn(), limits(), scripts(), refused()):
        for data, script in source:
            yield f'{data.hex()} {script}', answer(data, script)
    whole = job(2, 2, FIVE, TWO_LEVELS)
    yield whole.hex(), []
    yield whole.hex().upper() + ' pin 1;draw', answer(whole, 'pin 1;draw')
    for text in ('0 draw', 'xyz draw', ';draw', 'draw', '0x02 pin 1'):
        yield text, ['not hex']


def main():
    sys.exit(compare('edit_hex', cases()))


if __name__ == '__main__':
    main()
