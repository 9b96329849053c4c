#!/usr/bin/env python3
"""Holds the programs of the crates against the second program, on packs and scripts drawn from a starting number.

Both get the same input, and every byte that they print, their status, and whether they print to standard error must be the same.
Sound families come from what the second program draws under pins and lower tolerances.

    tools/second/compare.py [--start N] [--batches N]      compares, prints how many packs of each sort were held against
                                                           each other and every difference, and ends with status 1 if there is one
    tools/second/compare.py --store                        writes stdin and stdout of crates/compared from the second program

Beforehand: `rt run` in crates/mark, least, draw and edit and in those with _hex, and `cargo build --release` in second/."""
import argparse
import collections
import concurrent.futures
import os
import random
import re
import subprocess
import sys
import tempfile
import time

sys.dont_write_bytecode = True
import packs
from packs import Family

TOP = os.path.dirname(os.path.dirname(os.path.dirname(os.path.abspath(__file__))))
SECOND = os.path.join(TOP, 'second', 'target', 'release', 'second')
START = 20261127
JOBS = 50

Line = collections.namedtuple('Line', 'sort text')
Ran = collections.namedtuple('Ran', 'stdout status says_more')


def first(name):
    return [os.path.join(TOP, 'crates', name, 'out', name)]


def second(name):
    return [SECOND, name]


def run(command, data):
    """What a program prints, its status, and whether it prints to standard error."""
    ran = subprocess.run(command, input=data, stdout=subprocess.PIPE, stderr=subprocess.PIPE)
    return Ran(ran.stdout, ran.returncode, bool(ran.stderr))


def both(pool, name, data, *arguments):
    """What the program and the second one make of the same input."""
    return list(pool.map(lambda command: run(command + list(arguments), data), (first(name), second(name))))


# What a batch holds.

def job_lines(rng, jobs):
    """Each job sound, and once with damage; and now and then a line that is no pack."""
    for job in jobs:
        yield Line('sound', packs.some_digits(rng, job.pack()))
        sort, data = packs.damaged_job(rng, job)
        yield Line(sort, packs.some_digits(rng, data))
    yield Line('no digits', packs.no_digits(rng, jobs[0].pack()))


def all_vertices(job):
    """The family whose chains have every vertex; no link skips one, so that the area is 0."""
    n = len(job.line)
    return Family(job, [list(range(n))] * len(job.levels), ((n - 1) * sum(w for _, w in job.levels), 0))


def family_lines(rng, families):
    for family in families:
        yield Line('sound', packs.some_digits(rng, family.pack()))
        for _ in range(6):
            sort, data = packs.damaged_family(rng, family)
            yield Line(sort, packs.some_digits(rng, data))
    yield Line('a job', families[0].job.pack().hex())
    yield Line('every vertex', all_vertices(families[1].job).pack().hex())
    yield Line('no digits', packs.no_digits(rng, families[2].pack()))


def source_lines(rng, jobs):
    for job in jobs:
        yield Line('pins and tolerances', f'{job.pack().hex()} {";".join(packs.family_script(rng, job))}')


def script_lines(rng, jobs):
    """Scripts of all kinds; a tenth have a line that cannot be read, a tenth a damaged pack, and some both."""
    for job in jobs:
        bad_script, bad_pack = rng.random() < 0.1, rng.random() < 0.1
        script = ';'.join(packs.some_script(rng, job, bad_script))
        data = packs.damaged_job(rng, job)[1] if bad_pack else job.pack()
        sort = ['a script', 'a bad line', 'a damaged pack', 'both'][bad_script + 2 * bad_pack]
        yield Line(sort, f'{packs.some_digits(rng, data)} {script}')
    yield Line('no digits', f'{packs.no_digits(rng, jobs[0].pack())} draw')
    yield Line('no script', jobs[1].pack().hex())


def joined(rng, lines):
    """The input: now and then a line ends in a carriage return and a line feed, or the last one in nothing."""
    data = ''.join(line.text + ('\r\n' if rng.random() < 0.02 else '\n') for line in lines)
    return (data.rstrip('\r\n') if rng.random() < 0.1 else data).encode()


def read_families(jobs, text):
    """The families that were drawn of jobs, off the lines that were printed."""
    families, chains = [], []
    for line in text.splitlines():
        words = line.split()
        if words[0] == 'level':
            chains.append([int(v) for v in words[4:]])
        if words[0] == 'total':
            families.append(Family(jobs[len(families)], chains, map(int, words[1:])))
            chains = []
    assert len(families) == len(jobs)
    return families


def batch_jobs(start, number):
    rng = random.Random(f'{start} {number}')
    return rng, [packs.some_job(rng) for _ in range(JOBS)]


# Comparing.

class Tally:
    """How many of each sort were compared, what was answered, and every difference."""

    def __init__(self):
        self.compared, self.answered, self.differences = collections.Counter(), collections.Counter(), []

    def differ(self, name, sort, data, one, other):
        print(f'DIFFERENCE {name} ({sort})\n  input  {data[:3000]!r}\n  first  {one}\n  second {other}', flush=True)
        self.differences.append((name, sort))


def answers(text):
    """The first word of each line that was printed, of a refusal also its number and layer. Chains of a drawing are left out."""
    for line in text.splitlines():
        words = line.split()
        if words[0] == 'refused':
            yield ' '.join(words[:4])
        elif words[0] != 'level':
            yield 'not hex' if words[0] == 'not' else words[0]


def compare_lines(pool, tally, name, lines, rng):
    """Runs both on a batch of lines, and where they differ on each line by itself."""
    data = joined(rng, lines)
    one, other = both(pool, name, data)
    tally.compared.update((name, line.sort) for line in lines)
    tally.answered.update((name, answer) for answer in answers(other.stdout.decode()))
    if one == other:
        return other
    known = len(tally.differences)
    for line in lines:
        alone = (line.text + '\n').encode()
        a, b = both(pool, name, alone)
        if a != b:
            tally.differ(name, line.sort, alone, a, b)
    if len(tally.differences) == known:
        tally.differ(name, 'a batch as a whole', data, '', '')
    return other


def compare_whole(pool, tally, name, sort, data, *arguments):
    """Runs both on one input."""
    one, other = both(pool, name, data, *arguments)
    tally.compared[name, sort] += 1
    if one != other:
        tally.differ(name, sort, data, one, other)


def compare_single(pool, tally, rng, jobs, families, folder):
    """A few packs for the programs that take one each."""
    path = os.path.join(folder, 'job')
    for job, family in zip(jobs[:4], families):
        for name in ('least', 'draw'):
            compare_whole(pool, tally, name, 'sound', job.pack())
            compare_whole(pool, tally, name, 'damaged', packs.damaged_job(rng, job)[1])
        compare_whole(pool, tally, 'mark', 'sound', family.pack())
        compare_whole(pool, tally, 'mark', 'damaged', packs.damaged_family(rng, family)[1])
        for bad_script, bad_pack in ((False, False), (True, False), (False, True), (True, True)):
            with open(path, 'wb') as f:
                f.write(packs.damaged_job(rng, job)[1] if bad_pack else job.pack())
            script = '\n'.join(packs.some_script(rng, job, bad_script)) + rng.choice(['', '\n', '\n\n', '\r\n'])
            sort = ['a script', 'a bad line', 'a damaged pack', 'both'][bad_script + 2 * bad_pack]
            compare_whole(pool, tally, 'edit', sort, script.encode(), path)


def compare_batch(pool, tally, rng, jobs, folder):
    for name in ('least_hex', 'draw_hex'):
        compare_lines(pool, tally, name, list(job_lines(rng, jobs)), rng)
    drawn = compare_lines(pool, tally, 'edit_hex', list(source_lines(rng, jobs)), rng)
    families = read_families(jobs, drawn.stdout.decode())
    compare_lines(pool, tally, 'mark_hex', list(family_lines(rng, families)), rng)
    compare_lines(pool, tally, 'edit_hex', list(script_lines(rng, jobs)), rng)
    compare_single(pool, tally, rng, jobs, families, folder)


# Inputs that are odd as a whole.

FIVE = packs.Job(1, 1, [(0, 0), (2, 1), (4, 0), (6, 3), (8, 0)], [(1, 1), (3, 1)])
FIVE_FAMILY = Family(FIVE, [[0, 2, 3, 4], [0, 4]], (4, 0))


def odd_inputs(text):
    """Ends of lines and of inputs, and bytes that are no text, around a line that is lawful."""
    line = text.encode()
    for end in (b'', b'\n', b'\r\n', b'\r', b'\r\r\n', b'\n\n', b'\n\r', b'\r\n\r\n', b' ', b' \n', b'\t\n', b'\0\n'):
        yield line + end
        yield line + b'\n' + line + end
    yield from (b'', b'\n', b'\r', b'\r\n', b'\n\n\n', b' ', b' \n', b'\0', b'-', b'-\n-')
    for bad in (b'\xff', b'\xc3', b'\xed\xa0\x80', b'\xf5\x80\x80\x80', b'\xc0\x80', b'\xe2\x82'):
        yield line + b'\n' + bad + b'\n' + line + b'\n'
        yield line + b'\n' + line + bad
        yield bad + line
    yield b'\xef\xbb\xbf' + line + b'\n'
    yield line + '\u0085'.encode() + line + b'\n'
    yield line + '\u2028'.encode() + b'\n' + line


ODD_SCRIPTS = [
    b'', b'\n', b'draw', b'draw\n', b'draw\r\n', b'draw\r', b'\rdraw', b'draw\r\r\npin 2\r\n', b'pin 2\rdraw', b'pin\r2\n', b'pin\n2\n', b'\0', b'draw\0',
    b'# \xff\ndraw\n', b'\xff\n', b'draw\n\xff', b'pin \xff\n', b'pin 1\n\xc3\xa9\n', b'#\xc3\ndraw\n', b'pin 2;draw\n', b'\xef\xbb\xbfdraw\n',
    b'pin 007\nrelease 0002\nretune 01 000\nretune 02 0\npin 00\ndraw', b'draw\nundo\n', b'undo', b'\n\n#\nundo\n', b'draw \xc2\xa0\n', b'draw\x0c', b'draw\x85',
]


def compare_odd(pool, tally, folder):
    for name, text in (('mark_hex', FIVE_FAMILY.pack().hex()), ('least_hex', FIVE.pack().hex()), ('draw_hex', FIVE.pack().hex()),
                       ('edit_hex', FIVE.pack().hex()), ('edit_hex', FIVE.pack().hex() + ' pin 2;draw')):
        for data in odd_inputs(text):
            compare_whole(pool, tally, name, 'an odd input', data)
    digits = FIVE.pack().hex()
    for text in (f'{digits}  draw', f'{digits}\tdraw', f'{digits} \tdraw', f' {digits} draw', f'{digits} ;draw', f'{digits} ', f'{digits};draw',
                 f'{digits} draw\rdraw', f'{digits} pin 007;pin 2;undo', '0 undo', ' ', ' draw', ' undo', ';', f'{digits}00 undo', f'{digits}00 draw'):
        compare_whole(pool, tally, 'edit_hex', 'an odd line', text.encode() + b'\n')
    lawful, refused, none = (os.path.join(folder, name) for name in ('lawful', 'refused', 'none'))
    for path, data in ((lawful, FIVE.pack()), (refused, FIVE.pack() + b'\0')):
        with open(path, 'wb') as f:
            f.write(data)
    for script in ODD_SCRIPTS:
        for arguments in ([lawful], [refused], [none], [folder], [], ['']):
            compare_whole(pool, tally, 'edit', 'an odd script or argument', script, *arguments)


def report(tally, seconds):
    for kind, counts in (('compared', tally.compared), ('answers of the second program', tally.answered)):
        print(f'\n{kind}:')
        for (name, sort), count in sorted(counts.items()):
            print(f'  {name:10} {sort:30} {count:8}')
    totals = collections.Counter()
    for (name, _), count in tally.compared.items():
        totals[name] += count
    print('\n' + ', '.join(f'{name} {count}' for name, count in sorted(totals.items())))
    print(f'marks and draws (mark_hex, draw_hex): {totals["mark_hex"] + totals["draw_hex"]}; in all: {sum(totals.values())}')
    print(f'differences: {len(tally.differences)}; seconds: {seconds:.0f}')


def compare(start, batches):
    began, tally = time.time(), Tally()
    with concurrent.futures.ThreadPoolExecutor(2) as pool, tempfile.TemporaryDirectory() as folder:
        compare_odd(pool, tally, folder)
        limits = list(packs.limit_jobs())
        for k in range(0, len(limits), JOBS):
            compare_batch(pool, tally, random.Random(f'{start} limits {k}'), limits[k:k + JOBS], folder)
        for number in range(batches):
            compare_batch(pool, tally, *batch_jobs(start, number), folder)
            if number % 10 == 9:
                print(f'batch {number + 1} of {batches}: {len(tally.differences)} differences, {time.time() - began:.0f} seconds', flush=True)
    report(tally, time.time() - began)
    return 1 if tally.differences else 0


# The stored run of crates/compared.

STORED_BATCHES, EACH, MOST_SOUND, LONGEST = 12, 2, 40, 900


def named_lines(start, number):
    """The lines of a batch for the three programs, each with the program's name."""
    rng, jobs = batch_jobs(start, number)
    sources = '\n'.join(line.text for line in source_lines(rng, jobs)).encode()
    families = read_families(jobs, run(second('edit_hex'), sources).stdout.decode())
    for name, lines in (('mark', family_lines(rng, families)), ('draw', job_lines(rng, jobs)), ('least', job_lines(rng, jobs))):
        for line in lines:
            yield name, line


def stored_lines(start):
    """Lines of the first batches, for each of the three programs, with the second program's answers: a few of each sort and answer."""
    met, seen = collections.Counter(), set()
    for number in range(STORED_BATCHES):
        for name, line in named_lines(start, number):
            if len(line.text) > LONGEST or re.search('[\r\0]', line.text) or (name, line.text) in seen:
                continue
            seen.add((name, line.text))
            answer = run(second(name + '_hex'), line.text.encode() + b'\n').stdout.decode()
            kind = name, line.sort, tuple(answers(answer))
            met[kind] += 1
            if met[kind] <= (MOST_SOUND if line.sort == 'sound' else EACH):
                yield f'{name} {line.text}\n', answer


def store(start):
    folder = os.path.join(TOP, 'crates', 'compared')
    lines = list(stored_lines(start))
    for name, texts in (('stdin', [text for text, _ in lines]), ('stdout', [answer for _, answer in lines])):
        with open(os.path.join(folder, name), 'w', newline='\n') as f:
            f.writelines(texts)
    print(f'{len(lines)} lines:', dict(collections.Counter(text.split()[0] for text, _ in lines)))
    return 0


def main():
    parser = argparse.ArgumentParser()
    parser.add_argument('--start', type=int, default=START)
    parser.add_argument('--batches', type=int, default=225)
    parser.add_argument('--store', action='store_true')
    options = parser.parse_args()
    sys.exit(store(options.start) if options.store else compare(options.start, options.batches))


if __name__ == '__main__':
    main()
