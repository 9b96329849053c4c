#!/usr/bin/env python3
"""Makes the sample lines: a meandering river, a coast, and a path that crosses itself.

Without arguments it writes samples/NAME.txt, and again where the program `pipeline` reads them; with --check it only tells whether they are as it
would write them.
"""
import math
import random
import sys
from pathlib import Path

ROOT = Path(__file__).resolve().parent.parent
PLACES = [ROOT / "samples", ROOT / "crates" / "pipeline" / "data"]


def whole(points):
    """The points in whole numbers within the range of a vertex, without equal neighbours."""
    line = []
    for x, y in points:
        v = (max(-16384, min(16383, round(x))), max(-16384, min(16383, round(y))))
        if not line or line[-1] != v:
            line.append(v)
    return line


def river():
    """A curve whose direction swings like a sine, and swings wider downstream."""
    chance = random.Random(1)
    points, x, y = [], 0.0, 0.0
    for i in range(180):
        swing = math.radians(30 + 75 * i / 180)
        direction = swing * math.sin(2 * math.pi * i / 22 + 0.6 * math.sin(i / 31)) + 0.25 * math.sin(i / 40)
        points.append((x + chance.uniform(-8, 8), y + chance.uniform(-8, 8)))
        x += 190 * math.cos(direction)
        y += 190 * math.sin(direction)
    middle = [(min(p[k] for p in points) + max(p[k] for p in points)) / 2 for k in (0, 1)]
    return whole([(x - middle[0], y - middle[1]) for x, y in points])


def coast():
    """Midpoints that are moved aside, over and over, and more so in the middle."""
    chance = random.Random(11)
    points, aside = [(-8000, -1500), (8000, 1200)], 2800
    for _ in range(7):
        finer = []
        for (ax, ay), (bx, by) in zip(points, points[1:]):
            x, y, length = (ax + bx) / 2, (ay + by) / 2, math.hypot(bx - ax, by - ay)
            move = chance.gauss(0, 1) * aside * (1 - abs(x) / 16000)
            finer += [(ax, ay), (x - (by - ay) / length * move, y + (bx - ax) / length * move)]
        points = finer + [points[-1]]
        aside *= 0.62
    return whole(points)


def path():
    """A wavy round that goes on eastwards, so that it crosses itself."""
    points = []
    for i in range(72):
        t = i / 71
        turn = 2 * math.pi * 2.15 * t - 0.6
        out = 2600 + 500 * math.sin(5 * turn)
        points.append((-5200 + 10400 * t + 2470 * math.cos(turn), out * math.sin(turn) * 0.75 + 300 * math.sin(17 * t)))
    return whole(points)


def vertices(line):
    return "".join(f"vertex {x} {y}\n" for x, y in line)


def linestring(line):
    return "LINESTRING (" + ", ".join(f"{x} {y}" for x, y in line) + ")\n"


def texts():
    yield "river", (
        "# A meandering river.\n"
        "measure segment\nprice count\n"
        "level 30 1\nlevel 100 1\nlevel 300 1\nlevel 1000 1\n\n" + vertices(river())
    )
    yield "coast", (
        "# A rocky coast, as well-known text.\n"
        "measure strip\nprice count-area\n"
        "level 60 1\nlevel 200 2\nlevel 700 3\n\n" + linestring(coast())
    )
    yield "path", (
        "# A path that crosses itself.\n"
        "measure area\nprice count\n"
        "level 100000 1\nlevel 600000 1\nlevel 4000000 2\n\n" + vertices(path())
    )


def main():
    wrong = []
    for name, text in texts():
        for file in (place / f"{name}.txt" for place in PLACES):
            if "--check" not in sys.argv:
                file.write_text(text)
            elif not file.exists() or file.read_text() != text:
                wrong.append(str(file))
    if wrong:
        sys.exit("not as written: " + ", ".join(wrong))


main()
