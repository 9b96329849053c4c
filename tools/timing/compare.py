#!/usr/bin/env python3
"""Times the library beside plain Rust, in one run, and prints medians in milliseconds.

Usage, from the top of the repository, after `rt run` in crates/timing: tools/timing/compare.py [RUNS]
Both programs do the same work on the same lines; their totals are compared, and then their times."""
import os, statistics, subprocess, sys, tempfile

here = os.path.dirname(os.path.abspath(__file__))
top = os.path.dirname(os.path.dirname(here))
runs = int(sys.argv[1]) if len(sys.argv) > 1 else 9
ours = os.path.join(top, "crates/timing/out/timing")
plain = os.path.join(tempfile.mkdtemp(), "plain")
subprocess.check_call(["rustc", "-C", "opt-level=3", "-o", plain, os.path.join(here, "plain.rs")])


def run(program, task):
    """The totals and the times, (grading, whole) in microseconds, by measure and price."""
    totals, times = {}, {}
    for line in subprocess.check_output([program, *task, "time"], text=True).splitlines():
        word = line.split()
        if word[2] == "total":
            totals[word[0], word[1]] = tuple(word[3:])
        else:
            times[word[0], word[1]] = (int(word[3]), int(word[5]))
    return totals, times


for task in (["200", "100", "4"], ["1", "256", "8"]):
    seen = {ours: [], plain: []}
    for _ in range(runs):
        answers = []
        for program in (ours, plain):
            totals, times = run(program, task)
            answers.append(totals)
            seen[program].append(times)
        assert answers[0] == answers[1], "the totals differ"
    print(f"{task[0]} lines of {task[1]} vertices, {task[2]} levels: medians of {runs} runs, ms (library / plain Rust = ratio)")
    for kind in seen[ours][0]:
        cells = []
        for name, of in (("grading", lambda t: t[0]), ("search", lambda t: t[1] - t[0]), ("both", lambda t: t[1])):
            a = statistics.median(of(t[kind]) for t in seen[ours]) / 1000
            b = statistics.median(of(t[kind]) for t in seen[plain]) / 1000
            cells.append(f"{name} {a:.1f} / {b:.1f} = {a / b:.2f}")
        print(f"  {' '.join(kind):20} " + ", ".join(cells))
