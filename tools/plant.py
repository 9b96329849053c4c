#!/usr/bin/env python3
"""Plants bugs in the code, one at a time, and tells which of them the check does not refuse.

    tools/plant.py [--each N] [--private P] [--start S] [--jobs J] [--list] CRATE...

Each bug changes one line in the body of one function of crates/CRATE/src; no contract, definition, proof or test is changed. For each public
function and each method of a trait N bugs that compile are drawn, from the fixed starting number S, or as many as there are; for every other
function, and for those that print or convert a value, P. Each is tried with `rt check` in a copy of the checkout, and is

  by a fact   something that the function promises, or that a call in it needs, is no longer proved
  otherwise   the proof files no longer fit the code, which shows less
  survived    the check passes: the bug is printed, and so is its line

Run `rt check` once in the crate before, so that only what the bug touches is proved.
"""
import argparse
import concurrent.futures
import random
import re
import shutil
import subprocess
import tempfile
import threading
from pathlib import Path

ROOT = Path(__file__).resolve().parent.parent

# What is changed for what, and the kind of bug that it is.
CHANGES = [
    ("comparison", r" <= ", " < "), ("comparison", r" >= ", " > "), ("comparison", r" < ", " <= "), ("comparison", r" > ", " >= "),
    ("comparison", r" == ", " != "), ("comparison", r" != ", " == "),
    ("condition", r"(?<=if )!", ""), ("condition", r"(?<=if )(?=[a-z(*])(?!let )", "!"), ("condition", r" && ", " || "), ("condition", r" \|\| ", " && "),
    ("sum", r" \+ ", " - "), ("sum", r" - ", " + "), ("sum", r" \* ", " + "), ("sum", r"saturating_add", "saturating_sub"),
    ("bound", r"1\.\.=", "0..="), ("bound", r"\.\.=", ".."), ("bound", r"\.skip\(1\)", ""), ("bound", r"\.rev\(\)", ""),
    ("constant", r"\btrue\b", "false"), ("constant", r"\bfalse\b", "true"),
    ("coordinate", r"\.x\b", ".y"), ("coordinate", r"\.y\b", ".x"),
    ("level", r"\blevel\b(?![:(])", "(level + 1)"), ("level", r"\bk\b(?!:)", "(k + 1)"), ("level", r"\bi\b(?!:)", "(i + 1)"),
    ("case", r"\bNone\b(?! =>)", "Some(0)"), ("case", r"\bOk\(true\)", "Ok(false)"), ("case", r"Cause::(\w+)", "Cause::Limits"), ("case", r"Layer::(\w+)", "Layer::Sheet"),
    ("condition", r"(?<=[ (|])!(?=[a-z(*])", ""), ("constant", r"b' '", "b'_'"), ("constant", r"b'(\w)'", "b'_'"), ("constant", r"\(1\)", "(2)"),
    ("swapped", r"\bn\b(?!:)", "m"), ("swapped", r"\bm\b(?!:)", "n"), ("swapped", r"\bi\b(?!:)", "j"), ("swapped", r"\bj\b(?!:)", "i"),
    ("swapped", r"\bp\b(?!:)", "q"), ("swapped", r"\bq\b(?!:)", "p"), ("swapped", r"\ba\b(?!:)", "b"), ("swapped", r"\bb\b(?!:)", "a"),
    ("swapped", r"\bfirst\b(?!:)", "second"), ("swapped", r"\bsecond\b(?!:)", "first"), ("swapped", r"\bgrades\b(?!:)", "stays"), ("swapped", r"\bself\b(?!:)", "other"),
    ("swapped", r"\bmeasure\b(?!:)", "price"), ("swapped", r"\bprice\b(?!:)", "measure"), ("swapped", r"\bvertices\b(?!:)", "levels"), ("swapped", r"\blevels\b(?!:)", "vertices"),
    ("swapped", r"min\(", "max("), ("swapped", r"max\(", "min("), ("swapped", r"\.first\(\)", ".last()"), ("swapped", r"\.last\(\)", ".first()"),
]


def bodies(text):
    """The functions of a file: name, whether it can be called from outside, and the numbers of the lines of its body."""
    lines = text.split("\n")
    n = 0
    of_trait = False
    while n < len(lines):
        if re.match(r"(unsafe )?impl\b|\}", lines[n]):
            of_trait = " for " in lines[n] and not lines[n].endswith("{}")
        head = re.match(r"( *)(pub(?:\(\w+\))? )?(?:const )?fn (\w+)", lines[n])
        if not head:
            n += 1
            continue
        start = n
        while n < len(lines) and not re.match(head[1] + r"\{\}?$|.*\{$|.*;$", lines[n]) or re.match(r" *(requires|ensures)", lines[n]):
            n += 1
        end = n
        while end < len(lines) and lines[end] not in (head[1] + "}", head[1] + "{}"):
            end += 1
        if lines[min(n, len(lines) - 1)].endswith("{"):
            public = of_trait or bool(head[2]) and "(" not in head[2]
            yield head[3], public and head[3] not in ("fmt", "from", "try_from"), range(n + 1, end)
            n = end
        else:
            n = start + 1


def bugs(lines, body):
    """The bugs that fit a body: the kind, the number of the line, and the line that stands there instead."""
    for n in body:
        line, code = lines[n], lines[n].strip()
        if not code or code.startswith("//") or code.startswith("ghost"):
            continue
        for kind, old, new in CHANGES:
            for at in re.finditer(old, line):
                yield kind, n, line[: at.start()] + at.expand(new) + line[at.end():]
        for at in re.finditer(r"(?<![\w.'\"])\d[\d_]*(?![\w.'\"])", line):
            value = int(at[0].replace("_", ""))
            for other in (value + 1, value - 1):
                if other >= 0:
                    yield "constant", n, line[: at.start()] + str(other) + line[at.end():]
        for at in re.finditer(r"(?<=[(\s])([\w.&*]+), ([\w.&*]+)(?=[,)])", line):
            if at[1] != at[2]:
                yield "swapped", n, line[: at.start()] + at[2] + ", " + at[1] + line[at.end():]
        if re.match(r"[\w.*\[\]]+ [-+*]?= .*;$", code) or re.match(r"(?!let |return)[\w.]+\(.*\)\??;$", code):
            yield "dropped", n, ""
        if re.match(r"return .*;$", code):
            yield "early return", n, ""
        if code in ("break;", "continue;"):
            yield "early return", n, ""


def draw(crate, start):
    """The bugs that fit each function of a crate, in the order in which they are tried: one of each kind first."""
    chance = random.Random(f"{start} {crate}")
    for file in sorted((ROOT / "crates" / crate / "src").rglob("*.rt")):
        if file.name == "tests.rt":
            continue
        text = file.read_text()
        lines = text.split("\n")
        for name, public, body in bodies(text):
            fitting = sorted({bug for bug in bugs(lines, body) if bug[2] != lines[bug[1]]})
            chance.shuffle(fitting)
            kinds, first, later = set(), [], []
            for bug in fitting:
                (later if bug[0] in kinds else first).append(bug)
                kinds.add(bug[0])
            yield file.relative_to(ROOT), name, public, first + later


def verdict(crate, copy):
    run = subprocess.run(["rt", "check"], cwd=copy / "crates" / crate, stdout=subprocess.PIPE, stderr=subprocess.STDOUT, timeout=1800)
    out = run.stdout.decode("utf8", "replace")
    if run.returncode == 0:
        return "survived"
    if re.search(r"\.rt:\d+:\d+: error", out):
        return "no code"
    if "it is not proved" in out or "two types differ" in out or "types first differ" in out or "no proof of" in out or "unclosed" in out:
        return "by a fact"
    return "otherwise"


def main():
    args = argparse.ArgumentParser(description=__doc__, formatter_class=argparse.RawDescriptionHelpFormatter)
    args.add_argument("crates", nargs="+")
    args.add_argument("--each", type=int, default=5)
    args.add_argument("--private", type=int, default=2)
    args.add_argument("--start", type=int, default=1)
    args.add_argument("--jobs", type=int, default=2)
    args.add_argument("--list", action="store_true")
    args = args.parse_args()
    todo = [(crate, *function) for crate in args.crates for function in draw(crate, args.start)]
    if args.list:
        for crate, file, name, public, fitting in todo:
            for kind, n, line in fitting:
                print(f"{file}:{n + 1} {name}{'' if public else ' (private)'} {kind}: {line.strip() or '(dropped)'}")
        return
    folder = Path(tempfile.mkdtemp())
    copies = [folder / str(j) for j in range(args.jobs)]
    for copy in copies:
        shutil.copytree(ROOT, copy, symlinks=True, ignore=shutil.ignore_patterns(".git"))
    lock = threading.Lock()
    told = {crate: {"by a fact": 0, "otherwise": 0, "survived": 0} for crate in args.crates}

    def attempt(function):
        crate, file, name, public, fitting = function
        with lock:
            copy = copies.pop()
        path = copy / file
        kept = path.read_text()
        wanted = args.each if public else args.private
        planted = 0
        for kind, n, line in fitting if wanted else []:
            lines = kept.split("\n")
            was, lines[n] = lines[n].strip(), line
            path.write_text("\n".join(lines))
            answer = verdict(crate, copy)
            if answer == "no code":
                continue
            planted += 1
            with lock:
                told[crate][answer] += 1
                if answer != "by a fact":
                    print(f"{answer}: {file}:{n + 1} {name} {kind}: {was}  =>  {line.strip() or '(dropped)'}", flush=True)
            if planted == wanted:
                break
        path.write_text(kept)
        with lock:
            copies.append(copy)
            if public and planted < wanted:
                print(f"only {planted} fit: {file} {name}", flush=True)

    with concurrent.futures.ThreadPoolExecutor(args.jobs) as workers:
        list(workers.map(attempt, todo))
    print("| Crate | Planted | By a fact | Otherwise | Survived |\n|---|---|---|---|---|")
    for crate, count in told.items():
        print(f"| {crate} | {sum(count.values())} | {count['by a fact']} | {count['otherwise']} | {count['survived']} |")
    shutil.rmtree(folder)


main()
