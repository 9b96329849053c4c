#!/usr/bin/env python3
"""Brings the repository's own definitions and lemmas to today's spelling of names.

    python3 tools/respell.py [FOLDER]

Run once, at the top of a checkout that port.py has turned. Words become snake case (first-least -> first_least), types and
facts camel case (Has-pins -> HasPins). Only names that a file of specs/ or proofs/ of this repository defines are respelled, in
.antt files and in the clauses and ghost imports of .rt files; names of the library, of generated goals and of Rust code stay.
It prints each name with its new spelling, and each place where two names of one file would fall together.
"""
import glob
import re
import sys

TOP = sys.argv[1] if len(sys.argv) > 1 else "."

# Names whose parts are words of the library that have a new spelling themselves.
WORDS = {"natAbs": "nat_abs", "leZ": "le_z", "getD": "get_or", "notDearer": "not_dearer"}

SIGNATURE = re.compile(
    r"^\s*(?:(?:pub|abbrev|unfoldable|record|data)\s+)*([^\s:(){}\[\],;.=]+)(?:\s+[({].*)?\s*:(?:\s|$)"
)


def own_names():
    names = set()
    files = glob.glob(TOP + "/crates/*/specs/**/*.antt", recursive=True)
    files += glob.glob(TOP + "/crates/*/proofs/**/*.antt", recursive=True)
    for path in files:
        for line in open(path, encoding="utf-8"):
            if re.search(r":\s*goal\.", line):
                continue
            found = SIGNATURE.match(line.split(" -- ")[0])
            if found and not found.group(1).startswith(("--", "λ", "use")):
                name = found.group(1)
                if re.fullmatch(r"[A-Za-z][\w'-]*", name) and name != new_spelling(name):
                    names.add(name)
    return names


def new_spelling(name):
    parts = [WORDS.get(p, p) for p in name.split("-")]
    if parts[0][0].isupper() and len(parts[0]) > 1:
        return "".join(p[0].upper() + p[1:] for p in parts)
    return "_".join(parts)


def renamed(text, table):
    edge = r"[\w'′◌-]"
    for old in sorted(table, key=len, reverse=True):
        if old in text:
            text = re.sub(r"(?<!%s)%s(?!%s)" % (edge, re.escape(old), edge), table[old], text)
    return text


def in_antt(text, table):
    out = []
    for line in text.split("\n"):
        if line.lstrip().startswith("--"):
            line = re.sub(r"`[^`]*`", lambda m: renamed(m.group(0), table), line)
        else:
            line = renamed(line, table)
        out.append(line)
    return "\n".join(out)


def in_source(text, table):
    out = []
    depth = 0
    for line in text.split("\n"):
        start = line.lstrip()
        clause = re.match(r"(ghost|requires|ensures)\b", start) and not start.startswith("//")
        if start.startswith("//"):
            line = re.sub(r"`[^`]*`", lambda m: renamed(m.group(0), table), line)
        elif clause or depth:
            line = renamed(line, table)
            depth += line.count("{") - line.count("}")
        out.append(line)
    return "\n".join(out)


def tokens(text):
    return set(re.findall(r"[\w'′-]+", text))


def main():
    table = {n: new_spelling(n) for n in own_names()}
    for old in sorted(table):
        print(f"{old} -> {table[old]}")
    news = {}
    for old, new in table.items():
        news.setdefault(new, []).append(old)
    for new, olds in sorted(news.items()):
        if len(olds) > 1:
            print(f"fall together: {olds} -> {new}")
    files = glob.glob(TOP + "/crates/*/specs/**/*.antt", recursive=True)
    files += glob.glob(TOP + "/crates/*/proofs/**/*.antt", recursive=True)
    files += glob.glob(TOP + "/crates/*/src/**/*.rt", recursive=True)
    for path in sorted(files):
        text = open(path, encoding="utf-8").read()
        new = in_source(text, table) if path.endswith(".rt") else in_antt(text, table)
        if new != text:
            before = tokens(text)
            if path.endswith(".antt"):
                for old in before & set(table):
                    if table[old] in before:
                        print(f"look: {path}: {old} meets {table[old]}")
            open(path, "w", encoding="utf-8").write(new)


main()
