#!/usr/bin/env python3
"""Spells the definitions, fields, constructors and lemmas of specs/ and proofs/ in snake case, and the facts among them in camel case.

usage: python3 docs/history/respell.py [--list]      at the top of the repository, once, behind the kit's port.py

What turns: each name that a text of specs/ or proofs/ declares, wherever that text or a clause cites it. What stays: functions, types,
labels and fields of src/, strings, the names that the checker makes (behind goal., c., w. and l., and in lists of Goals and Given), must-fail edits.
--list prints the table and the names that would fall together, and writes nothing.
"""
import os
import re
import sys

NAME = r'[^\s(){}.;,@"«»]+'
DECLARED = re.compile(r"(?m)^ *(?:(?:abbrev|unfoldable|pub|data|record) +)*(" + NAME + r")((?: +(?:\{[^{}\n]*\}|\([^()\n]*\)))*) :(?= )")
MADE = re.compile(r"/proofs/(?:.*/)?(?:[\w+]+/)(?:Answers|Invariants|Proof)\.antt$")
TOKEN = re.compile(r'--[^\n]*|"(?:[^"\\\n]|\\.)*"|(?<![\w.])(?:Goals|Given)\.\{[^}]*\}|(\.?)(' + NAME + r")")
HEADS = re.compile(r"(?<![^\s(){},;])(?:c|goal|w|l|g|l\.fn|l\.initial|c\.args|c\.[\w-]+\.new)$")

# Where two names would fall together: the lemma about a function gets _lem, and a test or a part gets the name of what it tells.
APART = {
    "is_open": "is_open_lem",
    "is-sign": "is_sign_lem",
    "map-fits": "map_fits_lem",
    "one-sakke": "one_sakke_lem",
    "scan-of": "scan_of_lem",
    "sign_fits": "sign_fits_lem",
    "sign-length": "sign_length_lem",
    "getD-numbers": "get_or_numbers",
}


def texts():
    for folder, dirs, files in os.walk("crates"):
        dirs[:] = sorted(d for d in dirs if d != "out")
        for f in sorted(files):
            if f.endswith((".antt", ".rt")):
                yield os.path.join(folder, f)


def read(path):
    with open(path, encoding="utf-8") as f:
        return f.read()


def spelled(name):
    if name in APART:
        return APART[name]
    if name[:1].isupper():
        return re.sub(r"-(\w)", lambda m: m[1].upper(), name)
    words = re.sub(r"(?<=[a-z0-9])([A-Z])(?=[a-z]|$|[-_])", lambda m: "_" + m[1].lower(), name)
    return words.replace("-", "_").replace("′", "'")


def declared(path):
    text = re.sub(r"--[^\n]*", "", read(path))
    for m in DECLARED.finditer(text):
        if not re.match(r" *goal\.", text[m.end():]):
            yield m[1]


def table():
    names = {}
    for p in texts():
        if p.endswith(".antt"):
            for n in declared(p):
                names.setdefault(n, set()).add(p)
    return {n: spelled(n) for n in names if spelled(n) != n}, names


def turn(path, rows):
    text = read(path)
    made = bool(MADE.search("/" + path))

    def one(m):
        if m[2] is None:
            return m[0]
        name = m[2]
        if name not in rows or path.endswith(".rt") and name == name.lower() and "-" not in name:
            return m[0]
        if made and m[1] and "-" in name and HEADS.search(text[max(0, m.start() - 60):m.start()]):
            return m[0]
        return m[1] + rows[name]

    return TOKEN.sub(one, text)


def main():
    rows, names = table()
    if "--list" in sys.argv:
        meet = {}
        for n in names:
            meet.setdefault(rows.get(n, n), []).append(n)
        for new, olds in sorted(meet.items()):
            if len(olds) > 1:
                print("together:", new, [(o, sorted(names[o])) for o in olds])
        for n in sorted(rows):
            print(n, "->", rows[n])
        return
    for p in texts():
        new = turn(p, rows)
        if new != read(p):
            with open(p, "w", encoding="utf-8") as f:
                f.write(new)


main()
