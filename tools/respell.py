#!/usr/bin/env python3
"""Spells the repository's own antt names as today's Rattle does: words in snake case.

usage: tools/respell.py          once, at the top, right after the kit's port script
       tools/respell.py --list   what it would spell anew, and how

A name that a file of crates/*/specs or crates/*/proofs declares, and that begins with a small letter, gets underscores for its
dashes and for the humps of camel case; so does each variable in camel case. Types, facts and modules keep their capitals; names of Rust,
strings, inputs, outputs and file names stay. A name that a file imports from a library stays in that file, and so do the labels of goals, which Rattle
makes (`returns-2`, `loop-test`). Comments change inside backquotes.

Where two names would fall together, in any file, the definition in camel case gets the plain name; a lemma or a field with
dashes gets `_lem`, and a definition that would have the name of a function or variable of Rust gets `_of`.
"""

import collections
import os
import re
import subprocess
import sys

DECLARED = re.compile(r"(?m)^ *(?:\w+ )*?([^\s(){}.;,@\"«»+]+)(?: \{[^{}\n]*\})* : *(.*)")
NAME = re.compile(r"[^\s(){}.;,@\"«»`]+")
USE = re.compile(r"\buse ([^\s;{]+?)\.?(?:\{([^}]*)\})?(?:[ ;\n]|$)")
# What Rattle makes, or antt has: never a name of ours.
MADE = re.compile(r"(?:returns|loop|if|tie|goal|need|invariant|decreases|overflow|bounds)(?:-|$)|.*-requires(?:-\d+)?$")
CRATES = "crates"


def texts():
    for folder, dirs, files in os.walk(CRATES):
        dirs[:] = sorted(d for d in dirs if d != "out")
        for f in sorted(files):
            if f.endswith((".antt", ".rt", ".edit")):
                yield os.path.join(folder, f)


def read(path):
    with open(path, encoding="utf-8") as f:
        return f.read()


def plain(name):
    """`name` in snake case."""
    return re.sub(r"(?<=[a-z0-9₀-₉])([A-Z])", lambda m: "_" + m.group(1).lower(), name).replace("-", "_")


def imported(text, own):
    """The names that a file takes from a library."""
    found = set()
    for m in USE.finditer(text):
        parts = m.group(1).split(".")
        if parts[0] == "Rattle" and len(parts) > 1 and parts[1] in own:
            continue
        found.update(n.strip().split(" as ")[0] for n in (m.group(2) or "").split(","))
    return found


def words(path, text):
    """The text cut into (what may change, what stays)."""
    comment = {".antt": "--", ".rt": "//"}.get(os.path.splitext(path)[1])
    for line in text.splitlines(keepends=True):
        at = -1
        if comment:
            m = re.search(r"(?:^|\s)" + comment + r"(?=\s|-|/|!|$)", line)
            at = m.start() if m else -1
        yield line if at < 0 else line[:at], "" if at < 0 else line[at:]


def table():
    own = set(os.listdir(CRATES))
    declared, labels, held = collections.Counter(), set(), {}
    for p in texts():
        t = read(p)
        held[p] = (set(), imported(t, own))
        for code, _ in words(p, t):
            held[p][0].update(NAME.findall(code))
        if p.endswith(".antt"):
            for m in DECLARED.finditer("".join(c for c, _ in words(p, t))):
                (labels.add if re.match(r"(tie|goal)\.", m.group(2)) else lambda n: declared.update([n]))(m.group(1))
            for code, _ in words(p, t):
                declared.update(n for n in NAME.findall(code) if re.match(r"[a-z]+[A-Z]", n) and n not in held[p][1])
    names = {n for n in declared if re.match(r"[a-zμκ]", n) and plain(n) != n and not MADE.match(n)}
    rust = set()
    for p in texts():
        if p.endswith(".rt"):
            rust.update(re.findall(r"\b(?:fn|const|static|let mut|let|mod) (\w+)", read(p)))
    new = {}
    for n in sorted(names, key=lambda n: ("-" in n, n)):  # definitions in camel case first
        new[n] = plain(n)
    takes = collections.defaultdict(set)
    for n in new:
        takes[new[n]].add(n)

    def meets(n, to):
        if any(m != n for m in takes[to]) or to in declared:
            return True
        return any(n in have and n not in lib and (to in have or to in lib) for have, lib in held.values())

    for n in list(new):
        to = new[n]
        if "-" in n and meets(n, to):
            takes[to].discard(n)
            new[n] = to + "_lem"
            takes[new[n]].add(n)
    for n in list(new):
        to = new[n]
        if "-" not in n and (to in rust or meets(n, to)):
            takes[to].discard(n)
            new[n] = to + ("_lem" if to.endswith("_of") else "_of")
            takes[new[n]].add(n)
    for n in new:
        if meets(n, new[n]):
            print(f"respell: {n} and {takes[new[n]]} meet as {new[n]}", file=sys.stderr)
    return new, held


def respell(text, new, leave):
    return NAME.sub(lambda m: new[m.group()] if m.group() in new and m.group() not in leave else m.group(), text)


def in_quotes(text, new, leave):
    return re.sub(r"`[^`\n]*`", lambda m: respell(m.group(), new, leave), text)


def main(argv):
    os.chdir(subprocess.run(["git", "rev-parse", "--show-toplevel"], capture_output=True, text=True, check=True).stdout.strip())
    new, held = table()
    if argv == ["--list"]:
        for n in sorted(new):
            print(n, new[n])
        return
    for p in texts():
        t = read(p)
        leave = held[p][1]
        u = "".join(respell(code, new, leave) + in_quotes(comment, new, leave) for code, comment in words(p, t))
        if p.endswith(".edit"):  # port.py, which turns no edit, has spelled these names anew already
            u = NAME.sub(lambda m: plain(m.group()) if re.fullmatch(r"[a-z]+(?:[A-Z][a-z0-9]*)+", m.group()) else m.group(), u)
        if u != t:
            with open(p, "w", encoding="utf-8") as f:
                f.write(u)


main(sys.argv[1:])
