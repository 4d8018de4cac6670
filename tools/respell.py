#!/usr/bin/env python3
"""Brings the repository's own definitions and lemmas to the spelling of today's Rattle: words in snake case, types in camel case.

usage: python3 tools/respell.py          at the top of the repository, once, after the toolchain's own script of a port
       python3 tools/respell.py --list   writes nothing, and prints each name with its new spelling

It renames what .antt files declare, and the names that such a file binds, wherever they stand in crates/: in the files of specs/ and proofs/,
in the clauses and comments of src/, and in must-fail edits. Names of goals stay, since the toolchain makes them, and so do names from Rust.
Where two names fall together, the lemma gets `_lem` after its name.
"""

import os
import re
import sys

ENDS = "\\s(){}\\[\\],;«»\"@`|"
WORD = re.compile("[^" + ENDS + ".]+")
MARKS = "(?:(?:pub|abbrev|unfoldable|record|data)\\s+)*"
DECLARED = re.compile("^\\s*" + MARKS + "(?P<name>[A-Za-z][A-Za-z0-9_'-]*)\\s*(?:\\(.*\\)\\s*|\\{.*\\}\\s*)*:(?P<rest>\\s.*|)$")
# bound by a `λ`, a `let` or as an argument, and so declared nowhere
BOUND = ["usedBefore", "noTask", "noSem", "writeBy", "noBoard"]
PLAIN = re.compile("^[A-Za-z][A-Za-z0-9_'-]*$")


def files(root, ends):
    for folder, dirs, names in sorted(os.walk(os.path.join(root, "crates"))):
        dirs[:] = sorted(d for d in dirs if d != "out")
        for name in sorted(names):
            if name.endswith(ends):
                yield os.path.join(folder, name)


def read(path):
    with open(path, encoding="utf-8") as f:
        return f.read()


def declared(root):
    """Each name that an .antt file declares; not a goal's or a generated proof's, which the toolchain names."""
    found = set(BOUND)
    for path in files(root, ".antt"):
        for line in read(path).splitlines():
            m = DECLARED.match(line)
            if m and not re.match("\\s*(tie\\.|\\{M : Type 1\\} → statement M)", m["rest"]):
                found.add(m["name"])
    return found


def snake(name):
    """`sumDP1` is sum_dp1, `tableOfP1` table_of_p1, `not-done` not_done."""
    name = name.replace("-", "_")
    name = re.sub("([a-z0-9])([A-Z])", "\\1_\\2", name)
    name = re.sub("([A-Z])([A-Z][a-z])", "\\1_\\2", name)
    return name.lower()


def camel(name):
    """An acronym is spelled as a word: `LateDP2` is LateDp2."""
    return re.sub("([A-Z])([A-Z]+)", lambda m: m[1] + m[2].lower(), name)


def spelled(name):
    if not PLAIN.match(name):
        return name
    if name[0].isupper():
        return camel(name) if "-" not in name else name
    return snake(name)


def renamings(root):
    names = declared(root)
    taken = {n for n in names if spelled(n) == n}
    # first the definitions in camel case, then the lemmas in words with dashes
    new = {}
    for name in sorted((n for n in names if spelled(n) != n), key=lambda n: ("-" in n, n)):
        to = spelled(name)
        while to in taken:
            to += "_lem"
        taken.add(to)
        new[name] = to
    return new


def turned(text, new):
    def put(m):
        to = new.get(m[0], m[0])
        # after a dot a name with dashes is a step of the code, named after a Rust function, and no lemma
        is_step = "-" in m[0] and text[m.start() - 1 : m.start()] == "."
        return to.removesuffix("_lem") if is_step else to

    return WORD.sub(put, text)


def main():
    root = os.getcwd()
    new = renamings(root)
    if "--list" in sys.argv:
        for name in sorted(new):
            print(name, new[name])
        return
    for path in files(root, (".antt", ".rt", ".edit")):
        text = read(path)
        after = turned(text, new)
        if after != text:
            with open(path, "w", encoding="utf-8") as f:
                f.write(after)


main()
