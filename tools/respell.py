#!/usr/bin/env python3
"""Brings the repository's own definitions and lemmas to snake case: what stands in camel case with a small first letter, or with dashes.

usage: python3 tools/respell.py     once, at the top of the repository, after the toolchain's own script

Types, records, modules and facts keep their camel case, and the papers' letters (S, U, X, B) theirs. A lemma that would have the name of
a definition or of another lemma gets `_lem`. Functions of src/, exported names, strings, inputs and outputs are not touched.
"""

import collections
import glob
import os
import re

# `first_of` is the name of a tactic
BY_HAND = {"first_of": "first_that_applies"}
WORDS = ("abbrev", "unfoldable", "pub", "data", "record", "ruleset", "mutual")
NAME = re.compile(r"^[^\W\d][\w'₀-₉-]*$")
TOKEN = re.compile(r"[^\s(){}\[\].,;|@«»`\"]+")


def names():
    """Each name that a file of specs/ or proofs/ gives, with the files."""
    found = collections.defaultdict(list)
    for path in sorted(glob.glob("crates/*/specs/*.antt") + glob.glob("crates/*/proofs/*.antt")):
        with open(path, encoding="utf-8") as f:
            for line in f:
                if " : " not in line:
                    continue
                words = line.split(" : ", 1)[0].split()
                marked = False
                while words and words[0] in WORDS:
                    words.pop(0)
                    marked = True
                if not words or not NAME.match(words[0]) or words[0] in ("use", "let", "in", "module", "elim", "rw"):
                    continue
                if not marked and len(words) > 1 and not words[1].startswith(("(", "{")):
                    continue
                found[words[0]].append(path)
    return found


def snake(name):
    return re.sub(r"(?<=[a-z0-9'])(?=[A-Z])", "_", name.replace("-", "_")).lower()


def renaming(found):
    """The new name of each old one, and for names that were in snake case already of (crate, name)."""
    new = {n: snake(n) for n in found if n[0].islower() and snake(n) != n}
    users = collections.defaultdict(list)
    for n in found:
        users[new.get(n, n)].append(n)
    inside = {}
    for name, olds in users.items():
        if len(olds) == 1:
            continue
        # the definition keeps the plain name: one in camel case, else the first
        camel = [o for o in olds if "-" not in o and o in new]
        plain = camel or [o for o in olds if o not in new] or olds
        for o in olds:
            if o == plain[0]:
                continue
            if o in new:
                new[o] = name + "_lem"
            else:
                crates = {p.split("/")[1] for p in found[o]} & {p.split("/")[1] for p in found[plain[0]]}
                for c in crates:
                    inside[c, o] = name + "_lem"
    return new, inside


def turned(text, crate, new, inside, comment):
    def turn(m):
        w = m.group(0)
        return inside.get((crate, w)) or new.get(w, w)

    def turn_camel(m):
        w = m.group(0)
        return new.get(w, w) if "-" not in w else w

    out = []
    for line in text.split("\n"):
        at = line.find(comment)
        if at < 0:
            at = len(line)
        head, tail = line[:at], line[at:]
        out.append((head if '"' in head else TOKEN.sub(turn, head)) + TOKEN.sub(turn_camel, tail))
    return "\n".join(out)


def main():
    new, inside = renaming(names())
    new |= BY_HAND
    paths = [p for kind in ("specs/*.antt", "proofs/**/*.antt", "src/**/*.rt", "must-fail/*.edit") for p in glob.glob("crates/*/" + kind, recursive=True)]
    for path in sorted(paths):
        with open(path, encoding="utf-8") as f:
            text = f.read()
        done = turned(text, path.split(os.sep)[1], new, inside, "//" if path.endswith(".rt") else "--")
        if done != text:
            with open(path, "w", encoding="utf-8") as f:
                f.write(done)
    for path in sorted(["README.md", "CONTRIBUTING.md"] + glob.glob("docs/*.md")):
        with open(path, encoding="utf-8") as f:
            text = f.read()
        done = re.sub(r"`[^`\n]*`", lambda m: TOKEN.sub(lambda w: new.get(w.group(0), w.group(0)) if "-" not in w.group(0) else w.group(0), m.group(0)), text)
        if done != text:
            with open(path, "w", encoding="utf-8") as f:
                f.write(done)


if __name__ == "__main__":
    main()
