#!/usr/bin/env python3
"""Brings the repository's own words to today's spelling, once, after the kit's port.py.

usage: python3 tools/spelling.py     at the top of the repository

A definition, a field, a constructor or a lemma that is written with dashes is written in snake case, and a type or a fact in
upper camel case. Names that Rattle makes for goals and names of the library stay, and so do functions of src/, strings,
inputs and outputs. Comments stay but for the index of words at the head of a file. A definition whose new name is that of a
free function of src/ ends in `_lem` (BESIDE); one whose new name is that of a method takes it (METHODS). Any other name that
would fall together with one that is there, or with another new one, is told, and then nothing is written.
"""

import glob
import re
import sys

WORD = r"[\w'-]"
DEFINED = re.compile(r"^[ ]*(?:pub |private |abbrev |unfoldable )*(?:record |data |ruleset )?(" + WORD + r"+)(?: [({][^=\n]*?)? :(?: |$)", re.M)
USED = re.compile(r"^[ ]*(?:pub )?(?:ghost )?use ([\w.+'-]+)\.\{([^}]*)\}", re.M)
# A function of src/ has this name already: beside a free function the definition takes `_lem`, and beside a method it has the
# method's name, as the definitions that had no dash do.
BESIDE = {"answer-bytes": "answer_bytes_lem", "frame-of": "frame_of_lem"}
METHODS = {"charge-loss", "fill-up", "is-parent", "refused-with"}


def texts():
    return sorted(p for kind in ("rt", "antt") for p in glob.glob(f"crates/*/*/**/*.{kind}", recursive=True) if "/out/" not in p)


def spelled(name):
    if name[0].isupper():
        head, *rest = re.split(r"[-_]", name)
        return head + "".join(w[0].upper() + w[1:] for w in rest)
    return name.replace("-", "_")


def parts(text, path):
    """The text in pieces: (is it to be renamed, piece). Strings of src/ and what a comment says in prose stay."""
    if path.endswith(".rt"):
        pattern = r'("(?:\\.|[^"\\])*"|\'(?:\\.|[^\'\\])\'|//[^\n]*)'
    else:
        pattern = r"((?<!\S)--(?!     )[^\n]*)"
    for i, piece in enumerate(re.split(pattern, text, flags=re.S)):
        yield i % 2 == 0, piece


def main():
    files = {p: open(p, encoding="utf-8").read() for p in texts()}
    own, library, words = set(), set(), set()
    for p, t in files.items():
        words |= set(re.findall(WORD + "+", t))
        for where, names in USED.findall(t):
            own |= set(re.findall(r"\bas (" + WORD + "+)", names))
            names = re.sub(r"\bas " + WORD + "+", "", names)
            if not re.match(r"Rattle\.(?!std\.)", where):
                library |= set(re.findall(WORD + "+", names))
        if p.endswith(".antt"):
            for m in DEFINED.finditer(t):
                goal = re.match(r"\s*goal\.", t[m.end():])
                if not goal:
                    own.add(m.group(1))
    new = {n: spelled(n) for n in sorted(own - library) if spelled(n) != n}
    new.update({n: w for n, w in BESIDE.items() if n in new})
    bad = [f"{n}: {w} is there" for n, w in new.items() if w in words and n not in METHODS]
    twice = {}
    for n, w in new.items():
        twice.setdefault(w, []).append(n)
    bad += [f"{' and '.join(ns)}: both {w}" for w, ns in twice.items() if len(ns) > 1]
    if bad:
        print("\n".join(bad))
        return 1
    if not new:
        print("nothing is left to be spelled anew")
        return 0
    token = re.compile(r"(?<!" + WORD[:-1] + r"])(" + "|".join(sorted(map(re.escape, new), key=len, reverse=True)) + r")(?!" + WORD[:-1] + r"])")

    def turned(piece):
        lines = []
        for line in piece.split("\n"):
            now = token.sub(lambda m: new[m.group(1)], line)
            # what stands beside the words of an index stays in its column
            if line.startswith("--     ") and len(now) < len(line):
                now = now[:7] + re.sub(r"(?<=\S)(?=  )", " " * (len(line) - len(now)), now[7:], count=1)
            lines.append(now)
        return "\n".join(lines)

    for p, t in files.items():
        done = "".join(turned(s) if rename else s for rename, s in parts(t, p))
        if done != t:
            open(p, "w", encoding="utf-8").write(done)
    for n, w in new.items():
        print(f"{n} -> {w}")
    return 0


sys.exit(main())
