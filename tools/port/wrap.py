#!/usr/bin/env python3
"""tools/port/wrap.py CRATE..: breaks the lines over 160 characters in the crates' answers and invariants: behind a definition's `=` and a `let`'s, before a `×`, at arguments."""
import os
import sys

TOP = os.path.realpath(os.path.join(os.path.dirname(os.path.realpath(__file__)), "..", ".."))
MOST = 160


def places(s, mark):
    """Where `mark` stands outside of all brackets."""
    depth, out = 0, []
    for i, ch in enumerate(s):
        if ch in "([{":
            depth += 1
        if ch in ")]}":
            depth -= 1
        if depth == 0 and s.startswith(mark, i):
            out.append(i)
    return out


def broken(line):
    if len(line) <= MOST:
        return [line]
    pad = line[:len(line) - len(line.lstrip())]
    body = line.lstrip()
    if not pad and not body.startswith(("use ", "--", "pub ", "abbrev ")):
        at = places(body, " = ")
        if at and len(body[:at[0]]) < 100:
            return [body[:at[0]] + " ="] + broken("    " + body[at[0] + 3:])
    if body.startswith("let "):
        at = places(body, " in ")
        if at and at[0] + 4 < len(body):
            return broken(pad + body[:at[0]] + " in") + broken(pad + body[at[0] + 4:])
        at = places(body, " = ")
        if at:
            return broken(pad + body[:at[0]] + " =") + broken(pad + "    " + body[at[0] + 3:])
    for mark, behind in ((" → ", 2), (" × ", 0), (" ∙ ", 0)):
        at = places(body, mark)
        if at:
            parts = [body[a + 1 + behind if k else a:b + behind] for k, (a, b) in enumerate(zip([0] + at, at + [len(body)]))]
            return [x for part in parts for x in broken(pad + part)]
    best = [i for i in places(body, " ") if len(pad) + i <= MOST]
    if best:
        return [pad + body[:best[-1]]] + broken(pad + body[best[-1] + 1:])
    return [line]


def main():
    for crate in sys.argv[1:]:
        for folder, _, files in os.walk(os.path.join(TOP, "crates", crate, "proofs")):
            for f in set(files) & {"Answers.antt", "Invariants.antt"}:
                p = os.path.join(folder, f)
                text = open(p).read()
                new = "\n".join(x for l in text.split("\n") for x in broken(l))
                if new != text:
                    open(p, "w").write(new)
                    print("wrapped", os.path.relpath(p, TOP))


main()
