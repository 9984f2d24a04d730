#!/usr/bin/env python3
"""tools/port/pages.py: in README.md, docs/, include/, samples/, tools/ and oracle/, the names of definitions and lemmas in today's spelling. A word in camel case or
with dashes goes to snake case where specs/ or proofs/ declare that name today. It prints each word that it turned."""
import glob
import re
import sys

sys.path.insert(0, "tools/port")


def snake(w):
    return re.sub(r"([a-z0-9])([A-Z])", lambda m: m[1] + "_" + m[2].lower(), w).replace("-", "_")


def declared():
    out = set()
    for f in glob.glob("crates/*/specs/**/*.antt", recursive=True) + glob.glob("crates/*/proofs/*.antt"):
        for line in open(f, encoding="utf-8"):
            m = re.match(r"^\s*(?:abbrev |unfoldable )?(?:pub )?([^\s:(){}]+)(?: [^\s:(){}]+)* :(?: |$)", line.rstrip("\n"))
            if m:
                out.add(m[1])
    return out


def main():
    names = declared()
    turned = set()

    def put(m):
        w = m[0]
        s = snake(w)
        if s != w and s in names:
            turned.add((w, s))
            return s
        return w

    for f in ["README.md"] + glob.glob("docs/**/*.md", recursive=True):
        if f.endswith("PORT.md") or "/landings/" in f:
            continue
        before = open(f, encoding="utf-8").read()
        after = re.sub(r"\b[a-z][a-z0-9]*[A-Z][A-Za-z0-9]*\b", put, before)
        after = re.sub(r"(?<=`)[a-z][a-z0-9]*(?:-[a-z0-9]+)+(?=`)", put, after)
        if after != before:
            open(f, "w", encoding="utf-8").write(after)
    for a, b in sorted(turned):
        print(a, b)


main()
