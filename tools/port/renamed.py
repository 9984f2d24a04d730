#!/usr/bin/env python3
"""tools/port/renamed.py OLD PORTED: for each crate, the definitions, fields and lemmas that the scripts renamed, by their place. OLD is a checkout of the
commit before the port, PORTED the same with port.py and rename.py run over it."""
import glob
import os
import re
import sys

DECL = re.compile(r"^\s*(?:abbrev |unfoldable )?(?:pub )?(?:data |record |abbrev )?([^\s:(){}=]+)(?: [^\s:(){}=]+)* :(?: |$)")


def names(path):
    out = []
    for line in open(path, encoding="utf-8"):
        m = DECL.match(line.rstrip("\n"))
        if m and m[1] not in ("use", "module", "where", "open", "--"):
            out.append(m[1])
    return out


def main():
    old, new = sys.argv[1], sys.argv[2]
    for c in sorted(os.listdir(os.path.join(old, "crates"))):
        pairs = {"specs": [], "proofs": []}
        for part in pairs:
            for f in sorted(glob.glob(os.path.join(old, "crates", c, part, "**", "*.antt"), recursive=True)):
                if f.endswith("/Proof.antt"):
                    continue
                g = os.path.join(new, os.path.relpath(f, old))
                if not os.path.exists(g):
                    pairs[part].append((os.path.relpath(f, old), "(moved)"))
                    continue
                a, b = names(f), names(g)
                if len(a) != len(b):
                    sys.exit(f"{f}: {len(a)} names and {len(b)}")
                pairs[part] += [(x, y) for x, y in zip(a, b) if x != y]
        for part, ps in pairs.items():
            ps = list(dict.fromkeys(ps))
            if ps:
                print(f"- {c}, {part}/: " + ", ".join(f"`{x}` {y}" for x, y in ps))


main()
