#!/usr/bin/env python3
"""tools/port/imports.py [CRATE..]: drops from the .antt files of the crates, or of all, the imported names that nothing in the file uses. By text; the check
decides. A line that imports nothing any more goes."""
import glob
import re
import sys

NAME = r"[^\s(){}\[\];,.◌]+"


def used(name, body):
    if "◌" in name:
        parts = [p for p in name.split("◌") if p]
        return all(p in body for p in parts)
    return re.search(r"(?<![^\s(){}\[\];,.←`λ:])" + re.escape(name) + r"(?![^\s(){}\[\];,.`:])", body) is not None


def turn(text):
    lines = text.split("\n")
    body = "\n".join(re.sub(r"--.*", "", l) for l in lines if not re.match(r"(pub )?use ", l))
    out = []
    for l in lines:
        m = re.match(r"use (\S+)\.\{(.*)\}$", l)
        if m:
            keep = [n for n in m[2].split(", ") if used(n.split(" as ")[-1], body)]
            if keep:
                out.append(f"use {m[1]}.{{{', '.join(keep)}}}")
            continue
        m = re.match(r"use (\S+) as (\S+)$", l)
        if m and not re.search(r"(?<![\w.'-])" + re.escape(m[2]) + r"\.", body):
            continue
        out.append(l)
    text = "\n".join(out)
    return re.sub(r"\n\n\n+", "\n\n", text)


def main():
    for c in sys.argv[1:] or ["*"]:
        for part in ("proofs", "specs"):
            for f in glob.glob(f"crates/{c}/{part}/**/*.antt", recursive=True):
                if f.endswith("/Proof.antt"):
                    continue
                before = open(f, encoding="utf-8").read()
                after = turn(before)
                if after != before:
                    open(f, "w", encoding="utf-8").write(after)
                    print(f)


main()
