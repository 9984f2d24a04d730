#!/usr/bin/env python3
"""tools/port/rename.py [--dry]: the repository's own definitions and lemmas in today's spelling, words in snake case. Run once, behind the kit's port.py,
at the top of the checkout. It goes by tokens: in specs/ and proofs/ each name in camel case or with dashes that the file does not take from a library of
the kit; in the clauses, ghost imports and comments of src/ the names that specs/ declare. Names that the kit makes (Tie, Goals, their fields) stay, and
so do the functions of src/, types, modules, strings and exported names. It prints what falls together."""
import collections
import glob
import os
import re
import sys

TOKEN = re.compile(r"[^\s(){}\[\];,.λ:→=×|↦\"`]+")
CAMEL = re.compile(r"^[a-z][a-z0-9_']*[A-Z]")
DASH = re.compile(r"[A-Za-z0-9_'ℕ]-[A-Za-z0-9_ℕ]")
USE = re.compile(r"^(?:pub )?(?:ghost )?use ([^\s;{]+?)(?:\.\{([^}]*)\}| as (\S+?))?;?$", re.M)


def odd(w):
    return CAMEL.search(w) or DASH.search(w)


def snake(w):
    w = re.sub(r"([a-z0-9])([A-Z]+)(?=[A-Z][a-z]|$|_|\d)", lambda m: m[1] + "_" + m[2].lower() if len(m[2]) > 1 else m[1] + "_" + m[2].lower(), w)
    w = re.sub(r"([a-z0-9])([A-Z])", lambda m: m[1] + "_" + m[2].lower(), w)
    return w.replace("-", "_")


# Where a definition and a lemma, or a lemma and the library's word, would fall together.
LEMMAS = {"of-bits", "to-bits", "numbered-from", "free-tests", "is-nan"}
ALONE = {("crates/sessions/proofs/Steps.antt", "kept_by"): "kept_by_lem"}


def crates():
    return sorted(os.listdir("crates"))


def own_path(path, own):
    m = re.match(r"Rattle\.(\w+)\.", path + ".")
    return bool(m) and m[1] in own and not re.search(r"\.(Tie|Statement|Goals|Given|Lts|contracts|declared)(\.|$)", path)


def imports(text, own):
    """Names that the file takes from a library, and aliases of modules that are a library's or made by the kit."""
    taken, alias = set(), {}
    for m in USE.finditer(text):
        path, names, as_name = m[1], m[2], m[3]
        ours = own_path(path, own)
        if names is not None:
            for it in names.split(","):
                it = it.strip()
                if not it:
                    continue
                first, _, second = it.partition(" as ")
                if not ours:
                    taken.add(first.strip())
        elif as_name:
            alias[as_name] = ours
        else:
            alias[path.split(".")[-1]] = ours
    return taken, alias


def fields(files):
    """Fields of the repository's own records and constructors."""
    out = set()
    for f in files:
        for line in open(f, encoding="utf-8"):
            m = re.match(r"^\s+(?:pub )?([^\s:(){}]+)((?: [^\s:(){}]+)*) :(?: |$)", line.rstrip("\n"))
            if m:
                out.add(m[1])
                out.update(m[2].split())
    return out


def turn(text, own, record_fields, where, name):
    taken, alias = imports(text, own)
    seen = {}
    answers = set(re.findall(r"^(?:pub |abbrev )*([^\s:]+) : (?:\([^)]*\) → )?tie\.", text, re.M)) if where == "function" else set()
    out, at = [], 0
    code = re.compile(r"--[^\n]*|" + TOKEN.pattern)
    for m in code.finditer(text):
        w = m[0]
        out.append(text[at:m.start()])
        at = m.end()
        if w.startswith("--"):
            out.append(w)
            continue
        if (name, w) in ALONE:
            out.append(ALONE[name, w])
            continue
        if not odd(w) or w in taken or w in answers:
            out.append(w)
            continue
        before = text[max(0, m.start() - 60):m.start()]
        if before.endswith("."):
            head = re.search(r"([^\s(){}\[\];,.λ:→=×|↦\"`]+)\.$", before)
            head = head[1] if head else ""
            if head in alias:
                if not alias[head]:
                    out.append(w)
                    continue
            elif w not in record_fields:
                out.append(w)
                continue
        if re.match(r"^(Need|After|In|Then|Else)-", w):
            out.append(w)
            continue
        new = snake(w) + ("_lem" if w in LEMMAS else "")
        seen[w] = new
        out.append(new)
    out.append(text[at:])
    return "".join(out), seen


def comments(text, names):
    return re.sub(r"--[^\n]*", lambda m: TOKEN.sub(lambda t: names.get(t[0], t[0]) if t[0] in names and CAMEL.search(t[0]) else t[0], m[0]), text)


def together(name, before, seen, said):
    old = set(TOKEN.findall(before))
    back = collections.defaultdict(set)
    for a, b in seen.items():
        back[b].add(a)
    for b, many in sorted(back.items()):
        if len(many) > 1 or b in old:
            said.append(f"{name}: {' '.join(sorted(many))} -> {b}{' (already there)' if b in old else ''}")


def main():
    dry = "--dry" in sys.argv
    own = set(crates())
    antt = sorted(f for part in ("specs", "proofs") for f in glob.glob(f"crates/*/{part}/**/*.antt", recursive=True))
    record_fields = fields([f for f in antt if not f.endswith("/Proof.antt")])
    every, said, texts = {}, [], {}
    for f in antt:
        before = open(f, encoding="utf-8").read()
        after, seen = turn(before, own, record_fields, "function" if f.endswith("/Proof.antt") else "lemmas", f)
        together(f, before, seen, said)
        every.update(seen)
        texts[f] = (before, after)
    specs = {a: b for a, b in every.items()}
    for f in antt:
        before, after = texts[f]
        after = comments(after, specs)
        if not dry and after != before:
            open(f, "w", encoding="utf-8").write(after)
    for f in sorted(glob.glob("crates/*/src/**/*.rt", recursive=True)):
        before = open(f, encoding="utf-8").read()
        taken, alias = imports(before, own)
        seen = {}

        def put(m):
            w = m[0]
            if w[0] == '"':
                return w
            if w in specs and w not in taken:
                seen[w] = specs[w]
                return specs[w]
            return w

        after = re.sub(r'"(?:[^"\\\n]|\\.)*"|' + TOKEN.pattern, put, before)
        together(f, before, seen, said)
        if not dry and after != before:
            open(f, "w", encoding="utf-8").write(after)
    for f in sorted(glob.glob("crates/*/must-fail/*.edit") + glob.glob("tools/heavy-edits/*/*.edit")):
        before = open(f, encoding="utf-8").read()
        after = TOKEN.sub(lambda m: specs[m[0]] if m[0] in specs and CAMEL.search(m[0]) else m[0], before)
        if not dry and after != before:
            open(f, "w", encoding="utf-8").write(after)
    print("\n".join(said))
    print(len(every), "names")
    if dry:
        print("\n".join(f"{a} {b}" for a, b in sorted(every.items())), file=open("/tmp/renamed.txt", "w"))


main()
