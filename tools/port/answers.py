#!/usr/bin/env python3
"""tools/port/answers.py CRATE: turns the crate's old proofs/F/Proof.antt, which walk the code by hand, to Invariants.antt and Answers.antt.

It asks the check for the goals' old and new names, writes the invariants and measures, sees which goals the check leaves open, and writes for these, and
no others, what the old proof answered. What still falls is printed, with the old file's place in git; the rest is done by hand."""
import json
import os
import re
import subprocess
import sys

TOP = os.path.realpath(os.environ.get("PORT_TOP") or os.path.join(os.path.dirname(os.path.realpath(__file__)), "..", ".."))
NAME = r"[^\s(){}\[\];,.λ∷:=→×|↦\"`]+"
TOK = re.compile(r"--[^\n]*|" + NAME + r"|\s+|.", re.S)


def norm(s):
    return s.replace("-", "_")


def run(*words, where):
    return subprocess.run(words, cwd=where, stdout=subprocess.PIPE, stderr=subprocess.STDOUT, text=True).stdout


def old_text(crate, path):
    for rev in ("HEAD", "08cb873"):
        r = subprocess.run(["git", "show", f"{rev}:crates/{crate}/{path}"], cwd=TOP, capture_output=True, text=True)
        if r.returncode == 0:
            return r.stdout
    return None


class Decl:
    def __init__(self, name, sig, body, unfolding, abbrev):
        self.name, self.sig, self.body, self.unfolding, self.abbrev = name, sig, body, unfolding, abbrev


def split(text):
    """Head comment, use lines, declarations (name, raw lines)."""
    head, uses, blocks, cur = [], [], [], None
    lines = text.split("\n")
    i = 0
    while i < len(lines) and (lines[i].startswith("--") or not lines[i].strip()):
        if lines[i].startswith("--"):
            head.append(lines[i])
        elif head:
            break
        i += 1
    pending = []
    for l in lines[i:]:
        if l.startswith("use "):
            uses.append(l)
            continue
        if not l.strip():
            continue
        if l.startswith("--"):
            pending.append(l)
            continue
        if l[0] not in " \t)":
            w = [x for x in l.split() if x not in ("pub", "abbrev", "unfoldable")]
            name = w[0]
            if name == "unfolding" and cur is not None:
                cur[1].append(l)
                continue
            if name in ("data", "record", "module", "infix"):
                name = f"{name} {len(blocks)}"
            if cur is None or cur[0] != name:
                cur = [name, pending + [l]]
                pending = []
                blocks.append(cur)
                continue
        cur[1].append(l)
    return head, uses, [(n, "\n".join(ls)) for n, ls in blocks]


def tokens(s):
    return TOK.findall(s)


def args_of(s):
    """The top-level arguments of an application: words and balanced groups."""
    out, depth, cur = [], 0, ""
    for ch in s:
        if ch in "([{":
            depth += 1
        if ch in ")]}":
            depth -= 1
        if depth == 0 and ch.isspace():
            if cur.strip():
                out.append(cur.strip())
            cur = ""
        else:
            cur += ch
    if cur.strip():
        out.append(cur.strip())
    return out


class Function:
    def __init__(self, crate, path, info):
        self.crate, self.path, self.info = crate, path, info
        places = info["places"]
        self.parent = {p[0]: p[1] for p in places}
        self.field = {p[0]: p[2] for p in places}
        self.arm = {p[0]: a for p, a in zip(places, info["arms"])}

    def chain(self, place):
        m, arms = {}, []
        while place:
            old, new = self.field.get(place, ["", ""])
            if old:
                m.setdefault(norm(old), new)
            if self.arm.get(place):
                arms.append(self.arm[place])
            place = self.parent.get(place)
        return m, arms


def path_map(fn, place):
    m, arms = fn.chain(place)
    rules = []
    for a in arms:
        name = a[0]
        for new, old, rest in a[2]:
            rules.append((norm(old), rest, f"{name}.{new}"))
    rules.sort(key=lambda r: -len(r[1]))
    return m, rules


def mut_params(crate, path):
    """The `&mut` parameters of a function, by name."""
    if "::" not in path:
        return []
    c, name = path.split("::")[0], path.split("::")[-1]
    for folder, _, files in os.walk(os.path.join(TOP, "crates", c, "src")):
        for f in files:
            t = open(os.path.join(folder, f)).read()
            m = re.search(r"\bfn " + name + r"(?:<[^>]*>)?\((.*?)\)(?: ->|\s*\n)", t, re.S)
            if m:
                return [p for p, _ in re.findall(r"(\w+)\s*:\s*(&(?:'\w+ )?mut)", m[1])]
    return []


def fields(expr, fn, place):
    m, rules = path_map(fn, place)
    called, p = {}, place
    by = {x[0]: x for x in fn.info["places"]}
    while p and p in by:
        if by[p][3]:
            called.setdefault(norm(by[p][2][0]).lower(), by[p][3])
        p = by[p][1]

    def one(match):
        parts = match[0].split(".")[1:]
        for old, rest, new in rules:
            if norm(parts[0]) == old and parts[1:1 + len(rest)] == rest:
                return ".".join(["c", new] + parts[1 + len(rest):])
        if parts[0] == "well-formed":
            parts[0] = "well_formed"
        if parts[0] == "pre":
            parts[0] = "requires"
        else:
            low = {k.lower(): v for k, v in m.items()}
            key = norm(parts[0]).lower()
            if key in low:
                parts[0] = low[key]
                if len(parts) > 2 and parts[1] == "new" and parts[2].isdigit():
                    lent = mut_params(fn.crate, called.get(key, ""))
                    if int(parts[2]) < len(lent):
                        parts[2] = lent[int(parts[2])]
        return ".".join(["c"] + parts)

    return re.sub(r"(?<![\w.'-])c(?:\." + NAME + r")+", one, expr)


def flat(expr, projections):
    """All contexts of a goal become the one c."""
    while True:
        was = expr
        expr = re.sub(r"(?<![\w.'-])c((?:\.before)+)(?![\w'-])", "c", expr)
        for p in projections:
            q = re.escape(p)
            expr = re.sub(r"\(" + q + r"\s+c\)", "c", expr)
            expr = re.sub(r"(?<![\w.'-])" + q + r"\s+c(?![\w'-])", "c", expr)
        expr = re.sub(r"\(c\)(?=\.)", "c", expr)
        m = re.search(r"let (\S+) = c\s+in\s*", expr)
        if m:
            x = re.escape(m[1])
            rest = re.sub(r"(?<![\w.'-])" + x + r"(?![\w'-])", "c", expr[m.end():])
            expr = expr[:m.start()] + rest
        for m in re.finditer(r"let (\S+) = (c(?:\.[^\s.()]+)+)\s+in\s*", expr):
            x = re.escape(m[1])
            rest = expr[m.end():]
            if re.search(r"(?<![\w.'-])" + x + r"\.(new|given)\.", rest):
                expr = expr[:m.start()] + re.sub(r"(?<![\w.'-])" + x + r"(?![\w'-])", lambda k: m[2], rest)
                break
        if expr == was:
            return expr


def convert(crate, names, folder):
    """-> invariants text or None, {new goal: answer text}, helper text, uses, head"""
    key = f"Rattle-{crate}-proofs.{folder.replace('/', '.')}.Lts"
    info = names.get(key)
    text = old_text(crate, f"proofs/{folder}/Proof.antt")
    if info is None or text is None:
        return None
    fn = Function(crate, folder, info)
    head, uses, blocks = split(text)
    decl = {}
    for n, b in blocks:
        decl.setdefault(n, "")
        decl[n] += ("\n" if decl[n] else "") + b
    needs = info["needs"]
    asked = info["asked_at"]

    def goal_of(x):
        x = norm(re.sub(r"^(overflow|nonzero)[-_]", "", x))
        for i, (old, new) in enumerate(needs):
            if norm(old) == x:
                return i
        x2 = norm(x)
        for i, (old, new) in enumerate(needs):
            if norm(new) == x2:
                return i
        return None

    projections, helpers, goals, invs = [], {}, {}, {}
    order = []
    spec = None
    for n, b in decl.items():
        order.append(n)
        if "statement M" in b:
            spec = b
            continue
        m = re.search(r"^(?:abbrev |pub )*" + re.escape(n) + r" : (.*?)\n(?:" + re.escape(n) + r"|unfolding)\b", b, re.S | re.M)
        sig = m[1] if m else ""
        g = re.match(r"tie\.Need-(\S+)", sig)
        if g:
            goals[n] = g[1]
        elif re.match(r"tie\.(invariant|decreases)", sig):
            invs[n] = b
        elif re.match(r"(\(\S+ : )?tie\.", sig):
            eq = re.search(r"^" + re.escape(n) + r" (?!:)(\S+)((?: \S+)*?) =\s+(.*)", b, re.S | re.M)
            if eq and re.match(r"(\(\S+ : )?tie\.[^→]*→ tie\.[^→]*$", sig, re.S) and not eq[2]:
                projections.append(n)
                helpers[n] = ("proj", eq[3])
            else:
                more = f"λ {eq[2].strip()}. " if eq and eq[2].strip() else ""
                helpers[n] = ("lemma", sig, eq[1] if eq else "c", more + eq[3] if eq else "", b)
        else:
            helpers[n] = ("plain", b)
    # positions
    answers = {}
    if spec:
        m = re.search(r"tie\.spec(.*)\)\s*$", spec, re.S)
        inner = m[1] if m else ""
        if not m:
            m = re.search(r"= tie\.close tie\.spec", spec)
        items = args_of(inner)
        items = [i for i in items if i not in invs]
        # alignment by what is known
        A = []
        for it in items:
            if it in goals:
                A.append(("named", goal_of(goals[it]), it))
            elif re.match(r"\(λ c κs\.", it) or re.match(r"\(λ c κs ", it):
                A.append(("req", None, it))
            else:
                A.append(("plain", None, it))
        B = [new for old, new in needs]
        NA, NB = len(A), len(B)
        best = [[0] * (NB + 1) for _ in range(NA + 1)]
        for i in range(NA - 1, -1, -1):
            for j in range(NB - 1, -1, -1):
                s = -100
                kind, g, it = A[i]
                if kind == "named":
                    s = 10 if g == j else -100
                elif kind == "req":
                    s = 4 if "requires" in B[j] else -100
                else:
                    s = -100 if "-requires" in B[j] and "clause" not in B[j] else 3
                best[i][j] = max(best[i + 1][j], best[i][j + 1], best[i + 1][j + 1] + s if s > 0 else -1)
        i = j = 0
        while i < NA and j < NB:
            kind, g, it = A[i]
            s = -100
            if kind == "named":
                s = 10 if g == j else -100
            elif kind == "req":
                s = 4 if "requires" in B[j] else -100
            else:
                s = -100 if "-requires" in B[j] and "clause" not in B[j] else 3
            if s > 0 and best[i][j] == best[i + 1][j + 1] + s:
                answers[j] = it
                i, j = i + 1, j + 1
            elif best[i][j] == best[i + 1][j]:
                i += 1
            else:
                j += 1
    for n, g in goals.items():
        k = goal_of(g)
        if k is not None:
            answers[k] = n
    # invariants
    inv_text = []
    loops = info["loops"]
    for n, b in invs.items():
        kind = "invariant" if "invariant" in n else "decreases"
        eq = re.search(r"^" + re.escape(n) + r"((?: \S+)*) =\s*(.*)", b, re.S | re.M)
        params, body = eq[1].split(), eq[2]
        loop_old = re.sub(r"^(invariant|decreases)-?", "", n)
        idx = None
        for k, (pair, vs) in enumerate(loops):
            if norm(pair[0]) == norm(loop_old):
                idx = k
        if idx is None:
            idx = min(len(loops) - 1, 0)
        pair, vs = loops[idx]
        changed = info["changed"][idx]
        sub = {}
        cur = [v for v, ch in zip(vs, changed) if ch]
        if len(params) == len(vs) + len(cur):
            for p, v, ch in zip(params, vs, changed):
                sub[p] = f"l.initial.{v}" if ch else f"l.{v}"
            for p, v in zip(params[len(vs):], cur):
                sub[p] = f"l.{v}"
        else:
            for p in params:
                if p.endswith("₀"):
                    sub[p] = "l.initial." + p[:-1].replace("-", "_")
                else:
                    sub[p] = "l." + p.replace("-", "_")
        body = "".join(sub.get(t, t) if re.match(NAME, t) else t for t in re.findall(r"(?:\.?" + NAME + r")|\s+|.", body, re.S)) if False else re.sub(r"(?<![\w.'-])(" + "|".join(sorted(map(re.escape, sub), key=len, reverse=True)) + r")(?![\w'₀-]|\s=\s)", lambda m: sub[m[0]], body) if sub else body
        new = f"{kind}-{pair[1]}"
        inv_text.append(f"abbrev pub {new} : goal.{new}\n{new} l = {body.strip()}")
    # answers
    out = {}
    for j, it in sorted(answers.items()):
        new = needs[j][1]
        place = asked[j][0] if j < len(asked) else "Start"
        extra = ""
        if it in goals:
            b = decl[it]
            eq = re.search(r"^" + re.escape(it) + r"(?! :)((?: \S+)*?) =\s*(.*)", b, re.S | re.M)
            if not eq:
                continue
            var, body = eq[1].split(), eq[2]
            u = re.search(r"^unfolding .*$", b, re.M)
            extra = u[0] + "\n" if u else ""
            if len(var) > 1:
                body = f"λ {' '.join(v for v in var[1:] if v != 'κs')}. " * bool([v for v in var[1:] if v != "κs"]) + body
            var = var[0] if var else "c"
        else:
            m = re.match(r"\(λ (\S+?)((?: [^\s.]+)*)\.\s*(.*)\)$", it, re.S)
            if m:
                more = [v for v in m[2].split() if v != "κs"]
                var, body = m[1], (f"λ {' '.join(more)}. " if more else "") + m[3]
            else:
                var, body = "c", f"{it} c"
            u = re.search(r"^unfolding .*$", spec, re.M)
            extra = u[0] + "\n" if u else ""
        if re.fullmatch(r"\s*search rules\s*", body):
            continue
        if var != "c":
            body = re.sub(r"(?<![\w.'-])" + re.escape(var) + r"(?![\w'-])", "c", body)
        body = flat(body, projections)
        body = re.sub(r"\s*κs\b", "", body)
        # lemma helpers over a context
        used, todo = [], [body]
        while todo:
            t = todo.pop()
            for h, v in helpers.items():
                if v[0] == "lemma" and h not in used and re.search(r"(?<![\w.'-])" + re.escape(h) + r"(?![\w'-])", t):
                    used.append(h)
                    todo.append(v[3])
        lets = ""
        for h in [x for x in order if x in used]:
            _, sig, hv, hb, raw = helpers[h]
            sig = re.sub(r"^\((\S+) : tie\.[^)]*\)\s*→?\s*|^tie\.[^→]*→\s*", "", sig, flags=re.S)
            if hv != "c":
                sig = re.sub(r"(?<![\w.'-])" + re.escape(hv) + r"(?![\w'-])", "c", sig)
            hb = flat(hb if hv == "c" else re.sub(r"(?<![\w.'-])" + re.escape(hv) + r"(?![\w'-])", "c", hb), projections)
            sig = flat(sig, projections)
            if not sig.startswith("tie."):
                lets += f"let {h} : ({' '.join(sig.split())}) = {hb.strip()} in\n    "
            else:
                lets += f"let {h} = {hb.strip()} in\n    "
        more = [w for h in used for u in re.findall(r"^unfolding (.*)$", helpers[h][4], re.M) for w in u.split()]
        if more:
            have = extra.replace("unfolding", "").split()
            extra = "unfolding " + " ".join(have + [w for w in dict.fromkeys(more) if w not in have]) + "\n"
        body = lets + body
        for h in used:
            body = re.sub(r"\(" + re.escape(h) + r" c\)", h, body)
            body = re.sub(r"(?<![\w.'-])" + re.escape(h) + r" c(?![\w'.-])", h, body)
        body = fields(flat(body, projections), fn, place)
        body = re.sub(r"(in_default[\w-]*)\.\1-own\.keys\d", r"\1.not-Taken", body)
        out[new] = (extra, body.strip())
    plain = [v[1] for h, v in helpers.items() if v[0] == "plain"]
    uses = [u for u in uses if not re.search(r"\.(Statement|Tie)\b", u)]
    return head, uses, plain, inv_text, out


def mod(crate, folder):
    return f"Rattle.{crate}.proofs.{folder.replace('/', '.')}"


def write(crate, folder, got, only=None):
    head, uses, plain, invs, answers = got
    where = os.path.join(TOP, "crates", crate, "proofs", folder)
    if invs:
        text = "\n".join(uses) + f"\nuse {mod(crate, folder)}.Given as goal\n"
        used = [p for p in plain if any(mentions(i, p) for i in invs)]
        text += "".join("\n" + p + "\n" for p in used) + "\n" + "\n\n".join(invs) + "\n"
        open(os.path.join(where, "Invariants.antt"), "w").write("\n".join(head) + "\n" + text)
    path = os.path.join(where, "Answers.antt")
    keep = {k: v for k, v in answers.items() if only is None or k in only}
    if os.path.exists(path):
        os.remove(path)
    if keep:
        bodies = "\n".join(b for _, b in keep.values())
        need, todo = [], [bodies]
        while todo:
            t = todo.pop()
            for p in plain:
                if p not in need and mentions(t, p):
                    need.append(p)
                    todo.append(p)
        text = "\n".join(head) + "\n" + "\n".join(uses) + f"\nuse {mod(crate, folder)}.Goals as goal\n"
        text += "".join("\n" + p + "\n" for p in plain if p in need)
        for g, (extra, b) in keep.items():
            text += f"\npub {g} : goal.{g}\n{extra}{g} c = {b}\n"
        open(path, "w").write(text)


def mentions(text, block):
    names = [first_name(block)]
    if names[0] == "module":
        names = re.findall(r"^\s+(?:pub |abbrev |unfoldable )*(" + NAME + r")(?: " + NAME + r")* :", block, re.M)
    return any(re.search(r"(?<![\w.'-])" + re.escape(n) + r"(?![\w'-])", text) for n in names)


def first_name(block):
    for l in block.split("\n"):
        if l.startswith("--"):
            continue
        w = [x for x in l.split() if x not in ("pub", "abbrev", "unfoldable", "data", "record")]
        return w[0]


def main():
    crate = sys.argv[1]
    where = os.path.join(TOP, "crates", crate)
    names_at = f"/tmp/port-names/{crate}"
    os.makedirs("/tmp/port-names", exist_ok=True)
    if not os.path.exists(names_at + "/names.json") or "--names" in sys.argv:
        said = run("rt", "check", "--generated", names_at, "--old-names", where=where)
        if not os.path.exists(names_at + "/names.json"):
            print(said[-3000:])
            sys.exit("no names")
    names = json.load(open(names_at + "/names.json"))
    folders = []
    listed = subprocess.run(["git", "ls-tree", "-r", "--name-only", "08cb873", f"crates/{crate}/proofs"], cwd=TOP, capture_output=True, text=True).stdout.split()
    for f in listed:
        if f.endswith("/Proof.antt"):
            folders.append(f[len(f"crates/{crate}/proofs/"):-len("/Proof.antt")])
    got = {}
    for f in folders:
        g = convert(crate, names, f)
        if g is None:
            print("no names for", f)
            continue
        got[f] = g
        p = os.path.join(where, "proofs", f, "Proof.antt")
        if os.path.exists(p):
            os.remove(p)
        write(crate, f, g, only=())
    said = run("rt", "check", where=where)
    open(f"/tmp/port-names/{crate}/first.txt", "w").write(said)
    open_goals = {f: list(g[4]) for f, g in got.items()} if "--all" in sys.argv else {}
    for m in re.finditer(r"^fn (\S+?): (.*)$", said, re.M):
        if "did not prove" in m[2]:
            f = m[1].split("::", 1)[1].replace("::", "/")
            part = m[2].split("did not prove", 1)[1]
            open_goals[f] = re.findall(r"`([^`]+)`", part.split(";")[0])
    for f, gs in open_goals.items():
        if f in got:
            gs = list(dict.fromkeys(g if g in got[f][4] else re.sub(r"-clause-.*", "", g) for g in gs))
            write(crate, f, got[f], only=gs)
            missing = [g for g in gs if g not in got[f][4]]
            if missing:
                print(f"{f}: no old answer for {' '.join(missing)}")
    if open_goals:
        said = run("rt", "check", where=where)
    for f in folders:
        d = os.path.join(where, "proofs", f)
        if os.path.isdir(d) and not os.listdir(d):
            os.rmdir(d)
    open(f"/tmp/port-names/{crate}/second.txt", "w").write(said)
    for l in said.split("\n"):
        if "error" in l or "not proved" in l or l.startswith("fn ") and ": proved" not in l or l.startswith("logic="):
            print(l[:400])


main()
