#!/usr/bin/env python3
"""Counts the places of docs/DESIGN-PASS.md in crates/*/src and crates/*/proofs, by text: python3 tools/design/count.py [LIST]
With a point's number as LIST it prints that point's places instead of their number."""
import glob, re, sys
from collections import defaultdict

sources = {p: open(p).read() for p in sorted(glob.glob('crates/*/src/**/*.rt', recursive=True))}
lines = [(p, i + 1, l) for p, s in sources.items() for i, l in enumerate(s.split('\n'))]


def strip(s):
    return re.sub(r'//[^\n]*', '', s)


def functions():
    """(place, name, parameters, clauses, body) of each function that has a body."""
    for p, s in sources.items():
        t = strip(s)
        for m in re.finditer(r'\bfn (\w+)\s*(<[^>{(]*>)?\(', t):
            i, depth = m.end(), 1
            while depth:
                depth += {'(': 1, ')': -1}.get(t[i], 0)
                i += 1
            b = re.compile(r'\n *\{\n|\{\n|;\n').search(t, i)
            if not b or t[b.start():b.end()].strip() == ';':
                continue
            j, depth = b.end(), 1
            while depth and j < len(t):
                depth += {'{': 1, '}': -1}.get(t[j], 0)
                j += 1
            yield p, m.group(1), t[m.end():i - 1], t[i:b.start()], t[b.end():j - 1]


fns = list(functions())


def shaped():
    """1: enums of one case with values and one other, which is empty, named Missing, None, Nothing, Not or Bad, or holds a Refusal; numbers for kinds; results by flag."""
    out = []
    for p, s in sources.items():
        for m in re.finditer(r'enum (\w+)(?:<[^>]*>)? \{(.*?)\n\}', strip(s), re.S):
            cases = [c.strip() for c in m.group(2).split('\n') if c.strip()]
            if len(cases) == 2 and any('(' in c for c in cases) and (any('(' not in c for c in cases) or any('Refus' in c or 'Answered' in c for c in cases)):
                out.append(f'{p}: enum {m.group(1)}')
            if len(cases) == 3 and any('Refused(' in c for c in cases):
                out.append(f'{p}: enum {m.group(1)}')
        for m in re.finditer(r'struct (\w+) \{(.*?)\n\}', strip(s), re.S):
            if re.search(r': bool,', m.group(2)) and len(m.group(2).split('\n')) <= 4:
                out.append(f'{p}: struct {m.group(1)} (a flag with a value)')
    for p, f, params, clauses, body in fns:
        for m in re.finditer(r'\b(engine|rule|upper|number|code): u(8|32)\b', params):
            if m.group(1) == 'number' and 'gate' not in body and 'RZ' not in body and 'z_upper' not in body and 'rule' not in clauses and 'upper' not in clauses:
                continue
            out.append(f'{p}: {f}({m.group(0)})')
    return out


def twins():
    """2: functions (not exports for C) whose bodies are the same but for names, literals and types, and have 25 words or more; arms of a match that are one call."""
    out, by = [], defaultdict(list)
    for p, f, params, clauses, body in fns:
        if 'c_api' in p:
            continue
        words = re.findall(r'\w+|[^\w\s]', body)
        if len(words) < 25:
            continue
        names = {}
        key = ' '.join(names.setdefault(w, f'n{len(names)}') if re.match(r'[A-Za-z_]\w*$', w) and w not in ('if', 'else', 'let', 'mut', 'while', 'for', 'in', 'return', 'match', 'as') else ('0' if w.isdigit() else w) for w in words)
        by[key].append(f'{p}: {f}')
    for v in by.values():
        if len(v) > 1:
            out.append(' = '.join(v))
    for p, f, params, clauses, body in fns:
        arms = re.findall(r'(?:\d+|_) => (\w+\(.*?\)),\n', body)
        if len(arms) > 1 and len(set(arms)) == 1:
            out.append(f'{p}: {f}: {len(arms)} arms, one call')
    return out


def loops():
    """3: loops whose body ends by adding to the variable that the test counts."""
    out = []
    for p, f, params, clauses, body in fns:
        for m in re.finditer(r'while ([^{]*)\{', body):
            for v in set(re.findall(r'\b[a-z_]+\b', m.group(1))):
                if re.search(rf'\b{v} (\+=|-=) [\w* ]+;|\b{v} = {v} [+-] [\w +*]+;', body[m.end():]):
                    out.append(f'{p}: {f}: while {m.group(1).strip()}')
                    break
    return out


def by_hand():
    """4: functions whose body is one match from an enum to numbers or to another enum, or a test of a range before a cast, and index reads of every place of an array."""
    out = []
    for p, f, params, clauses, body in fns:
        if re.search(r'^\s*match \w+ \{(\s*\w+::\w+(\([^)]*\))? => [\w:]+( \+ [\w: ()]+)?,)+\s*\}\s*$', body) and '-> u' in clauses + ')':
            out.append(f'{p}: {f}: a conversion by match')
        if re.search(r'if (255|65535) < (\w+) \{', body):
            out.append(f'{p}: {f}: a range tested before a cast')
        if re.search(r'\b[a-z]\w*: [a-z]\w*(,|\n)', body) and re.search(r'\b(\w+): \1\b', body):
            out.append(f'{p}: {f}: a field named twice')
    return out


def facts():
    """5: what a `requires` says in three or more functions of one crate: by its head, or word for word; parameters, three or more, that three or more of them share."""
    by, params_of = defaultdict(set), defaultdict(dict)
    for p, f, params, clauses, body in fns:
        crate = p.split('/')[1]
        for m in re.finditer(r'requires \w*\s*\{(.*?)\}\s', clauses, re.S):
            for fact in ' '.join(m.group(1).split()).split(' × '):
                fact = fact.strip().removeprefix('(').removesuffix(')') if '(' == fact.strip()[:1] else fact.strip()
                head = re.match(r'[A-Z]\w+ ', fact)
                by[crate, head.group(0).strip() if head else fact].add(f)
        params_of[crate][p, f] = frozenset(' '.join(x.split()) for x in params.split(',') if ':' in x)
    out = [f'{c}: requires {h} in {len(v)} functions' for (c, h), v in sorted(by.items()) if len(v) >= 3]
    for crate, all in sorted(params_of.items()):
        sets = {a & b for a in all.values() for b in all.values()} | set(all.values())
        sets = {x for x in sets if len(x) >= 3 and sum(x <= a for a in all.values()) >= 3}
        for x in sorted((x for x in sets if not any(x < y for y in sets)), key=sorted):
            out.append(f'{crate}: {", ".join(sorted(x))} in {sum(x <= a for a in all.values())} functions')
    return out


def buffers():
    """6: parameters `out: &mut [u8], at: usize` and the like: a buffer and a place, a length, or an end in it."""
    out = []
    for p, f, params, clauses, body in fns:
        if 'c_api' in p:
            continue
        q = ' '.join(params.split())
        if re.search(r'&(mut )?\[\w+\], (at|from|to|width|done|behind|side): usize', q) or re.search(r'&(mut )?\[\w+\], from: usize, to: usize', q):
            out.append(f'{p}: {f}')
    return out


def switches():
    """7: a match on a number that says which step runs."""
    out = []
    for p, f, params, clauses, body in fns:
        for m in re.finditer(r'match (rule|upper|number|target|code|engine)\b', body):
            out.append(f'{p}: {f}: {m.group(0)}')
        for m in re.finditer(r'if (rule|number|upper|engine) (==|<=|!=) [A-Z]+', body):
            out.append(f'{p}: {f}: {m.group(0)}')
    return out


def proofs():
    """8: typed `let`s that two or more answers of one file repeat."""
    out = []
    for p in sorted(glob.glob('crates/*/proofs/**/Answers.antt', recursive=True)):
        by = defaultdict(int)
        for m in re.finditer(r'let (\w+) :\s*(.*?) in\n', open(p).read(), re.S):
            by[' '.join(m.group(0).split())] += 1
        n = sum(v - 1 for k, v in by.items() if v > 1 and len(k) > 60)
        if n:
            out.append(f'{p}: {n} repeats')
    return out


points = [shaped, twins, loops, by_hand, facts, buffers, switches, proofs]
if len(sys.argv) > 1:
    for x in points[int(sys.argv[1]) - 1]():
        print(x)
else:
    for i, f in enumerate(points):
        print(f'{i + 1}  {len(f()):3}  {f.__doc__[3:]}')
