#!/usr/bin/env python3
"""Holds include/gate_bench.h and rust/gate_bench/src/ffi.rs to the exported functions of crates/c_api.

A parameter `&[T]` or `&mut [T]` of an exported function is a pointer and a length in elements, `&mut T` and `&mut [T; N]` a pointer. The eight
words of a session have a struct in C, which the header holds to 32 bytes. Each function's declaration is worked out from its Rattle signature
and looked for, with names and types in order.
"""
import glob
import os
import re
import sys

ROOT = os.path.dirname(os.path.dirname(os.path.abspath(__file__)))
C = {'u8': 'uint8_t', 'u16': 'uint16_t', 'u32': 'uint32_t', 'f64': 'double', 'usize': 'size_t', 'Session': 'struct gate_bench_session'}
SESSION = 'session', '&mut [u32; 8]'


def text(path):
    with open(f'{ROOT}/{path}', encoding='utf-8') as f:
        return f.read()


def exported():
    """Name, parameters with their Rattle types, and result of each exported function."""
    for path in sorted(glob.glob(f'{ROOT}/crates/c_api/src/*.rt')):
        with open(path, encoding='utf-8') as f:
            found = re.findall(r'#\[unsafe\(no_mangle\)\]\s+pub extern "C" fn (\w+)\(([^)]*)\) -> (\w+)', f.read())
        for name, params, result in found:
            yield name, [tuple(p.split(': ')) for p in re.split(r',\s*', params.strip().rstrip(','))], result


def parts(params):
    """Each parameter as (name, pointed-to or plain type, 'mut', 'const' or '')."""
    for name, kind in params:
        m = re.fullmatch(r'&(mut )?(\[)?(\w+)(; \w+)?\]?', kind)
        if not m:
            yield name, kind, ''
            continue
        yield name, m[3], 'mut' if m[1] else 'const'
        if m[2] and not m[4]:
            yield name + '_len', 'usize', ''


def in_c(name, params, result):
    params = [('session', '&mut Session') if param == SESSION else param for param in params]
    args = ', '.join({'': f'{C[t]} {n}', 'mut': f'{C[t]} *{n}', 'const': f'const {C[t]} *{n}'}[p] for n, t, p in parts(params))
    return f'{C[result]} {name}({args});'


def in_rust(name, params, result):
    args = ', '.join(f'{n}: *{p} {t}' if p else f'{n}: {t}' for n, t, p in parts(params))
    return f'pub fn {name}({args}) -> {result};'


def declared(source, pattern):
    return [re.sub(r'\s+', ' ', d) for d in re.findall(pattern, source)]


def main():
    functions = list(exported())
    wrong = 0
    for path, shape, pattern in [
        ('include/gate_bench.h', in_c, r'(?:uint32_t|double) gate_bench_\w+\([^)]*\);'),
        ('rust/gate_bench/src/ffi.rs', in_rust, r'pub fn gate_bench_\w+\([^)]*\) -> \w+;'),
    ]:
        wanted, there = {shape(*f) for f in functions}, set(declared(text(path), pattern))
        for line in sorted(wanted - there):
            print(f'{path} lacks: {line}')
        for line in sorted(there - wanted):
            print(f'{path} has beside: {line}')
        wrong += len(wanted ^ there)
    print(f'{len(functions)} exported functions: ' + ('declared otherwise' if wrong else 'declared alike in C and Rust'))
    return 1 if wrong or not functions else 0


sys.exit(main())
