#!/usr/bin/env python3
"""Makes the test vectors of gate records: byte strings, and what a reader and a writer of document 01 say of each.

  tools/records_vectors.py SEED [DIR]

writes DIR/stdin, a line of hex digits for each byte string, and DIR/stdout, a line for each with the record read in it and what is written back.
DIR is crates/records_vectors unless given. The reader and the writer here are written from document 01 alone and share nothing with the crates.
"""
import os, random, sys

# ---- document 01: fields, codes

# by code (1 H, 2 X, 3 Y, 4 Z, 5 P, 6 RX, 7 RY, 8 RZ, 9 U, 10 SWAP, 11 measure, 12 bit flip): the tags behind 04, each with the formats of its contents; a d is an f64 kept as its bits
MASK, SECOND, ANGLE, EIGHT, FORCED, NOISE = (0x05, 'I'), (0x06, 'B'), (0x07, 'dd'), (0x08, 'dddddddd'), (0x09, 'BB'), (0x0A, 'dd')
BEHIND = {**{c: [MASK] for c in (1, 2, 3, 4)}, **{c: [MASK, ANGLE] for c in (5, 6, 7, 8)}, 9: [MASK, EIGHT], 10: [SECOND], 11: [FORCED], 12: [NOISE]}
SIZES = {'B': 1, 'H': 2, 'I': 4, 'd': 8}
ONE_NAN = 0x7FF8000000000000


def is_nan(bits):
    return bits & 0x7FF0000000000000 == 0x7FF0000000000000 and bits & 0x000FFFFFFFFFFFFF != 0


def field(tag, kinds, values):
    contents = b''.join(v.to_bytes(SIZES[k], 'big') for k, v in zip(kinds, values))
    return bytes([tag]) + len(contents).to_bytes(2, 'big') + contents


def write(record):
    session, number, code, target, behind = record
    out = field(0x01, 'I', [session]) + field(0x02, 'H', [number]) + field(0x03, 'B', [code]) + field(0x04, 'B', [target])
    at = 0
    for tag, kinds in BEHIND[code]:
        out += field(tag, kinds, behind[at:at + len(kinds)])
        at += len(kinds)
    return out


class Refused(Exception):
    pass


def take(data, tag, kinds):
    """The values of the field that is listed here, and what follows it."""
    size = sum(SIZES[k] for k in kinds)
    if len(data) < 3 or data[0] != tag or data[1] << 8 | data[2] != size or len(data) < 3 + size:
        raise Refused
    values, at = [], 3
    for k in kinds:
        n = int.from_bytes(data[at:at + SIZES[k]], 'big')
        values.append(ONE_NAN if k == 'd' and is_nan(n) else n)
        at += SIZES[k]
    return values, data[at:]


def read(data):
    (session,), data = take(data, 0x01, 'I')
    (number,), data = take(data, 0x02, 'H')
    (code,), data = take(data, 0x03, 'B')
    (target,), data = take(data, 0x04, 'B')
    if code not in BEHIND:
        raise Refused
    behind = []
    for tag, kinds in BEHIND[code]:
        values, data = take(data, tag, kinds)
        behind += values
    if data:
        raise Refused
    return session, number, code, target, behind


# ---- what is said of a byte string

def said(data):
    try:
        record = read(data)
    except Refused:
        return 'REFUSED 8'
    session, number, code, target, behind = record
    kinds = ''.join(k for _, k in BEHIND[code])
    words = ['READ', str(session), str(number), str(code), str(target)]
    words += ['%016x' % v if k == 'd' else str(v) for k, v in zip(kinds, behind)]
    out = write(record)
    # the writer in a buffer of ee with a byte more than was read, and in one with a byte less
    words += ['WRITES', str(len(out)), (out + b'\xee').hex(), 'REFUSED 12', 'ee' * (len(out) - 1)]
    return ' '.join(words)


# ---- the byte strings

FLOATS = [
    0x0000000000000000, 0x8000000000000000, 0x3FF0000000000000, 0xBFF0000000000000,  # 0, -0, 1, -1
    0x0000000000000001, 0x800FFFFFFFFFFFFF, 0x0010000000000000, 0x7FEFFFFFFFFFFFFF,  # subnormals, the least normal, the greatest
    0x7FF0000000000000, 0xFFF0000000000000,  # infinities
    0x7FF8000000000000, 0x7FF0000000000001, 0xFFF8000000000000, 0x7FFFFFFFFFFFFFFF, 0xFFF0000000000001, 0x7FF7FFFFFFFFFFFF,  # NaNs
    0x3FE6A09E667F3BCD, 0xFEDCBA9876543210,
]
EDGES = {'B': [0, 1, 23, 24, 255], 'H': [0, 1, 65534, 65535], 'I': [0, 4, 7, 0x80000000, 0xFFFFFFFF], 'd': FLOATS}


def good(rng, code):
    pick = lambda k: rng.choice(EDGES[k])
    return write((pick('I'), pick('H'), code, pick('B'), [pick(k) for _, ks in BEHIND[code] for k in ks]))


def strings(rng):
    plain = {c: write((7, 0, c, 1, [FLOATS[2 + i % 2] if k == 'd' else 4 % (1 + i) for i, k in enumerate(''.join(k for _, k in BEHIND[c]))])) for c in BEHIND}
    yield b''
    # document 01's example
    yield bytes.fromhex('010004000000070200020000030001020400010105000400000004')
    for code in BEHIND:
        for _ in range(12):
            yield good(rng, code)
        # each of the floats in each place
        kinds = ''.join(k for _, k in BEHIND[code])
        for place in [i for i, k in enumerate(kinds) if k == 'd']:
            for x in FLOATS if code in (5, 9, 12) else FLOATS[8:12]:
                yield write((7, 0, code, 1, [x if i == place else FLOATS[2] if k == 'd' else 0 for i, k in enumerate(kinds)]))
    for code, data in plain.items():
        # damaged at each byte, cut at each length, longer by a byte
        for at in range(len(data)):
            for bits in (0x01, 0x80, rng.randrange(1, 256)):
                yield data[:at] + bytes([data[at] ^ bits]) + data[at + 1:]
            yield data[:at]
        yield data + b'\0'
        yield data + bytes([rng.randrange(256)])
        # a byte lost or put in at each place
        for at in range(0, len(data), 3):
            yield data[:at] + data[at + 1:]
            yield data[:at] + b'\0' + data[at:]
        # every other code over these fields
        for other in list(range(17)) + [128, 255]:
            yield data[:15] + bytes([other]) + data[16:]
    # fields in another order, twice, or of another gate
    head, mask, angle = plain[5][:20], plain[5][20:27], plain[5][27:]
    yield head + angle + mask
    yield head + mask + mask
    yield head + mask + angle + angle
    yield head[7:] + head[:7] + mask
    yield head[:7] + head[12:16] + head[7:12] + head[16:] + mask + angle
    for code in (10, 11, 12):
        yield plain[code][:20] + mask + plain[code][20:]
    for _ in range(300):
        n = rng.randrange(0, 97)
        yield bytes(rng.randrange(256) for _ in range(n))
    # random bytes behind a good start
    for _ in range(200):
        data = good(rng, rng.randrange(1, 13))
        cut = rng.randrange(len(data))
        yield data[:cut] + bytes(rng.randrange(256) for _ in range(rng.randrange(0, 97 - cut)))


def main():
    rng = random.Random(int(sys.argv[1]))
    where = sys.argv[2] if len(sys.argv) > 2 else os.path.join(os.path.dirname(os.path.dirname(os.path.abspath(__file__))), 'crates', 'records_vectors')
    data = list(strings(rng))
    with open(os.path.join(where, 'stdin'), 'w') as f:
        f.writelines(d.hex() + '\n' for d in data)
    with open(os.path.join(where, 'stdout'), 'w') as f:
        f.writelines(said(d) + '\n' for d in data)


if __name__ == '__main__':
    main()
