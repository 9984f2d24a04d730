#!/usr/bin/env python3
"""Another program for what gate_bench prints, written from documents 01 and 02 alone: exact whole numbers for F and the root, float64 for + - * /.

  bench_model.py run < INPUT > OUTPUT        what the program must print
  bench_model.py make NAME [SEED] > INPUT    an input; `bench_model.py names` lists the names
  bench_model.py store DIR [SEED]            all of them, as stdin and stdout of DIR/crates/gate_bench and slow_bench, and DIR/crates/stored_runs/data, args and stdout;
                                             those that cut_streams takes apart as DIR/crates/cut_streams/data, args and stdout
"""
import math, os, random, struct, sys

MOST_QUBITS, MOST_BYTES, FULL = 11, 94, 65535
H_BITS = 0x3FE6A09E667F3BCD
NAN = float('nan')


def of_bits(b):
    return struct.unpack('>d', struct.pack('>Q', b))[0]


def bits(x):
    return 0x7FF8000000000000 if x != x else struct.unpack('>Q', struct.pack('>d', x))[0]


# ---- F and the root, over whole numbers

def parts(x):
    """A finite float as (whole number, power of two)."""
    b = bits(x)
    field, fraction = b >> 52 & 0x7FF, b & (1 << 52) - 1
    m, e = (fraction, -1074) if field == 0 else (fraction + (1 << 52), field - 1075)
    return (-m if b >> 63 else m), e


def nearest(m, e, sticky=False):
    """The f64 nearest to m * 2^e (m > 0), ties to even; sticky: the value lies a little above m * 2^e."""
    m, e = m * 4 + (1 if sticky else 0), e - 2
    drop = max(m.bit_length() - 53, -1074 - e)
    if drop > 0:
        kept, rest, half = m >> drop, m & (1 << drop) - 1, 1 << drop - 1
        if rest > half or rest == half and kept & 1:
            kept += 1
        m, e = kept, e + drop
    if m == 0:
        return 0.0
    while e > -1074 and m.bit_length() < 53:
        m, e = m << 1, e - 1
    if m.bit_length() > 53:
        m, e = m >> 1, e + 1
    if e > 971:
        return math.inf
    return of_bits(m if m < 1 << 52 else (e + 1075 << 52) + m - (1 << 52))


def negative(x):
    return math.copysign(1.0, x) < 0


def F(x, y, z):
    if x != x or y != y or z != z:
        return NAN
    if math.isinf(x) or math.isinf(y):
        if x == 0 or y == 0:
            return NAN
        p = -math.inf if negative(x) != negative(y) else math.inf
        return NAN if math.isinf(z) and z != p else p
    if math.isinf(z):
        return z
    (mx, ex), (my, ey), (mz, ez) = parts(x), parts(y), parts(z)
    mp, ep = mx * my, ex + ey
    low = min(ep, ez)
    total = (mp << ep - low) + (mz << ez - low)
    if total == 0:
        if mp == 0 and mz == 0 and (negative(x) != negative(y)) == negative(z):
            return -0.0 if negative(z) else 0.0
        return 0.0
    return nearest(total, low) if total > 0 else -nearest(-total, low)


def root(x):
    if x != x or x < 0:
        return NAN
    if x == 0 or math.isinf(x):
        return x
    m, e = parts(x)
    shift = 120 + (e & 1)
    m, e = m << shift, e - shift
    r = math.isqrt(m)
    return nearest(r, e // 2, r * r != m)


# ---- gates, place by place

def pairs(n, target, mask):
    for s0 in range(1 << n):
        if not s0 >> target & 1 and s0 & mask == mask:
            yield s0, s0 + (1 << target)


def x_rule(g, a, b, c, d):
    return c, d, a, b


def y_rule(g, a, b, c, d):
    return d, -c, -b, a


def z_rule(g, a, b, c, d):
    return a, b, -c, -d


def h_rule(g, a, b, c, d):
    h = of_bits(H_BITS)
    a1, b1, c1, d1 = h * a, h * b, h * c, h * d
    return a1 + c1, b1 + d1, a1 - c1, b1 - d1


def p_rule(g, a, b, c, d):
    k, s = g
    return a, b, F(c, k, (-d) * s), F(d, k, c * s)


def rx_rule(g, a, b, c, d):
    k, s = g
    w = -s
    return a * k - d * w, b * k + c * w, c * k - b * w, d * k + a * w


def ry_rule(g, a, b, c, d):
    k, s = g
    return a * k - c * s, b * k - d * s, a * s + c * k, b * s + d * k


def rz_rule(g, a, b, c, d):
    k, s = g

    def times(x, y, re, im):
        return F(x, re, (-y) * im), F(x, im, y * re)
    return times(a, b, k, -s) + times(c, d, k, s)


def u_rule(g, a, b, c, d):
    ct, st, cl, sl, cpl, spl, cp, sp = g
    p, q, r, u, v, e, f = ct, (-cl) * st, (-sl) * st, cp * st, sp * st, cpl * ct, spl * ct
    return (F(p, a, F(q, c, (-r) * d)), F(p, b, F(q, d, r * c)),
            F(u, a, F(-v, b, F(e, c, (-f) * d))), F(u, b, F(v, a, F(e, d, f * c))))


ANY = 99
RULES = {1: (h_rule, 1), 2: (x_rule, ANY), 3: (y_rule, 1), 4: (z_rule, 0), 5: (p_rule, ANY), 6: (rx_rule, ANY), 7: (ry_rule, ANY), 8: (rz_rule, 1), 9: (u_rule, 1)}


def with_value(word, value):
    return word if value is None else '%s VALUE %d' % (word, value)


def marked(mark, record):
    """The mark behind these bytes: each turns it left by 5, in 32 bits, and is added; a carry out of 32 bits is dropped."""
    for byte in record:
        turned = (mark << 5) % (1 << 32) + (mark >> 27)
        mark = (turned + byte) % (1 << 32)
    return mark


class Bench:
    """A session and its state; kept is the value of the last record taken, or None, and mark runs over the bytes of all that were taken."""

    def __init__(self, n, session):
        self.n, self.session, self.count, self.kept, self.mark = n, session, 0, None, 0
        self.re = [1.0] + [0.0] * ((1 << n) - 1)
        self.im = [0.0] * (1 << n)

    def each_pair(self, rule, g, target, mask):
        for i, j in pairs(self.n, target, mask):
            self.re[i], self.im[i], self.re[j], self.im[j] = rule(g, self.re[i], self.im[i], self.re[j], self.im[j])

    def act(self, code, target, mask, given):
        """(refusal, None), or (0, the value or None)."""
        n = self.n
        if target >= n or mask >> n or code == 10 and given >= n:
            return 3, None
        if code <= 9:
            rule, most = RULES[code]
            if mask >> target & 1:
                return 4, None
            if bin(mask).count('1') > most:
                return 5, None
        if code in (5, 6, 7, 8, 9, 12) and not all(math.isfinite(x) for x in given):
            return 6, None
        if code <= 9:
            self.each_pair(rule, given, target, mask)
            return 0, None
        if code == 10:
            for i in range(1 << n):
                if not i >> target & 1 and i >> given & 1:
                    j = i + (1 << target) - (1 << given)
                    self.re[i], self.im[i], self.re[j], self.im[j] = self.re[j], self.im[j], self.re[i], self.im[i]
            return 0, None
        if code == 12:
            prob, draw = given
            if draw <= prob:
                self.each_pair(x_rule, None, target, 0)
            return 0, int(draw <= prob)
        outcome, reset = given
        if outcome > 1 or reset > 1:
            return 6, None
        p = 0.0
        for i in range(1 << n):
            if i >> target & 1 == outcome:
                p += self.re[i] * self.re[i] + self.im[i] * self.im[i]
        if not math.isfinite(p) or p <= 0:
            return 7, None
        r = 1.0 / root(p)
        for i in range(1 << n):
            if i >> target & 1 == outcome:
                self.re[i], self.im[i] = self.re[i] * r, self.im[i] * r
            else:
                self.re[i], self.im[i] = 0.0, 0.0
        if outcome and reset:
            self.each_pair(x_rule, None, target, 0)
        return 0, outcome

    def deliver(self, record):
        it = read(record)
        if it is None:
            return 'REFUSED 8'
        session, number, code, target, mask, given = it
        if session != self.session:
            return 'REFUSED 9'
        if number == FULL:
            return 'REFUSED 11'
        if number < self.count:
            return with_value('AGAIN', self.kept if number == self.count - 1 else None)
        if number > self.count:
            return 'REFUSED 10'
        refusal, value = self.act(code, target, mask, given)
        if refusal:
            return 'REFUSED %d' % refusal
        self.count, self.kept, self.mark = self.count + 1, value, marked(self.mark, record)
        return with_value('TAKEN', value)


# ---- records

def read(record):
    """(session, number, code, target, mask, the gate's own numbers), or None."""
    at = [0]

    def field(tag, size):
        i = at[0]
        if len(record) < i + 3 + size or record[i] != tag or record[i + 1] << 8 | record[i + 2] != size:
            raise ValueError
        at[0] = i + 3 + size
        return record[i + 3:at[0]]

    def floats(tag, k):
        return struct.unpack('>%dd' % k, field(tag, 8 * k))
    try:
        session, = struct.unpack('>I', field(1, 4))
        number, = struct.unpack('>H', field(2, 2))
        code, target, mask, given = field(3, 1)[0], field(4, 1)[0], 0, None
        if not 1 <= code <= 12:
            return None
        if code <= 9:
            mask, = struct.unpack('>I', field(5, 4))
        if 5 <= code <= 8:
            given = floats(7, 2)
        if code == 9:
            given = floats(8, 8)
        if code == 10:
            given = field(6, 1)[0]
        if code == 11:
            given = tuple(field(9, 2))
        if code == 12:
            given = floats(10, 2)
    except ValueError:
        return None
    return (session, number, code, target, mask, given) if at[0] == len(record) else None


def field(tag, contents):
    return struct.pack('>BH', tag, len(contents)) + contents


def write(session, number, code, target, mask=0, given=None):
    s = field(1, struct.pack('>I', session)) + field(2, struct.pack('>H', number)) + field(3, bytes([code])) + field(4, bytes([target]))
    if code <= 9:
        s += field(5, struct.pack('>I', mask))
    if 5 <= code <= 8:
        s += field(7, struct.pack('>2d', *given))
    if code == 9:
        s += field(8, struct.pack('>8d', *given))
    if code == 10:
        s += field(6, bytes([given]))
    if code == 11:
        s += field(9, bytes(given))
    if code == 12:
        s += field(10, struct.pack('>2d', *given))
    return s


def frame(record):
    return struct.pack('>BH', 0x20, len(record)) + record


def header(n, session):
    return struct.pack('>BHBI', 0x21, 5, n, session)


# ---- the program

def run(data, write_out):
    if len(data) < 8 or data[:3] != b'\x21\x00\x05' or not 1 <= data[3] <= MOST_QUBITS:
        write_out('BAD HEADER\n')
        return
    bench = Bench(data[3], struct.unpack('>I', data[4:8])[0])
    at, index = 8, 0
    while at < len(data):
        size = data[at + 1] << 8 | data[at + 2] if at + 3 <= len(data) else 0
        if data[at] != 0x20 or len(data) < at + 3 + size:
            write_out('CUT\n')
            break
        says = 'REFUSED 8' if size > MOST_BYTES else bench.deliver(data[at + 3:at + 3 + size])
        word, _, value = says.partition(' VALUE ')
        write_out('D %d %s COUNT %d%s\n' % (index, word, bench.count, ' VALUE ' + value if value else ''))
        at, index = at + 3 + size, index + 1
    for i in range(1 << bench.n):
        write_out('A %d %016x %016x\n' % (i, bits(bench.re[i]), bits(bench.im[i])))
    write_out('END %d MARK %08x\n' % (bench.count, bench.mark))


# ---- inputs

class Maker:
    """Frames of one session, with the number that is next kept by a bench of its own."""

    def __init__(self, n, session, seed):
        self.random, self.bench, self.data, self.n = random.Random(seed), Bench(n, session), header(n, session), n

    def raw(self, record):
        self.data += frame(record)
        if len(record) <= MOST_BYTES:
            self.bench.deliver(record)

    def next(self, code, target, mask=0, given=None):
        """The record that is next by number."""
        self.back(0, code, target, mask, given)

    def back(self, by, code, target, mask=0, given=None):
        """A record so many numbers before the next one."""
        self.raw(write(self.bench.session, self.bench.count - by, code, target, mask, given))

    def angle(self):
        t = self.random.uniform(-4, 4)
        return math.cos(t), math.sin(t)

    def given(self, code):
        if 5 <= code <= 8:
            return self.angle()
        if code == 9:
            return self.angle() + self.angle() + self.angle() + self.angle()
        if code == 10:
            return self.random.randrange(self.n)
        if code == 11:
            return self.random.randrange(2), self.random.randrange(2)
        if code == 12:
            return self.random.random(), self.random.random()

    def mask(self, code, target, controls):
        others = [q for q in range(self.n) if q != target]
        most = min(RULES[code][1] if code <= 9 else 0, len(others))
        return sum(1 << q for q in self.random.sample(others, min(most, controls)))

    def any(self, code, controls):
        target = self.random.randrange(self.n)
        self.next(code, target, self.mask(code, target, controls), self.given(code))

    def spread(self):
        """Every amplitude takes part."""
        for q in range(self.n):
            self.next(1, q)
            self.next(9, q, 0, self.given(9))


def one_x(n=1, session=7):
    return header(n, session) + frame(write(session, 0, 2, 0))


def make_gates(n, rounds):
    def made(seed):
        m = Maker(n, 0x01020304, seed)
        for outcome in (0, 1):
            for reset in (0, 1):
                m.next(1, 0)
                m.next(11, 0, 0, (outcome, reset))
                m.next(1, n - 1)
                m.next(7, n - 1, 0, m.angle())
                m.next(11, n - 1, 0, (outcome, reset))
        m.next(12, 0, 0, (0.5, 0.5))
        m.next(12, 0, 0, (0.5, 0.75))
        m.next(12, 0, 0, (0.0, -0.0))
        m.spread()
        for controls in range(rounds):
            for code in list(range(1, 11)) + [12]:
                m.any(code, controls)
        return m.data
    return made


def make_specials(seed):
    """Amplitudes that are infinite, NaN, subnormal and negative zero, under every gate; refused as an outcome while its half has them."""
    m = Maker(4, 0xFFFFFFFF, seed)
    huge, least, small = of_bits(0x7FEFFFFFFFFFFFFF), of_bits(1), of_bits(0x0010000000000000)
    for q in range(4):
        m.next(1, q)
    for place, k in ((15, huge), (15, huge), (13, -huge), (13, huge), (15, huge), (14, small), (12, least), (11, huge)):
        target = next(q for q in range(4) if place >> q & 1)
        m.next(5, target, place - (1 << target), (k, 0.0))
    m.next(11, 3, 0, (1, 0))
    m.next(2, 3, 4)
    m.next(1, 0, 8)
    m.next(6, 1, 8, (0.75, 0.5))
    m.next(7, 0, 8, (-0.0, -1.0))
    m.next(5, 1, 8, (small, -small))
    m.next(8, 1, 8, (0.75, -0.5))
    m.next(9, 1, 8, (0.5, 0.5, -0.5, 0.5, 0.75, 0.25, -0.0, 1.0))
    m.next(9, 0, 4, (huge, huge, huge, -1.0, 2.0, huge, -0.0, huge))
    m.next(6, 0, 6, (0.75, 0.5))
    m.next(3, 2, 1)
    m.next(4, 0)
    m.next(10, 1, 0, 3)
    m.next(12, 1, 0, (1.0, 0.0))
    m.next(11, 2, 0, (0, 0))
    m.next(11, 2, 0, (1, 1))
    m.next(5, 2, 1, (huge, 0.0))
    m.next(5, 3, 0, (small, 0.0))
    m.next(5, 3, 0, (small, 0.0))
    m.next(4, 3)
    return m.data


def make_refusals(seed):
    m = Maker(3, 7, seed)
    own, inf = 7, math.inf
    m.next(1, 0)
    at = m.bench.count
    for code in range(1, 13):
        good = m.given(code)
        if code == 11:
            good = (0, 0)
        for target in (3, 31, 32, 255):
            m.raw(write(own, at, code, target, 0, good))
        if code <= 9:
            for mask in (8, 0x80000000, 9):
                m.raw(write(own, at, code, 0, mask, good))
            m.raw(write(own, at, code, 1, 2, good))
            m.raw(write(own, at, code, 1, 7, good))
            m.raw(write(own, at, code, 3, 8, good))
            if RULES[code][1] < 2:
                m.raw(write(own, at, code, 1, 5, good))
            if RULES[code][1] < 1:
                m.raw(write(own, at, code, 1, 1, good))
        if code in (5, 6, 7, 8, 9, 12):
            for bad in (inf, -inf, NAN, of_bits(0x7FF0000000000001), of_bits(0xFFF8000000000000)):
                for i in range(len(good)):
                    m.raw(write(own, at, code, 0, 0, good[:i] + (bad,) + good[i + 1:]))
        if code == 10:
            m.raw(write(own, at, code, 0, 0, 3))
            m.raw(write(own, at, code, 3, 0, 0))
        if code == 11:
            for pair in ((2, 0), (0, 2), (255, 255), (1, 0), (1, 1)):
                m.raw(write(own, at, code, 1, 0, pair))
    for number in (0, at, at + 1, 65534, 65535):
        for session in (own, 8, 0x07000000):
            m.raw(write(session, number, 4, 2, 1))
    m.raw(write(own, at, 0, 0))
    m.raw(write(own, at, 13, 0))
    m.raw(write(own, at, 2, 0) + b'\x00')
    m.raw(b'\x01')
    m.next(2, 2)
    return m.data


def make_measured(outcome):
    """Three H leave a state off length 1: this outcome, and then the other, whose half holds zeros by now."""
    def made(seed):
        m = Maker(1, 3, seed)
        for _ in range(3):
            m.next(1, 0)
        m.next(11, 0, 0, (outcome, 0))
        m.next(11, 0, 0, (1 - outcome, 0))
        return m.data
    return made


def make_half_of_zeros(seed):
    """0.5 at index 0 and nothing else: outcome 1 is refused, with reset and without, though 1-p0 is .75; outcome 0 is taken."""
    m = Maker(1, 3, seed)
    m.next(7, 0, 0, (0.5, 0.0))
    for given in ((1, 0), (1, 1), (0, 0)):
        m.next(11, 0, 0, given)
    return m.data


def make_other_half(seed):
    """The half that is not asked for holds an infinity and a NaN, and nobody looks at it."""
    m = Maker(2, 3, seed)
    huge = of_bits(0x7FEFFFFFFFFFFFFF)
    for code, target, mask, given in ((1, 0, 0, None), (1, 1, 0, None), (2, 0, 0, None), (5, 0, 0, (huge, 0.0)), (5, 0, 0, (huge, 0.0)),
                                      (5, 0, 2, (huge, 0.0)), (2, 0, 0, None), (11, 0, 0, (0, 0)), (11, 0, 0, (1, 0)), (11, 0, 0, (0, 0))):
        m.next(code, target, mask, given)
    return m.data


def make_repeats(seed):
    """Measurements told again: at once and twice, behind a refusal of each kind, with another gate's bytes; not with an older number, nor behind a gate
    without a value."""
    m = Maker(2, 4, seed)
    one, zero = (11, 0, 0, (1, 0)), (11, 1, 0, (0, 0))

    def twice(*gate):
        m.back(1, *gate)
        m.back(1, *gate)
    m.next(1, 0)
    m.back(1, 1, 0)
    m.next(*one)
    twice(*one)
    m.back(2, 1, 0)
    m.back(1, *one)
    at = m.bench.count
    for refused in (write(4, at, 2, 2), write(4, at, 2, 0, 1), write(4, at, 4, 0, 2), write(4, at, 11, 1, 0, (2, 0)), write(4, at, 11, 0, 0, (0, 0)), b'',
                    write(4, at - 1, *one) + b'\x00', bytes(95), write(5, at - 1, *one), write(5, at, 2, 0), write(4, at + 1, 2, 0), write(4, FULL, *one)):
        m.raw(refused)
        m.back(1, *one)
    for gate in ((2, 0), zero, (2, 31), (12, 0, 0, (0.5, 0.75))):
        m.back(1, *gate)
    m.next(4, 0)
    m.back(2, *one)
    twice(4, 0)
    m.back(1, *one)
    m.next(1, 1)
    m.next(*zero)
    twice(*zero)
    m.back(4, *one)
    m.back(1, *one)
    for reset in ((11, 0, 0, (1, 1)), (11, 1, 0, (0, 1))):
        m.next(*reset)
        m.back(2, *reset)
        twice(*reset)
    m.next(2, 0)
    m.back(1, 2, 0)
    return m.data


def make_repeated_flips(seed):
    """Flips that ran and that did not, told again, whatever the repeat itself would do; behind each of the ten gates without a value nothing is told."""
    m = Maker(2, 6, seed)
    for draw in (0.25, 0.75, 0.5):
        m.next(12, 0, 0, (0.5, draw))
        m.back(1, 12, 0, 0, (0.5, draw))
        m.next(12, 0, 0, (NAN, draw))
        m.back(1, 12, 0, 0, (0.5, 1.0 - draw))
        m.back(m.bench.count, 12, 0, 0, (0.5, 0.25))
    for code in range(1, 11):
        flip = (12, 1, 0, (0.5, (0.25, 0.75)[code & 1]))
        gate = (code, 0, 0, (0.75, 0.5) if 5 <= code <= 8 else (0.75, 0.5) * 4 if code == 9 else 1)
        m.next(*flip)
        m.next(*gate)
        m.back(1, *gate)
        m.back(2, *flip)
    m.next(*flip)
    m.back(1, *flip)
    return m.data


def make_carries(seed):
    """P's numbers, found by a search, leave the mark ffffffff; then the first byte of RY's record drops a carry, and so does its last one."""
    m = Maker(1, 7, seed)
    m.next(5, 0, 0, (0.75, of_bits(0x3FDF7C060B121514)))
    assert m.bench.mark == 0xFFFFFFFF
    m.next(7, 0, 0, (0.5, of_bits(0x3FEFFB1E0B1205FF)))
    assert m.bench.mark == 0xED
    return m.data


def make_none_taken(seed):
    """Refusals 3 to 11 while no record was taken, and one that would be taken, but is cut."""
    good = write(7, 0, 2, 0)
    refused = (write(7, 0, 2, 2), write(7, 0, 2, 0, 1), write(7, 0, 4, 0, 2), write(7, 0, 5, 0, 0, (NAN, 0.0)), write(7, 0, 11, 0, 0, (1, 0)),
               good[:-1], good + bytes(95 - len(good)), write(8, 0, 2, 0), write(7, 1, 2, 0), write(7, FULL, 2, 0))
    return header(2, 7) + b''.join(map(frame, refused)) + frame(good)[:-1]


def make_eleven(seed):
    m = Maker(11, 11, seed)
    m.next(1, 10)
    m.next(2, 0, 1 << 10)
    m.next(7, 5, 0, m.angle())
    m.next(9, 3, 1 << 5, m.given(9))
    m.next(10, 2, 0, 9)
    m.next(2, 4, 0x7EF)
    m.next(12, 8, 0, (0.5, 0.25))
    m.next(2, 11)
    m.next(2, 0, 1 << 11)
    m.next(11, 10, 0, (1, 1))
    return m.data


def make_overlong(seed, longest=65535):
    good = write(7, 0, 2, 0)
    return (header(1, 7) + frame(b'') + frame(good + bytes(95 - len(good))) + frame(bytes(94)) + frame(good) + frame(bytes(longest)) + frame(b'\x20' * 300)
            + frame(write(7, 1, 2, 0)) + frame(bytes(96)) + frame(b''))


def make_many(seed):
    """All 65,535 records, and some more."""
    s = [header(2, 5)]
    for k in range(FULL):
        s.append(frame(write(5, k, 10, 0, 0, 1)) if k else frame(write(5, 0, 2, 1)))
    for k in range(465):
        s.append(frame(write(5, (0, 65534, 65535)[k % 3], 10, 0, 0, 1)))
    return b''.join(s)


def make_deliveries(seed):
    """Records of every code; before each, copies of it damaged at every byte; repeats; early ones; other sessions."""
    m = Maker(4, 0x0A0B0C0D, seed)
    r, own, sent = m.random, 0x0A0B0C0D, []
    m.spread()
    for code in list(range(1, 13)) + [r.randrange(1, 13) for _ in range(12)]:
        target = r.randrange(4)
        good = write(own, m.bench.count, code, target, m.mask(code, target, r.randrange(3)), m.given(code))
        for i in range(len(good)):
            m.raw(good[:i] + bytes([good[i] ^ 1 << r.randrange(8)]) + good[i + 1:])
            if m.bench.count != read(good)[1]:
                good = write(own, m.bench.count, *read(good)[2:])
        for cut in (1, 4, len(good) // 2, len(good) - 1):
            m.raw(good[:cut])
        m.raw(write(own, m.bench.count + 1, *read(good)[2:]))
        m.raw(good)
        sent.append(good)
        for _ in range(3):
            m.raw(r.choice(sent))
    return m.data


MAKE = {
    'gate_bench': lambda seed: header(1, 7) + b''.join(frame(write(7, k, 2, 0)) for k in (0, 0, 2)),
    'empty': lambda seed: b'',
    'header_short': lambda seed: header(1, 7)[:7],
    'header_tag': lambda seed: b'\x20' + one_x()[1:],
    'header_length': lambda seed: b'\x21\x00\x04' + one_x()[3:],
    'header_n_0': lambda seed: one_x(0),
    'header_n_12': lambda seed: one_x(12),
    'cut_tag': lambda seed: one_x(2) + b'\n',
    'cut_length': lambda seed: one_x(2) + b'\x20\x00',
    'cut_record': lambda seed: one_x(2) + frame(write(7, 1, 2, 1))[:-1],
    'cut_overlong': lambda seed: one_x(2) + frame(bytes(65535))[:-1],
    'overlong': make_overlong,
    'gates_1': make_gates(1, 1),
    'gates_5': make_gates(5, 5),
    'specials': make_specials,
    'measured_0': make_measured(0),
    'measured_1': make_measured(1),
    'half_of_zeros': make_half_of_zeros,
    'other_half': make_other_half,
    'refusals': make_refusals,
    'repeats': make_repeats,
    'repeated_flips': make_repeated_flips,
    'carries': make_carries,
    'none_taken': make_none_taken,
    'eleven': make_eleven,
    'many': make_many,
    'deliveries': make_deliveries,
}
SEED = 20261


def answer(data):
    out = []
    run(data, out.append)
    return ''.join(out)


def put(folder, name, data):
    os.makedirs(folder, exist_ok=True)
    with open(os.path.join(folder, name), 'wb') as f:
        f.write(data)


def both(name, lines):
    """Each run by the kernels, and then by the slow engine."""
    return f'{name}:\n{lines}{name} by the slow engine:\n{lines}'


def store(crates, seed):
    """The sample as the two programs' standard input; the others as files of stored_runs, which prints each under its name."""
    made = {name: make(seed) for name, make in MAKE.items()}
    sample = made.pop('gate_bench')
    for program in 'gate_bench', 'slow_bench':
        put(os.path.join(crates, program), 'stdin', sample)
        put(os.path.join(crates, program), 'stdout', answer(sample).encode())
    for name, data in made.items():
        put(os.path.join(crates, 'stored_runs', 'data'), name, data)
    put(os.path.join(crates, 'stored_runs'), 'args', ''.join(name + '\n' for name in made).encode())
    put(os.path.join(crates, 'stored_runs'), 'stdout', ''.join(both(name, answer(data)) for name, data in made.items()).encode())
    store_apart(crates, made)


def store_apart(crates, made):
    """The streams behind a good header, but for many: how many bytes, cuts and answers each has, and that nothing differs. Of deliveries and
    cut_overlong the start, and of overlong one with shorter frames, since each is fed as often as it has bytes."""
    apart = os.path.join(crates, 'cut_streams')
    kept = {name: data for name, data in made.items() if name != 'many' and answer(data) != 'BAD HEADER\n'}
    kept['deliveries'], kept['cut_overlong'] = kept['deliveries'][:8 + 6144], kept['cut_overlong'][:8 + 2048]
    kept['overlong'] = make_overlong(None, 300)
    for name, data in kept.items():
        put(os.path.join(apart, 'data'), name, data)
    put(apart, 'args', ''.join(name + '\n' for name in kept).encode())
    lines = []
    for name, data in kept.items():
        size, answers = len(data) - 8, sum(line.startswith('D ') for line in answer(data).splitlines())
        lines.append(f'{name}: {size} bytes, {size + 1} cuts in two and one byte by byte, {answers} answers: 0 differ\n')
    put(apart, 'stdout', ''.join(lines).encode())


def main():
    word = sys.argv[1] if len(sys.argv) > 1 else ''
    if word == 'run':
        run(sys.stdin.buffer.read(), sys.stdout.write)
    elif word == 'names':
        print('\n'.join(MAKE))
    elif word == 'make':
        sys.stdout.buffer.write(MAKE[sys.argv[2]](int(sys.argv[3]) if len(sys.argv) > 3 else SEED))
    elif word == 'store':
        store(os.path.join(sys.argv[2], 'crates'), int(sys.argv[3]) if len(sys.argv) > 3 else SEED)
    else:
        print(__doc__)


if __name__ == '__main__':
    main()
