//! States to put the gates to.
use crate::random::Random;

#[derive(Clone, Copy, Debug, PartialEq)]
pub enum Kind {
    Ramp,
    Unit,
    AnyBits,
    Edges,
    Subnormal,
    Zeros,
    Cancelling,
    Infinite,
    Exact,
    LengthOne,
}

pub const KINDS: [Kind; 8] = [Kind::Ramp, Kind::Unit, Kind::AnyBits, Kind::Edges, Kind::Subnormal, Kind::Zeros, Kind::Cancelling, Kind::Infinite];

/// The kinds that are measured: their sums are exact.
pub const MEASURED: [Kind; 2] = [Kind::Exact, Kind::LengthOne];

const EDGES: [u64; 13] = [
    0x0000000000000000,
    0x0000000000000001,
    0x000fffffffffffff,
    0x0010000000000000,
    0x0010000000000001,
    0x3fe6a09e667f3bcd,
    0x3fefffffffffffff,
    0x3ff0000000000000,
    0x3ff0000000000001,
    0x4340000000000000,
    0x5fe0000000000000,
    0x7fe0000000000000,
    0x7fefffffffffffff,
];

fn sign(random: &mut Random, bits: u64) -> f64 {
    f64::from_bits(bits | random.next() & (1 << 63))
}

/// Any finite number, each exponent as likely as another.
fn any_bits(random: &mut Random) -> f64 {
    let bits = random.below(0x7ff) << 52 | random.next() >> 12;
    sign(random, bits)
}

fn edge(random: &mut Random) -> f64 {
    let bits = EDGES[random.below(EDGES.len() as u64) as usize];
    sign(random, bits)
}

/// Numbers that differ from each other by a few units in the last place, or in sign.
fn near(random: &mut Random, base: u64) -> f64 {
    let bits = base + random.below(4);
    sign(random, bits)
}

/// A power of two, so that small whole multiples of it have exact squares and sums, and a norm near 1.
fn exact_unit(size: usize) -> f64 {
    2f64.powi(-3 - (size.ilog2() as i32 + 1) / 2)
}

/// A number as parts whose squares add up to its own: 1/4 four times, or 9, 4, 1, 1 and 1 of 16.
const SPLITS: [&[f64]; 2] = [&[0.5, 0.5, 0.5, 0.5], &[0.75, 0.5, 0.25, 0.25, 0.25]];

/// Numbers of either sign whose squares add up to 1: they begin as one 1, and one after the other is split among places that are free. What is split is
/// a multiple of 2^-20, so that squares and sums are exact.
fn length_one(random: &mut Random, size: usize) -> Vec<f64> {
    let mut order: Vec<usize> = (0..size).collect();
    for i in (1..size).rev() {
        order.swap(i, random.below(i as u64 + 1) as usize);
    }
    let mut made = vec![1.0];
    for _ in 0..random.below(size as u64 + 1) {
        let parts = SPLITS[random.below(2) as usize];
        let at = random.below(made.len() as u64) as usize;
        let multiple = made[at] * f64::from(1 << 20);
        if multiple.fract() == 0.0 && made.len() + parts.len() <= size + 1 {
            let whole = made.swap_remove(at);
            made.extend(parts.iter().map(|part| whole * part));
        }
    }
    made.resize(size, 0.0);
    let signed: Vec<f64> = made.iter().map(|x| sign(random, x.to_bits())).collect();
    order.iter().map(|i| signed[*i]).collect()
}

fn number(kind: Kind, random: &mut Random, i: usize, size: usize, base: u64) -> f64 {
    match kind {
        Kind::Ramp => (i + 1) as f64,
        Kind::Unit => random.unit(),
        Kind::AnyBits => any_bits(random),
        Kind::Edges => edge(random),
        Kind::Subnormal => {
            let bits = random.next() >> 12 >> random.below(52);
            sign(random, bits)
        }
        Kind::Zeros => {
            let bits = if random.below(4) == 0 { 0x3ff0000000000000 } else { 0 };
            sign(random, bits)
        }
        Kind::Cancelling => near(random, base),
        Kind::Infinite => {
            if random.below(6) == 0 {
                sign(random, 0x7ff0000000000000)
            } else {
                random.unit()
            }
        }
        Kind::Exact => (random.below(17) as f64 - 8.0) * exact_unit(size),
        Kind::LengthOne => unreachable!("such a state is made as a whole"),
    }
}

/// The reals and imags of a state or a matrix of this many places.
pub fn state(kind: Kind, random: &mut Random, size: usize) -> (Vec<f64>, Vec<f64>) {
    if kind == Kind::LengthOne {
        let mut reals = length_one(random, 2 * size);
        let imags = reals.split_off(size);
        return (reals, imags);
    }
    let base = 0x3ff0000000000000 + (random.next() >> 12);
    let reals = (0..size).map(|i| number(kind, random, i, size, base)).collect();
    let imags = (0..size).map(|i| number(kind, random, i + size, size, base)).collect();
    (reals, imags)
}

/// Bit for bit.
pub fn same(a: &[f64], b: &[f64]) -> bool {
    a.len() == b.len() && a.iter().zip(b).all(|(x, y)| x.to_bits() == y.to_bits())
}

pub fn has_nan(a: &[f64]) -> bool {
    a.iter().any(|x| x.is_nan())
}
