//! Request 05: the slow engine beside the kernels, on the same calls. The same answers, and the same bits, one NaN taken for another.
use gate_bench as bench;
use gate_bench::{slow, Angle, Angles, Answer, Noise, Refusal};
use std::collections::BTreeSet;

/// Every gate but measuring.
#[derive(Clone, Copy, Debug, PartialEq)]
enum Gate {
    X,
    Y,
    Z,
    H,
    P,
    Rx,
    Ry,
    Rz,
    U,
    Swap,
    BitFlip,
}

use Gate::*;

const GATES: [Gate; 11] = [X, Y, Z, H, P, Rx, Ry, Rz, U, Swap, BitFlip];

impl Gate {
    /// How many controls it takes, of 24 that there can be.
    fn controls(self) -> u32 {
        match self {
            X | P | Rx | Ry => 24,
            Y | H | Rz | U => 1,
            Z | Swap | BitFlip => 0,
        }
    }

    /// How many numbers it is fed.
    fn fed(self) -> usize {
        match self {
            X | Y | Z | H | Swap => 0,
            P | Rx | Ry | Rz | BitFlip => 2,
            U => 8,
        }
    }
}

/// `second` is the controls' mask, or SWAP's second qubit; a bit flip has none. Of the numbers a gate takes the first that it is fed.
#[derive(Clone, Copy, Debug)]
struct Call {
    gate: Gate,
    n: u32,
    target: u32,
    second: u32,
    numbers: [f64; 8],
}

/// Reals and imags.
type Parts = [Vec<f64>; 2];

impl Call {
    fn angle(&self) -> Angle {
        Angle { cosine: self.numbers[0], sine: self.numbers[1] }
    }

    fn angles(&self) -> Angles {
        let [ct, st, cl, sl, cpl, spl, cp, sp] = self.numbers;
        Angles { ct, st, cl, sl, cpl, spl, cp, sp }
    }

    fn noise(&self) -> Noise {
        Noise { prob: self.numbers[0], draw: self.numbers[1] }
    }

    fn by_kernel(&self, [re, im]: &mut Parts) -> Answer {
        let Call { gate, n, target: t, second: s, .. } = *self;
        match gate {
            X => bench::x_apply(re, im, n, t, s),
            Y => bench::y_apply(re, im, n, t, s),
            Z => bench::z_apply(re, im, n, t, s),
            H => bench::h_apply(re, im, n, t, s),
            P => bench::p_apply(re, im, n, t, s, self.angle()),
            Rx => bench::rx_apply(re, im, n, t, s, self.angle()),
            Ry => bench::ry_apply(re, im, n, t, s, self.angle()),
            Rz => bench::rz_apply(re, im, n, t, s, self.angle()),
            U => bench::u_apply(re, im, n, t, s, self.angles()),
            Swap => bench::swap_apply(re, im, n, t, s),
            BitFlip => bench::bit_flip_noise_apply(re, im, n, t, self.noise()),
        }
    }

    fn by_slow(&self, [re, im]: &Parts, [out_re, out_im]: &mut Parts) -> Answer {
        let Call { gate, n, target: t, second: s, .. } = *self;
        match gate {
            X => slow::x_apply(re, im, out_re, out_im, n, t, s),
            Y => slow::y_apply(re, im, out_re, out_im, n, t, s),
            Z => slow::z_apply(re, im, out_re, out_im, n, t, s),
            H => slow::h_apply(re, im, out_re, out_im, n, t, s),
            P => slow::p_apply(re, im, out_re, out_im, n, t, s, self.angle()),
            Rx => slow::rx_apply(re, im, out_re, out_im, n, t, s, self.angle()),
            Ry => slow::ry_apply(re, im, out_re, out_im, n, t, s, self.angle()),
            Rz => slow::rz_apply(re, im, out_re, out_im, n, t, s, self.angle()),
            U => slow::u_apply(re, im, out_re, out_im, n, t, s, self.angles()),
            Swap => slow::swap_apply(re, im, out_re, out_im, n, t, s),
            BitFlip => slow::bit_flip_noise_apply(re, im, out_re, out_im, n, t, self.noise()),
        }
    }

    /// The first refusal of document 01's table that applies, in its order, with these lengths of the four buffers.
    fn refusal(&self, lengths: [usize; 4]) -> Option<Refusal> {
        let Call { gate, n, target, second, numbers } = *self;
        if !(1..=24).contains(&n) {
            return Some(Refusal::Size);
        }
        if lengths != [1 << n; 4] {
            return Some(Refusal::Length);
        }
        let (beside, ones) = match gate {
            Swap => (second >= n, 0),
            BitFlip => (false, 0),
            _ => (second >> n != 0, second),
        };
        if target >= n || beside {
            return Some(Refusal::Qubit);
        }
        if ones >> target & 1 == 1 {
            return Some(Refusal::Same);
        }
        if ones.count_ones() > gate.controls() {
            return Some(Refusal::Form);
        }
        let odd = numbers[..gate.fed()].iter().any(|x| !x.is_finite());
        odd.then_some(Refusal::Number)
    }

    /// What is taken: a bit flip has a value.
    fn taken(&self) -> Answer {
        match self.gate {
            BitFlip => Answer::Value(u8::from(self.numbers[1] <= self.numbers[0])),
            _ => Answer::Taken,
        }
    }
}

/// What the outputs hold before: no state has it, and no gate leaves it.
const MARK: f64 = -99.25;

fn marked(reals: usize, imags: usize) -> Parts {
    [vec![MARK; reals], vec![MARK; imags]]
}

fn bits(parts: &Parts) -> Vec<u64> {
    parts.concat().iter().map(|x| x.to_bits()).collect()
}

/// The bits, but those of one NaN for all.
fn left(parts: &Parts) -> Vec<u64> {
    parts.concat().iter().map(|x| if x.is_nan() { f64::NAN.to_bits() } else { x.to_bits() }).collect()
}

/// By both engines from the same state: the answer that document 01 asks for, equal outputs, and inputs that are not touched.
fn same(call: &Call, state: &Parts) {
    let before = bits(state);
    let (mut kept, mut out) = (state.clone(), marked(state[0].len(), state[1].len()));
    let (kernel, slow) = (call.by_kernel(&mut kept), call.by_slow(state, &mut out));
    let lengths = [state[0].len(), state[1].len(), out[0].len(), out[1].len()];
    let wanted = call.refusal(lengths).map_or(call.taken(), Answer::Refused);
    assert_eq!((kernel, slow), (wanted, wanted), "{call:?}");
    assert!(bits(state) == before, "{call:?} changed its inputs");
    if let Answer::Refused(_) = wanted {
        assert!(out.concat().iter().all(|x| *x == MARK), "{call:?} is refused, and wrote");
        return;
    }
    let differs = left(&kept).into_iter().zip(left(&out)).enumerate().find(|(_, (by_kernel, by_slow))| by_kernel != by_slow);
    assert_eq!(differs, None, "{call:?}: a place, imags behind reals, by the kernel and by the slow engine");
}

/// Numbers that a state is made of: ordinary ones, ties and neighbours among them, then the ends of the format, both zeros, infinities and NaNs.
const PLACES: [u64; 24] = [
    0x3ff0000000000000,
    0xbfe3333333333333,
    0x3fd0000000000001,
    0xbff0000000000001,
    0x3fe6a09e667f3bcd,
    0x3c80000000000000,
    0x5fe0000000000000,
    0xdfefffffffffffff,
    0x1fe0000000000001,
    0x7fefffffffffffff,
    0xffefffffffffffff,
    0x7fe0000000000000,
    0x0010000000000000,
    0x800fffffffffffff,
    0x0000000000000001,
    0x8000000000000001,
    0x0000000000000000,
    0x8000000000000000,
    0x7ff0000000000000,
    0xfff0000000000000,
    0x7ff8000000000000,
    0xfff8000000000000,
    0x7ff4000000000001,
    0xffffffffffffffff,
];

/// As many of them have no NaN and no infinity, and as many are ordinary.
const FINITE: usize = 18;
const ORDINARY: usize = 6;

/// A small generator (splitmix64), so that a run can be made again.
struct Random(u64);

impl Random {
    fn next(&mut self) -> u64 {
        self.0 = self.0.wrapping_add(0x9e3779b97f4a7c15);
        let mut z = self.0;
        z = (z ^ (z >> 30)).wrapping_mul(0xbf58476d1ce4e5b9);
        z = (z ^ (z >> 27)).wrapping_mul(0x94d049bb133111eb);
        z ^ (z >> 31)
    }

    fn below(&mut self, end: u64) -> u64 {
        self.next() % end
    }
}

#[derive(Clone, Copy)]
enum Kind {
    /// Each place one of the first so many of PLACES, by chance.
    Of(usize),
    /// Any bits at all.
    Bits,
}

const KINDS: [Kind; 4] = [Kind::Of(ORDINARY), Kind::Of(FINITE), Kind::Of(PLACES.len()), Kind::Bits];

fn state(kind: Kind, n: u32, random: &mut Random) -> Parts {
    let mut place = || match kind {
        Kind::Of(some) => f64::from_bits(PLACES[random.below(some as u64) as usize]),
        Kind::Bits => f64::from_bits(random.next()),
    };
    let mut part = || (0..1 << n).map(|_| place()).collect();
    [part(), part()]
}

/// What gates are fed. Of two numbers the first is a cosine or a probability, the second a sine or a draw: below, at and above it.
const FED: [[f64; 8]; 5] = [
    [0.8, 0.6, 0.96, 0.28, -0.6, 0.8, 0.28, -0.96],
    [0.0, 1.0, -0.0, 1.0, 0.0, -1.0, 1.0, -0.0],
    [1.0, 1.0, 2.7755575615628914e-17, 1.0, 0.5, 2.7755575615628914e-17, 1.0, 1.0],
    [-1e300, 1e300, 3.0, 1e-300, -1e-300, 5e-324, f64::MAX, -2.0],
    [5e-324, -0.0, 2.2250738585072014e-308, 5e-324, f64::MAX, f64::MIN, 1e-160, 1e160],
];

/// The sets of numbers that tell one call of a gate from another: one where it is fed none.
fn fed(gate: Gate) -> &'static [[f64; 8]] {
    if gate.fed() == 0 {
        &FED[..1]
    } else {
        &FED
    }
}

/// Every target and every mask for n up to 4, also those that are refused: a target or a bit that is n, the target as a control, too many controls.
#[test]
fn every_target_and_mask() {
    let mut random = Random(1);
    for n in 1..=4 {
        for (gate, target) in GATES.into_iter().flat_map(|gate| (0..=n).map(move |t| (gate, t))) {
            for (second, numbers) in (0..2 << n).flat_map(|second| fed(gate).iter().map(move |v| (second, *v))) {
                for kind in KINDS.repeat(2) {
                    same(&Call { gate, n, target, second, numbers }, &state(kind, n, &mut random));
                }
            }
        }
    }
}

/// Larger states, where the kernels go by blocks: low, middle and last targets, with no control, one, two and all others.
#[test]
fn larger_states() {
    let mut random = Random(2);
    for n in [5, 6, 10] {
        for (gate, target) in GATES.into_iter().flat_map(|gate| [0, 1, 2, n / 2, n - 1].map(|t| (gate, t))) {
            let others = (1 << n) - 1 - (1 << target);
            let low = 1 << u32::from(target == 0);
            let high = 1 << (n - 1 - u32::from(target == n - 1));
            let seconds = if gate == Swap { [0, 1, 2, n / 2, n - 1] } else { [0, low, high, low + high, others] };
            for (second, numbers) in seconds.into_iter().flat_map(|second| fed(gate).iter().map(move |v| (second, *v))) {
                for kind in KINDS {
                    same(&Call { gate, n, target, second, numbers }, &state(kind, n, &mut random));
                }
            }
        }
    }
}

/// The target first, second qubits or masks beside it, each with every fault that it can have, and none.
fn places(gate: Gate, n: u32) -> Vec<(u32, u32)> {
    let bit = |t: u32| 1u32.checked_shl(t).unwrap_or(0);
    let seconds = |target: u32| match gate {
        Swap => vec![0, target, n.saturating_sub(1), n, u32::MAX],
        BitFlip => vec![0],
        _ => vec![0, 2, 6, bit(target), bit(target) | 6, bit(n), bit(n) | bit(target), u32::MAX],
    };
    let targets = [0, n.saturating_sub(1), n, 31, 32, u32::MAX];
    targets.into_iter().flat_map(|target| seconds(target).into_iter().map(move |second| (target, second))).collect()
}

/// The numbers as they are, and with a NaN and infinities in place of each.
fn numbers(gate: Gate) -> Vec<[f64; 8]> {
    let mut all = vec![FED[0]];
    for at in 0..gate.fed() {
        for odd in [f64::NAN, f64::INFINITY, f64::NEG_INFINITY] {
            let mut numbers = FED[0];
            numbers[at] = odd;
            all.push(numbers);
        }
    }
    all
}

/// The length that n asks for each of the four buffers, and then each of them one place shorter, one longer, and none: inputs first, outputs behind.
fn lengths(n: u32) -> Vec<[usize; 4]> {
    let asked = 1 << n.min(3);
    let mut all = vec![[asked; 4], [0; 4]];
    for at in 0..4 {
        for other in [asked - 1, asked + 1, 0, 2 * asked] {
            let mut lengths = [asked; 4];
            lengths[at] = other;
            all.push(lengths);
        }
    }
    all
}

/// Every fault with every other: the first that document 01's order names is told, and then nothing is written.
#[test]
fn refusals_in_order() {
    for gate in GATES {
        let mut seen = BTreeSet::new();
        for (n, numbers) in [0, 1, 3, 25, u32::MAX].into_iter().flat_map(|n| numbers(gate).into_iter().map(move |v| (n, v))) {
            for ((target, second), lengths) in places(gate, n).into_iter().flat_map(|p| lengths(n).into_iter().map(move |l| (p, l))) {
                let call = Call { gate, n, target, second, numbers };
                let state: Parts = [vec![0.6; lengths[0]], vec![-0.0; lengths[1]]];
                let (before, mut out) = (bits(&state), marked(lengths[2], lengths[3]));
                let (answer, wanted) = (call.by_slow(&state, &mut out), call.refusal(lengths));
                assert_eq!(answer, wanted.map_or(call.taken(), Answer::Refused), "{call:?} {lengths:?}");
                assert!(bits(&state) == before, "{call:?} changed its inputs");
                let kept = out.concat().iter().filter(|x| **x == MARK).count();
                assert_eq!(kept, if wanted.is_some() { lengths[2] + lengths[3] } else { 0 }, "{call:?} {lengths:?}");
                if lengths[2..] == lengths[..2] {
                    assert_eq!(call.by_kernel(&mut state.clone()), answer, "{call:?}");
                }
                seen.insert(wanted.map_or(0, Refusal::number));
            }
        }
        let mut all = BTreeSet::from([0, 1, 2, 3, 4, 5, 6]);
        if gate.controls() == 24 {
            all.remove(&5);
        }
        if gate.fed() == 0 {
            all.remove(&6);
        }
        if gate == Swap || gate == BitFlip {
            all.retain(|number| ![4, 5].contains(number));
        }
        assert_eq!(seen, all, "{gate:?}: not every refusal was tried");
    }
}

/// Request 05: an output of another length is refused with 2, tested with the inputs, so before a target that is n.
#[test]
fn outputs_of_another_length() {
    for (gate, target) in GATES.into_iter().flat_map(|gate| [0, 3].map(|target| (gate, target))) {
        for (reals, imags) in [(7, 8), (9, 8), (8, 7), (8, 9), (0, 8), (8, 0), (16, 16), (4, 4)] {
            let call = Call { gate, n: 3, target, second: 0, numbers: FED[0] };
            let state = state(Kind::Of(PLACES.len()), 3, &mut Random(3));
            let (before, mut out) = (bits(&state), marked(reals, imags));
            assert_eq!(call.by_slow(&state, &mut out), Answer::Refused(Refusal::Length), "{call:?}");
            assert_eq!((bits(&state), bits(&out)), (before, bits(&marked(reals, imags))), "{call:?}");
        }
    }
}

#[test]
fn a_flip_that_does_not_run_copies() {
    let state = state(Kind::Of(PLACES.len()), 4, &mut Random(4));
    for (target, (prob, draw)) in (0..4).flat_map(|target| [(0.5, 0.75), (-1.0, 0.0), (0.0, 5e-324)].map(|v| (target, v))) {
        let call = Call { gate: BitFlip, n: 4, target, second: 0, numbers: [prob, draw, 0.0, 0.0, 0.0, 0.0, 0.0, 0.0] };
        let mut out = marked(16, 16);
        assert_eq!((call.by_slow(&state, &mut out), left(&out)), (Answer::Value(0), left(&state)), "{call:?}");
    }
}
