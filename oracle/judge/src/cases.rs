//! Which calls are compared: the differential domain of document 01.
use crate::calls::{Call, Gate};
use crate::random::Random;

const ANGLES: [f64; 9] = [0.0, -0.0, 1e-300, 0.5, 1.5707963267948966, 3.141592653589793, -3.141592653589793, 6.283185307179586, 1e10];

fn angle(random: &mut Random) -> f64 {
    match random.below(3) {
        0 => ANGLES[random.below(ANGLES.len() as u64) as usize],
        _ => random.unit() * 10.0,
    }
}

/// The gates that take up to one control here, with fresh numbers. Z takes none.
pub fn pair_gates(random: &mut Random) -> Vec<Gate> {
    vec![
        Gate::H,
        Gate::X,
        Gate::Y,
        Gate::Z,
        Gate::P(angle(random)),
        Gate::Rx(angle(random)),
        Gate::Ry(angle(random)),
        Gate::Rz(angle(random)),
        Gate::U(angle(random), angle(random), angle(random)),
    ]
}

/// No control, then each one.
fn controls(gate: Gate, n: u32, target: u32) -> Vec<Vec<u32>> {
    let mut all = vec![vec![]];
    if !matches!(gate, Gate::Z) {
        all.extend((0..n).filter(|&c| c != target).map(|c| vec![c]));
    }
    all
}

/// Every pair gate at every target with no control and each one.
pub fn all_pair_calls(n: u32, random: &mut Random) -> Vec<Call> {
    let mut calls = vec![];
    for target in 0..n {
        for gate in pair_gates(random) {
            for controls in controls(gate, n, target) {
                calls.push(Call { gate, n, target, controls });
            }
        }
    }
    calls
}

pub fn all_swaps(n: u32) -> Vec<Call> {
    let place = |t| (0..n).map(move |second| Call { gate: Gate::Swap(second), n, target: t, controls: vec![] });
    (0..n).flat_map(place).collect()
}

/// A draw below, at and above the probability, and probabilities at the ends.
pub fn all_flips(n: u32, random: &mut Random) -> Vec<Call> {
    let mut calls = vec![];
    for target in 0..n {
        let k = random.next() >> 11;
        let draw = k as f64 / 2f64.powi(53);
        for (prob, k) in [(draw, k), (draw / 2.0, k), (draw + (1.0 - draw) / 2.0, k), (0.0, 0), (1.0, (1 << 53) - 1), (-1.0, 0)] {
            calls.push(Call { gate: Gate::BitFlip(prob, k), n, target, controls: vec![] });
        }
    }
    calls
}

pub fn all_measurements(n: u32) -> Vec<Call> {
    let mut calls = vec![];
    for target in 0..n {
        for (outcome, reset) in [(0, 0), (0, 1), (1, 0), (1, 1)] {
            calls.push(Call { gate: Gate::Measure(outcome, reset), n, target, controls: vec![] });
        }
    }
    calls
}

/// A pair gate at a random target, half the time with a control.
pub fn some_pair_call(n: u32, random: &mut Random) -> Call {
    let gates = pair_gates(random);
    let gate = gates[random.below(gates.len() as u64) as usize];
    let target = random.below(u64::from(n)) as u32;
    let choices = controls(gate, n, target);
    let at = if random.below(2) == 0 { 0 } else { random.below(choices.len() as u64) as usize };
    Call { gate, n, target, controls: choices[at].clone() }
}
