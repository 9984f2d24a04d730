//! The matrix calls, on both sides.
use crate::calls::Gate;
use crate::rust::gate_of;
use crate::states::same;
use gate_bench as bench;
use gate_bench::Amplitude;
use spinoza::core::State;
use spinoza::unitaries::{apply_unitary, Unitary};
use spinoza::{parts, unitary};

/// Reals and imags.
pub type Parts = (Vec<f64>, Vec<f64>);

pub fn agree(a: &Parts, b: &Parts) -> bool {
    same(&a.0, &b.0) && same(&a.1, &b.1)
}

fn taken_of(unitary: &Unitary) -> Parts {
    let (reals, imags) = parts(unitary);
    (reals.to_vec(), imags.to_vec())
}

/// What buffers hold before they are filled.
pub fn blank(size: usize) -> Parts {
    (vec![0.5; size], vec![0.5; size])
}

/// The four entries that the Rust makes of a gate, real and imaginary in turn.
pub fn entries(gate: Gate) -> [f64; 8] {
    let m = gate_of(gate, 0).to_matrix();
    [m[0].re, m[0].im, m[1].re, m[1].im, m[2].re, m[2].im, m[3].re, m[3].im]
}

pub fn rust_gate_matrix(gate: Gate, n: u32, target: u32) -> Parts {
    let size = 1 << n;
    let state = State { reals: vec![0.0; size], imags: vec![0.0; size], n: n as u8 };
    taken_of(&Unitary::from_single_qubit_gate(&state, gate_of(gate, 0), target as usize))
}

pub fn our_gate_matrix(e: [f64; 8], n: u32, target: u32) -> Parts {
    let mut out = blank(1 << (2 * n));
    let at = |i: usize| Amplitude { re: e[2 * i], im: e[2 * i + 1] };
    bench::from_single_qubit_gate(&mut out.0, &mut out.1, n, target, [at(0), at(1), at(2), at(3)]);
    out
}

pub fn rust_transpose(a: &Parts, n: u32) -> Parts {
    let mut matrix = unitary(a.0.clone(), a.1.clone(), 1 << n);
    matrix.conj_t();
    taken_of(&matrix)
}

pub fn our_transpose(a: &Parts, n: u32) -> Parts {
    let mut out = a.clone();
    bench::conj_t(&mut out.0, &mut out.1, n);
    out
}

pub fn rust_product(a: &Parts, b: &Parts, n: u32) -> Parts {
    let side = 1 << n;
    taken_of(&unitary(a.0.clone(), a.1.clone(), side).multiply(&unitary(b.0.clone(), b.1.clone(), side)))
}

pub fn our_product(a: &Parts, b: &Parts, n: u32) -> Parts {
    let mut out = blank(1 << (2 * n));
    bench::multiply(&a.0, &a.1, &b.0, &b.1, &mut out.0, &mut out.1, n);
    out
}

pub fn rust_state_product(a: &Parts, s: &Parts, n: u32) -> Parts {
    let state = State { reals: s.0.clone(), imags: s.1.clone(), n: n as u8 };
    let out = apply_unitary(&state, &unitary(a.0.clone(), a.1.clone(), 1 << n));
    (out.reals, out.imags)
}

pub fn our_state_product(a: &Parts, s: &Parts, n: u32) -> Parts {
    let mut out = blank(1 << n);
    bench::apply_unitary(&a.0, &a.1, &s.0, &s.1, &mut out.0, &mut out.1, n);
    out
}
