//! Matrices of side 2^n, n from 1 to 6, as two buffers of 4^n numbers, row by row.
use crate::answers::Answer;
use crate::ffi;

/// A pair of numbers, real and imaginary.
#[derive(Clone, Copy, Debug, PartialEq)]
pub struct Amplitude {
    pub re: f64,
    pub im: f64,
}

/// The matrix of a gate on the target, from the gate's own four entries, row by row.
pub fn from_single_qubit_gate(reals: &mut [f64], imags: &mut [f64], n: u32, target: u32, entries: [Amplitude; 4]) -> Answer {
    let [a, b, c, d] = entries;
    Answer::of(ffi::from_single_qubit_gate(reals, imags, n, target, a.re, a.im, b.re, b.im, c.re, c.im, d.re, d.im))
}

/// The conjugate transpose, in place.
pub fn conj_t(reals: &mut [f64], imags: &mut [f64], n: u32) -> Answer {
    Answer::of(ffi::conj_t(reals, imags, n))
}

/// A times B, into buffers of their own.
pub fn multiply(ar: &[f64], ai: &[f64], br: &[f64], bi: &[f64], reals: &mut [f64], imags: &mut [f64], n: u32) -> Answer {
    Answer::of(ffi::multiply(ar, ai, br, bi, reals, imags, n))
}

/// A times the state S, into buffers of their own.
pub fn apply_unitary(ar: &[f64], ai: &[f64], sr: &[f64], si: &[f64], reals: &mut [f64], imags: &mut [f64], n: u32) -> Answer {
    Answer::of(ffi::apply_unitary(ar, ai, sr, si, reals, imags, n))
}
