//! The slow engine: a gate from input buffers (`sr`, `si`) into output buffers (`reals`, `imags`), each place worked out by
//! itself in the rule book's words, with no pairs and no blocks. It is for acceptance days, as text that can be held beside the
//! book, and slower than the kernels.
//!
//! A call answers what the kernel of its name answers, and leaves in the outputs what that one leaves in its buffers: bit for bit,
//! one NaN taken for another, whatever the inputs hold. The outputs must have 2^n places too, which is tested with the inputs:
//! [`Refusal::Length`](crate::Refusal::Length) comes before [`Refusal::Qubit`](crate::Refusal::Qubit). A refusal leaves the outputs
//! as they were. Measuring has no call here: its one kernel serves.
//!
//! ```
//! use gate_bench::{slow, x_apply, Answer};
//!
//! let (mut reals, mut imags) = ([1.0, 2.0, 3.0, 4.0], [0.0; 4]);
//! let (mut out_reals, mut out_imags) = ([9.0; 4], [9.0; 4]);
//! assert_eq!(slow::x_apply(&reals, &imags, &mut out_reals, &mut out_imags, 2, 0, 2), Answer::Taken);
//! assert_eq!(x_apply(&mut reals, &mut imags, 2, 0, 2), Answer::Taken);
//! assert_eq!((out_reals, out_imags), (reals, imags));
//! ```
#![allow(clippy::too_many_arguments)]

use crate::answers::Answer;
use crate::ffi;
use crate::gates::{Angle, Angles, Noise};

/// s0 and s1 exchanged; any number of controls.
pub fn x_apply(sr: &[f64], si: &[f64], reals: &mut [f64], imags: &mut [f64], n: u32, target: u32, ones: u32) -> Answer {
    Answer::of(ffi::slow_x_apply(sr, si, reals, imags, n, target, ones))
}

/// Up to one control.
pub fn y_apply(sr: &[f64], si: &[f64], reals: &mut [f64], imags: &mut [f64], n: u32, target: u32, ones: u32) -> Answer {
    Answer::of(ffi::slow_y_apply(sr, si, reals, imags, n, target, ones))
}

/// No controls.
pub fn z_apply(sr: &[f64], si: &[f64], reals: &mut [f64], imags: &mut [f64], n: u32, target: u32, ones: u32) -> Answer {
    Answer::of(ffi::slow_z_apply(sr, si, reals, imags, n, target, ones))
}

/// Up to one control.
pub fn h_apply(sr: &[f64], si: &[f64], reals: &mut [f64], imags: &mut [f64], n: u32, target: u32, ones: u32) -> Answer {
    Answer::of(ffi::slow_h_apply(sr, si, reals, imags, n, target, ones))
}

/// Any number of controls.
pub fn p_apply(sr: &[f64], si: &[f64], reals: &mut [f64], imags: &mut [f64], n: u32, target: u32, ones: u32, angle: Angle) -> Answer {
    Answer::of(ffi::slow_p_apply(sr, si, reals, imags, n, target, ones, angle.cosine, angle.sine))
}

/// Any number of controls.
pub fn rx_apply(sr: &[f64], si: &[f64], reals: &mut [f64], imags: &mut [f64], n: u32, target: u32, ones: u32, angle: Angle) -> Answer {
    Answer::of(ffi::slow_rx_apply(sr, si, reals, imags, n, target, ones, angle.cosine, angle.sine))
}

/// Any number of controls.
pub fn ry_apply(sr: &[f64], si: &[f64], reals: &mut [f64], imags: &mut [f64], n: u32, target: u32, ones: u32, angle: Angle) -> Answer {
    Answer::of(ffi::slow_ry_apply(sr, si, reals, imags, n, target, ones, angle.cosine, angle.sine))
}

/// Up to one control.
pub fn rz_apply(sr: &[f64], si: &[f64], reals: &mut [f64], imags: &mut [f64], n: u32, target: u32, ones: u32, angle: Angle) -> Answer {
    Answer::of(ffi::slow_rz_apply(sr, si, reals, imags, n, target, ones, angle.cosine, angle.sine))
}

/// Up to one control.
pub fn u_apply(sr: &[f64], si: &[f64], reals: &mut [f64], imags: &mut [f64], n: u32, target: u32, ones: u32, g: Angles) -> Answer {
    Answer::of(ffi::slow_u_apply(sr, si, reals, imags, n, target, ones, g.ct, g.st, g.cl, g.sl, g.cpl, g.spl, g.cp, g.sp))
}

/// The qubits t0 and t1 exchanged.
pub fn swap_apply(sr: &[f64], si: &[f64], reals: &mut [f64], imags: &mut [f64], n: u32, t0: u32, t1: u32) -> Answer {
    Answer::of(ffi::slow_swap_apply(sr, si, reals, imags, n, t0, t1))
}

/// X if draw <= prob, else a copy; the value is 1 if X ran.
pub fn bit_flip_noise_apply(sr: &[f64], si: &[f64], reals: &mut [f64], imags: &mut [f64], n: u32, target: u32, noise: Noise) -> Answer {
    Answer::of(ffi::slow_bit_flip_noise_apply(sr, si, reals, imags, n, target, noise.prob, noise.draw))
}
