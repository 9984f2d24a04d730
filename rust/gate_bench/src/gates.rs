//! The kernels over two buffers of 2^n numbers, real and imaginary parts. `ones` has a bit set for each control.
use crate::answers::Answer;
use crate::ffi;

/// Cosine and sine of an angle, or of the half angle for RX, RY and RZ.
#[derive(Clone, Copy, Debug, PartialEq)]
pub struct Angle {
    pub cosine: f64,
    pub sine: f64,
}

/// The eight numbers of U: cosine and sine of theta/2, lambda, phi + lambda and phi.
#[derive(Clone, Copy, Debug, PartialEq)]
pub struct Angles {
    pub ct: f64,
    pub st: f64,
    pub cl: f64,
    pub sl: f64,
    pub cpl: f64,
    pub spl: f64,
    pub cp: f64,
    pub sp: f64,
}

/// A measurement's forced outcome, and whether the qubit is set back to 0 after it.
#[derive(Clone, Copy, Debug, PartialEq, Eq)]
pub struct Forced {
    pub outcome: u8,
    pub reset: u8,
}

/// A bit flip's probability, and the draw supplied for it.
#[derive(Clone, Copy, Debug, PartialEq)]
pub struct Noise {
    pub prob: f64,
    pub draw: f64,
}

/// s0 and s1 exchanged; any number of controls.
pub fn x_apply(reals: &mut [f64], imags: &mut [f64], n: u32, target: u32, ones: u32) -> Answer {
    Answer::of(ffi::x_apply(reals, imags, n, target, ones))
}

/// Up to one control.
pub fn y_apply(reals: &mut [f64], imags: &mut [f64], n: u32, target: u32, ones: u32) -> Answer {
    Answer::of(ffi::y_apply(reals, imags, n, target, ones))
}

/// No controls.
pub fn z_apply(reals: &mut [f64], imags: &mut [f64], n: u32, target: u32, ones: u32) -> Answer {
    Answer::of(ffi::z_apply(reals, imags, n, target, ones))
}

/// Up to one control.
pub fn h_apply(reals: &mut [f64], imags: &mut [f64], n: u32, target: u32, ones: u32) -> Answer {
    Answer::of(ffi::h_apply(reals, imags, n, target, ones))
}

/// Any number of controls.
pub fn p_apply(reals: &mut [f64], imags: &mut [f64], n: u32, target: u32, ones: u32, angle: Angle) -> Answer {
    Answer::of(ffi::p_apply(reals, imags, n, target, ones, angle.cosine, angle.sine))
}

/// Any number of controls.
pub fn rx_apply(reals: &mut [f64], imags: &mut [f64], n: u32, target: u32, ones: u32, angle: Angle) -> Answer {
    Answer::of(ffi::rx_apply(reals, imags, n, target, ones, angle.cosine, angle.sine))
}

/// Any number of controls.
pub fn ry_apply(reals: &mut [f64], imags: &mut [f64], n: u32, target: u32, ones: u32, angle: Angle) -> Answer {
    Answer::of(ffi::ry_apply(reals, imags, n, target, ones, angle.cosine, angle.sine))
}

/// Up to one control.
pub fn rz_apply(reals: &mut [f64], imags: &mut [f64], n: u32, target: u32, ones: u32, angle: Angle) -> Answer {
    Answer::of(ffi::rz_apply(reals, imags, n, target, ones, angle.cosine, angle.sine))
}

/// Up to one control.
pub fn u_apply(reals: &mut [f64], imags: &mut [f64], n: u32, target: u32, ones: u32, g: Angles) -> Answer {
    Answer::of(ffi::u_apply(reals, imags, n, target, ones, g.ct, g.st, g.cl, g.sl, g.cpl, g.spl, g.cp, g.sp))
}

/// The qubits t0 and t1 exchanged.
pub fn swap_apply(reals: &mut [f64], imags: &mut [f64], n: u32, t0: u32, t1: u32) -> Answer {
    Answer::of(ffi::swap_apply(reals, imags, n, t0, t1))
}

/// X if draw <= prob, else nothing; the value is 1 if X ran.
pub fn bit_flip_noise_apply(reals: &mut [f64], imags: &mut [f64], n: u32, target: u32, noise: Noise) -> Answer {
    Answer::of(ffi::bit_flip_noise_apply(reals, imags, n, target, noise.prob, noise.draw))
}

/// A forced measurement; the value is the outcome. Its probability is the sum of the squares over its own half of the places.
pub fn measure_qubit(reals: &mut [f64], imags: &mut [f64], n: u32, target: u32, forced: Forced) -> Answer {
    Answer::of(ffi::measure_qubit(reals, imags, n, target, forced.outcome, forced.reset))
}
