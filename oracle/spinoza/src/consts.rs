//! Glue: the matrices of the gates without an angle.
use crate::math::{Amplitude, SQRT_ONE_HALF};

const fn at(re: f64, im: f64) -> Amplitude {
    Amplitude { re, im }
}

pub const H: [Amplitude; 4] = [at(SQRT_ONE_HALF, 0.0), at(SQRT_ONE_HALF, 0.0), at(SQRT_ONE_HALF, 0.0), at(-SQRT_ONE_HALF, 0.0)];
pub const X: [Amplitude; 4] = [at(0.0, 0.0), at(1.0, 0.0), at(1.0, 0.0), at(0.0, 0.0)];
pub const Y: [Amplitude; 4] = [at(0.0, 0.0), at(0.0, -1.0), at(0.0, 1.0), at(0.0, 0.0)];
pub const Z: [Amplitude; 4] = [at(1.0, 0.0), at(0.0, 0.0), at(0.0, 0.0), at(-1.0, 0.0)];
