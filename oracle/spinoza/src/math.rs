//! Glue: the numbers.
pub type Float = f64;

/// Bits 3FE6A09E667F3BCD.
pub const SQRT_ONE_HALF: Float = std::f64::consts::FRAC_1_SQRT_2;

#[derive(Clone, Copy)]
pub struct Amplitude {
    pub re: Float,
    pub im: Float,
}
