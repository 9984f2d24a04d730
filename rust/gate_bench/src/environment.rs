//! What the processor is set to, for the thread that calls.
use std::hint::black_box;

/// Whether sums are rounded to nearest and subnormals are kept, as operands and as results: what every promise here rests on.
/// The operands are hidden from the compiler, so that it is the processor that answers.
pub fn environment_is_default() -> bool {
    let sum = |x: f64, y: f64| black_box(black_box(x) + black_box(y)).to_bits();
    let product = |x: f64, y: f64| black_box(black_box(x) * black_box(y)).to_bits();
    let quarter = f64::EPSILON / 4.0;
    let least = f64::from_bits(1);
    let greatest_power = f64::from_bits(0x7FE0000000000000);
    sum(1.0, quarter) == 0x3FF0000000000000
        && sum(1.0, 3.0 * quarter) == 0x3FF0000000000001
        && product(f64::MIN_POSITIVE, 0.5) == 0x0008000000000000
        && product(least, greatest_power) == 0x3CC0000000000000
}
