//! The gate bench for Rust: safe calls of the proved archive `libc_api.a`.
//!
//! Every call takes any numbers and any bytes, and ends. A refusal changes nothing. What each call answers and leaves is proved
//! in the repository's crates; this crate only passes slices on and names the answers.
//!
//! A modem that got no answer sends a record again. It is run once, and a measurement's outcome is told again:
//!
//! ```
//! use gate_bench::{environment_is_default, write_record, Forced, Gate, Record, Refusal, Reply, Session, RECORD_MOST};
//!
//! fn main() -> Result<(), Refusal> {
//!     assert!(environment_is_default());
//!     let mut session = Session::start(1, 7)?;
//!     let (mut reals, mut imags) = ([1.0, 0.0], [0.0, 0.0]);
//!
//!     let mut bytes = [0; RECORD_MOST];
//!     let size = write_record(&Record { session: 7, number: 0, gate: Gate::X(0, 0) }, &mut bytes)?;
//!     let x = &bytes[..size];
//!     assert_eq!(session.deliver(x, &mut reals, &mut imags), Reply::Taken);
//!     assert_eq!(session.deliver(x, &mut reals, &mut imags), Reply::Again(None));
//!     assert_eq!((session.count(), reals), (1, [0.0, 1.0]));
//!
//!     // A measurement's repeat tells its outcome again, until another record is taken.
//!     let gate = Gate::Measure(0, Forced { outcome: 1, reset: 0 });
//!     let size = write_record(&Record { session: 7, number: 1, gate }, &mut bytes)?;
//!     let measurement = &bytes[..size];
//!     assert_eq!(session.deliver(measurement, &mut reals, &mut imags), Reply::Value(1));
//!     assert_eq!(session.deliver(measurement, &mut reals, &mut imags), Reply::Again(Some(1)));
//!
//!     // Saved as eight words beside the buffers, and made of them again: the record is still known, and so is its outcome.
//!     let saved: [u32; 8] = session.words();
//!     let mut later = Session::from_words(saved)?;
//!     assert_eq!(later.deliver(measurement, &mut reals, &mut imags), Reply::Again(Some(1)));
//!
//!     // The mark runs over the bytes of what was taken: different marks show that two benches took different records, equal marks prove nothing.
//!     assert_eq!(format!("{:08x}", later.mark()), "58887c69");
//!
//!     let refused = Session::start(25, 7).unwrap_err();
//!     assert_eq!(refused.to_string(), "1 SIZE: n is out of range");
//!     Ok(())
//! }
//! ```
//!
//! [`slow`] has the gates once more, from input buffers into output buffers, for acceptance days: the same answers and bits.
//!
//! What this crate cannot see to: the thread that calls has the processor's floating-point settings as a program starts with
//! them, rounding to nearest and with subnormals. A C part that was linked with `-ffast-math`, or that changed the rounding
//! direction, may have changed them, and then results differ: [`environment_is_default`] tells.
#![deny(unsafe_code)]
#![deny(unsafe_op_in_unsafe_fn)]

mod answers;
mod environment;
#[allow(unsafe_code)]
#[rustfmt::skip]
mod ffi;
mod gates;
mod matrices;
mod records;
mod sessions;
pub mod slow;
mod streams;

pub use answers::{Answer, Refusal, Reply};
pub use environment::environment_is_default;
pub use gates::{
    bit_flip_noise_apply, h_apply, measure_qubit, p_apply, rx_apply, ry_apply, rz_apply, swap_apply, u_apply, x_apply, y_apply, z_apply, Angle, Angles, Forced,
    Noise,
};
pub use matrices::{apply_unitary, conj_t, from_single_qubit_gate, multiply, Amplitude};
pub use records::{read_record, write_record, Gate, Record, RECORD_MOST};
pub use sessions::Session;
pub use streams::Stream;

/// F: x·y + z, rounded once. Where it is a NaN, its bits are 7FF8000000000000; so are the root's.
pub fn fused(x: f64, y: f64, z: f64) -> f64 {
    ffi::fused(x, y, z)
}

/// The square root, rounded once.
pub fn root(x: f64) -> f64 {
    ffi::root(x)
}
