//! The given gates.rs, measurement.rs and unitaries.rs, unchanged (oracle/build puts them into target/oracle/given),
//! and a glue for the modules that are not given: config, consts, core and math.
#![allow(dead_code)]

pub mod config;
pub mod consts;
pub mod core;
pub mod math;

#[rustfmt::skip]
#[path = "../../../target/oracle/given/gates.rs"]
pub mod gates;
#[rustfmt::skip]
#[path = "../../../target/oracle/given/measurement.rs"]
pub mod measurement;
#[rustfmt::skip]
#[path = "../../../target/oracle/given/unitaries.rs"]
pub mod unitaries;

/// The fields of a matrix are the crate's own, so the judge makes and reads one here.
pub fn unitary(reals: Vec<f64>, imags: Vec<f64>, side: usize) -> unitaries::Unitary {
    unitaries::Unitary { reals, imags, height: side, width: side }
}

pub fn parts(unitary: &unitaries::Unitary) -> (&[f64], &[f64]) {
    (&unitary.reals, &unitary.imags)
}

pub use rand::set_draw;
