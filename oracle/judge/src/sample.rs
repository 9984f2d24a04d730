//! A sample of the Rust's answers as a file, which the program `oracle_replay` of the gate reads with no Rust at hand.
//! docs/VECTORS-ORACLE.md has the format.
use crate::calls::Call;
use crate::cases;
use crate::compare::{both_ways, expected, forced, impossible};
use crate::matrices::{self, Parts};
use crate::random::Random;
use crate::states::{has_nan, state, Kind, KINDS, MEASURED};
use crate::{ours, rust};
use gate_bench::Answer;
use spinoza::core::State;

/// The kinds of case, as the file numbers them.
const RECORD: u8 = 1;
const GATE_MATRIX: u8 = 2;
const TRANSPOSE: u8 = 3;
const PRODUCT: u8 = 4;
const STATE_PRODUCT: u8 = 5;

/// An answer as the file has it, in one byte: 0 taken, 32 + v a value.
fn said(answer: Answer) -> u8 {
    match answer {
        Answer::Taken => 0,
        Answer::Value(v) => 32 + v,
        Answer::Refused(refusal) => refusal.number(),
    }
}

struct Sample {
    bytes: Vec<u8>,
    cases: u32,
    ones: u32,
    other_way: u32,
}

impl Sample {
    fn floats(&mut self, values: &[f64]) {
        for value in values {
            self.bytes.extend(value.to_bits().to_be_bytes());
        }
    }

    fn parts(&mut self, parts: &Parts) {
        self.floats(&parts.0);
        self.floats(&parts.1);
    }

    /// The first operand, the second, which holds what the call's buffers hold before, and what is wanted.
    fn case(&mut self, head: [u8; 4], first: &Parts, second: &Parts, wanted: &Parts) {
        self.cases += 1;
        self.bytes.extend(head);
        self.parts(first);
        self.parts(second);
        self.parts(wanted);
    }

    /// Nothing is written where a NaN comes out, the outcome is impossible, or the Rust's probability of 1 is not the sum's.
    fn record(&mut self, call: &Call, random: &mut Random, kind: Kind) {
        let before = state(kind, random, 1 << call.n);
        if !both_ways(call, &before.0, &before.1) {
            self.other_way += 1;
            return;
        }
        let mut after = State { reals: before.0.clone(), imags: before.1.clone(), n: call.n as u8 };
        rust::run(call, &mut after);
        if has_nan(&after.reals) || has_nan(&after.imags) || impossible(call, &before.0, &before.1) {
            return;
        }
        self.ones += u32::from(forced(call) == Some(1));
        let mut bytes = ours::record(call);
        let head = [RECORD, call.n as u8, said(expected(call)), bytes.len() as u8];
        self.case(head, &none(), &before, &(after.reals, after.imags));
        bytes.resize(gate_bench::RECORD_MOST, 0);
        self.bytes.extend(bytes);
    }

    fn matrix(&mut self, kind: u8, n: u32, first: &Parts, second: &Parts, wanted: &Parts) {
        if !has_nan(&wanted.0) && !has_nan(&wanted.1) {
            self.case([kind, n as u8, 0, 0], first, second, wanted);
        }
    }

    fn gate_matrices(&mut self, n: u32, target: u32, random: &mut Random) {
        for gate in cases::pair_gates(random) {
            let e = matrices::entries(gate);
            let entries = ((0..4).map(|i| e[2 * i]).collect(), (0..4).map(|i| e[2 * i + 1]).collect());
            let before = state(Kind::Unit, random, 1 << (2 * n));
            let wanted = matrices::rust_gate_matrix(gate, n, target);
            self.case([GATE_MATRIX, n as u8, target as u8, 0], &entries, &before, &wanted);
        }
    }
}

fn none() -> Parts {
    (vec![], vec![])
}

/// Every gate at every target and control for n up to 3.
fn small(sample: &mut Sample, random: &mut Random) {
    for n in 1..=3 {
        for kind in KINDS {
            let mut calls = cases::all_pair_calls(n, random);
            calls.extend(cases::all_swaps(n));
            for call in calls {
                sample.record(&call, random, kind);
            }
        }
        for call in cases::all_flips(n, random) {
            sample.record(&call, random, Kind::Edges);
        }
        for kind in MEASURED.repeat(3) {
            for call in cases::all_measurements(n) {
                sample.record(&call, random, kind);
            }
        }
    }
}

fn larger(sample: &mut Sample, random: &mut Random) {
    for n in 4..=6 {
        for kind in KINDS {
            for _ in 0..4 {
                let call = cases::some_pair_call(n, random);
                sample.record(&call, random, kind);
            }
        }
        let measurements = cases::all_measurements(n);
        for kind in MEASURED.repeat(4) {
            let call = &measurements[random.below(measurements.len() as u64) as usize];
            sample.record(call, random, kind);
        }
    }
}

fn all_matrices(sample: &mut Sample, random: &mut Random) {
    for n in 1..=3 {
        for target in 0..n {
            sample.gate_matrices(n, target, random);
        }
        for kind in [Kind::Ramp, Kind::Unit, Kind::Cancelling, Kind::Subnormal] {
            let (a, b) = (state(kind, random, 1 << (2 * n)), state(kind, random, 1 << (2 * n)));
            let s = state(kind, random, 1 << n);
            sample.matrix(TRANSPOSE, n, &none(), &a, &matrices::rust_transpose(&a, n));
            sample.matrix(PRODUCT, n, &a, &b, &matrices::rust_product(&a, &b, n));
            sample.matrix(STATE_PRODUCT, n, &a, &s, &matrices::rust_state_product(&a, &s, n));
        }
    }
}

pub fn run(seed: u64, file: &str) {
    let mut random = Random(seed);
    let mut sample = Sample { bytes: vec![], cases: 0, ones: 0, other_way: 0 };
    small(&mut sample, &mut random);
    larger(&mut sample, &mut random);
    all_matrices(&mut sample, &mut random);
    std::fs::write(file, &sample.bytes).expect("the file can be written");
    println!("{file}: {} cases, {} bytes", sample.cases, sample.bytes.len());
    println!("outcome 1: {} kept, where 1-p0 and the sum have equal bits; {} left out, where they have not", sample.ones, sample.other_way);
}
