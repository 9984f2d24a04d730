//! Gate records, and their bytes. The archive takes a record as six whole numbers and eight floats (include/gate_bench.h).
use crate::answers::{refusal, Refusal};
use crate::ffi;
use crate::gates::{Angle, Angles, Forced, Noise};

/// One gate with its own numbers: the target first, then its controls or second qubit, then what it is fed.
#[derive(Clone, Copy, Debug, PartialEq)]
pub enum Gate {
    H(u8, u32),
    X(u8, u32),
    Y(u8, u32),
    Z(u8, u32),
    P(u8, u32, Angle),
    Rx(u8, u32, Angle),
    Ry(u8, u32, Angle),
    Rz(u8, u32, Angle),
    U(u8, u32, Angles),
    Swap(u8, u8),
    Measure(u8, Forced),
    BitFlip(u8, Noise),
}

#[derive(Clone, Copy, Debug, PartialEq)]
pub struct Record {
    pub session: u32,
    pub number: u16,
    pub gate: Gate,
}

/// Bytes of the longest record, U's.
pub const RECORD_MOST: usize = 94;

/// Bytes of the shortest record, SWAP's. On writing a lower answer is a refusal, any other a size.
const RECORD_LEAST: u32 = 24;

const FIELDS: usize = 6;
const NUMBERS: usize = 8;

/// Code, target, second, reset, and the floats.
type Flat = (u32, u8, u32, u8, [f64; NUMBERS]);

fn two(x: f64, y: f64) -> [f64; NUMBERS] {
    [x, y, 0.0, 0.0, 0.0, 0.0, 0.0, 0.0]
}

fn flat(gate: Gate) -> Flat {
    let none = two(0.0, 0.0);
    let angle = |a: Angle| two(a.cosine, a.sine);
    match gate {
        Gate::H(t, ones) => (1, t, ones, 0, none),
        Gate::X(t, ones) => (2, t, ones, 0, none),
        Gate::Y(t, ones) => (3, t, ones, 0, none),
        Gate::Z(t, ones) => (4, t, ones, 0, none),
        Gate::P(t, ones, a) => (5, t, ones, 0, angle(a)),
        Gate::Rx(t, ones, a) => (6, t, ones, 0, angle(a)),
        Gate::Ry(t, ones, a) => (7, t, ones, 0, angle(a)),
        Gate::Rz(t, ones, a) => (8, t, ones, 0, angle(a)),
        Gate::U(t, ones, g) => (9, t, ones, 0, [g.ct, g.st, g.cl, g.sl, g.cpl, g.spl, g.cp, g.sp]),
        Gate::Swap(t, u) => (10, t, u32::from(u), 0, none),
        Gate::Measure(t, f) => (11, t, u32::from(f.outcome), f.reset, none),
        Gate::BitFlip(t, n) => (12, t, 0, 0, two(n.prob, n.draw)),
    }
}

/// The archive's numbers are a record's, so each fits its type, and the code is 1 to 12.
fn gate([code, target, second, reset]: [u32; 4], x: [f64; NUMBERS]) -> Gate {
    let t = target as u8;
    let angle = Angle { cosine: x[0], sine: x[1] };
    match code {
        1 => Gate::H(t, second),
        2 => Gate::X(t, second),
        3 => Gate::Y(t, second),
        4 => Gate::Z(t, second),
        5 => Gate::P(t, second, angle),
        6 => Gate::Rx(t, second, angle),
        7 => Gate::Ry(t, second, angle),
        8 => Gate::Rz(t, second, angle),
        9 => {
            let [ct, st, cl, sl, cpl, spl, cp, sp] = x;
            Gate::U(t, second, Angles { ct, st, cl, sl, cpl, spl, cp, sp })
        }
        10 => Gate::Swap(t, second as u8),
        11 => Gate::Measure(t, Forced { outcome: second as u8, reset: reset as u8 }),
        _ => Gate::BitFlip(t, Noise { prob: x[0], draw: x[1] }),
    }
}

/// The bytes as a record.
pub fn read_record(bytes: &[u8]) -> Result<Record, Refusal> {
    let mut fields = [0; FIELDS];
    let mut numbers = [0.0; NUMBERS];
    if let Some(refused) = refusal(ffi::read_record(bytes, &mut fields, &mut numbers)) {
        return Err(refused);
    }
    let [session, number, code, target, second, reset] = fields;
    Ok(Record { session, number: number as u16, gate: gate([code, target, second, reset], numbers) })
}

/// The record's bytes, into the first places of out: how many, 24 to 94.
pub fn write_record(record: &Record, out: &mut [u8]) -> Result<usize, Refusal> {
    let (code, target, second, reset, numbers) = flat(record.gate);
    let fields = [record.session, u32::from(record.number), code, u32::from(target), second, u32::from(reset)];
    let answer = ffi::write_record(&fields, &numbers, out);
    match refusal(answer) {
        Some(refused) if answer < RECORD_LEAST => Err(refused),
        _ => Ok(answer as usize),
    }
}
