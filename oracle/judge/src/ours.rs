//! A call run by the archive, through the Rust crate over it.
use crate::calls::{Call, Gate};
use crate::matrices::{blank, Parts};
use gate_bench as bench;
use gate_bench::{slow, Angle, Angles, Answer, Forced, Noise, Record, Reply, Session};

/// The session that a call is delivered to.
pub const NUMBER: u32 = 7;

fn angle(v: &[f64]) -> Angle {
    Angle { cosine: v[0], sine: v[1] }
}

fn angles(v: &[f64]) -> Angles {
    Angles { ct: v[0], st: v[1], cl: v[2], sl: v[3], cpl: v[4], spl: v[5], cp: v[6], sp: v[7] }
}

pub fn run(call: &Call, reals: &mut [f64], imags: &mut [f64]) -> Answer {
    run_with(call, &call.gate.numbers(), reals, imags)
}

/// With the gate's numbers worked out before.
pub fn run_with(call: &Call, v: &[f64], reals: &mut [f64], imags: &mut [f64]) -> Answer {
    let (n, target, ones) = (call.n, call.target, call.ones());
    match call.gate {
        Gate::X => bench::x_apply(reals, imags, n, target, ones),
        Gate::Y => bench::y_apply(reals, imags, n, target, ones),
        Gate::Z => bench::z_apply(reals, imags, n, target, ones),
        Gate::H => bench::h_apply(reals, imags, n, target, ones),
        Gate::P(_) => bench::p_apply(reals, imags, n, target, ones, angle(v)),
        Gate::Rx(_) => bench::rx_apply(reals, imags, n, target, ones, angle(v)),
        Gate::Ry(_) => bench::ry_apply(reals, imags, n, target, ones, angle(v)),
        Gate::Rz(_) => bench::rz_apply(reals, imags, n, target, ones, angle(v)),
        Gate::U(..) => bench::u_apply(reals, imags, n, target, ones, angles(v)),
        Gate::Swap(second) => bench::swap_apply(reals, imags, n, target, second),
        Gate::Measure(outcome, reset) => bench::measure_qubit(reals, imags, n, target, Forced { outcome, reset }),
        Gate::BitFlip(..) => bench::bit_flip_noise_apply(reals, imags, n, target, Noise { prob: v[0], draw: v[1] }),
    }
}

/// By the slow engine, from a state into buffers of its own. None for measuring, which it does not have.
pub fn run_slow_with(call: &Call, v: &[f64], reals: &[f64], imags: &[f64], out: &mut Parts) -> Option<Answer> {
    let (n, target, ones) = (call.n, call.target, call.ones());
    let (re, im) = (&mut out.0[..], &mut out.1[..]);
    Some(match call.gate {
        Gate::X => slow::x_apply(reals, imags, re, im, n, target, ones),
        Gate::Y => slow::y_apply(reals, imags, re, im, n, target, ones),
        Gate::Z => slow::z_apply(reals, imags, re, im, n, target, ones),
        Gate::H => slow::h_apply(reals, imags, re, im, n, target, ones),
        Gate::P(_) => slow::p_apply(reals, imags, re, im, n, target, ones, angle(v)),
        Gate::Rx(_) => slow::rx_apply(reals, imags, re, im, n, target, ones, angle(v)),
        Gate::Ry(_) => slow::ry_apply(reals, imags, re, im, n, target, ones, angle(v)),
        Gate::Rz(_) => slow::rz_apply(reals, imags, re, im, n, target, ones, angle(v)),
        Gate::U(..) => slow::u_apply(reals, imags, re, im, n, target, ones, angles(v)),
        Gate::Swap(second) => slow::swap_apply(reals, imags, re, im, n, target, second),
        Gate::BitFlip(..) => slow::bit_flip_noise_apply(reals, imags, re, im, n, target, Noise { prob: v[0], draw: v[1] }),
        Gate::Measure(..) => return None,
    })
}

/// What the slow engine answers and leaves; the buffers that it is lent hold something else before.
pub fn run_slow(call: &Call, reals: &[f64], imags: &[f64]) -> Option<(Answer, Parts)> {
    let mut out = blank(reals.len());
    let answer = run_slow_with(call, &call.gate.numbers(), reals, imags, &mut out)?;
    Some((answer, out))
}

fn gate_of(call: &Call) -> bench::Gate {
    let (t, ones) = (call.target as u8, call.ones());
    let v = call.gate.numbers();
    match call.gate {
        Gate::H => bench::Gate::H(t, ones),
        Gate::X => bench::Gate::X(t, ones),
        Gate::Y => bench::Gate::Y(t, ones),
        Gate::Z => bench::Gate::Z(t, ones),
        Gate::P(_) => bench::Gate::P(t, ones, angle(&v)),
        Gate::Rx(_) => bench::Gate::Rx(t, ones, angle(&v)),
        Gate::Ry(_) => bench::Gate::Ry(t, ones, angle(&v)),
        Gate::Rz(_) => bench::Gate::Rz(t, ones, angle(&v)),
        Gate::U(..) => bench::Gate::U(t, ones, angles(&v)),
        Gate::Swap(second) => bench::Gate::Swap(t, second as u8),
        Gate::Measure(outcome, reset) => bench::Gate::Measure(t, Forced { outcome, reset }),
        Gate::BitFlip(..) => bench::Gate::BitFlip(t, Noise { prob: v[0], draw: v[1] }),
    }
}

/// The call as a record's bytes: the first of its session.
pub fn record(call: &Call) -> Vec<u8> {
    let mut bytes = vec![0; bench::RECORD_MOST];
    let record = Record { session: NUMBER, number: 0, gate: gate_of(call) };
    let length = bench::write_record(&record, &mut bytes).expect("there is room for it");
    bytes.truncate(length);
    bytes
}

/// The call as the first delivery to a new session.
pub fn deliver(call: &Call, bytes: &[u8], reals: &mut [f64], imags: &mut [f64]) -> Reply {
    let mut session = Session::start(call.n, NUMBER).expect("n is 1 to 24");
    session.deliver(bytes, reals, imags)
}

/// The same to a session that has a mark already, and the session's words behind it.
pub fn deliver_marked(call: &Call, mark: u32, bytes: &[u8], reals: &mut [f64], imags: &mut [f64]) -> (Reply, [u32; 8]) {
    let mut session = Session::from_words([call.n, NUMBER, 0, 0, mark, 0, 0, 0]).expect("n is 1 to 24");
    (session.deliver(bytes, reals, imags), session.words())
}

/// What a delivery says where the kernel gives this answer.
pub fn as_reply(answer: Answer) -> Reply {
    match answer {
        Answer::Taken => Reply::Taken,
        Answer::Value(v) => Reply::Value(v),
        Answer::Refused(refusal) => Reply::Refused(refusal),
    }
}
