//! Both sides on the same cases, bit for bit.
use crate::calls::{Call, Gate};
use crate::cases;
use crate::matrices::{self, Parts};
use crate::random::Random;
use crate::states::{has_nan, same, state, KINDS, MEASURED};
use crate::{ours, rust};
use gate_bench::{Answer, Refusal};
use spinoza::core::State;
use std::collections::BTreeMap;

/// What was compared, under a name.
#[derive(Default)]
struct Row {
    cases: u64,
    different: u64,
    nan: u64,
    chance: u64,
    other_way: u64,
    slow: u64,
    slow_different: u64,
}

pub struct Tally {
    rows: BTreeMap<String, Row>,
    ones: u64,
    /// Over the bytes of every record that was delivered: each session goes on from the one before.
    mark: u32,
    shown: u32,
}

/// Of so many differences each is printed.
const SHOWN: u32 = 10;

/// How often each kind of state comes.
const ROUNDS: usize = 6;

impl Tally {
    fn row(&mut self, name: &str) -> &mut Row {
        self.rows.entry(name.to_string()).or_default()
    }

    fn different(&mut self, name: &str, what: &str) {
        self.row(name).different += 1;
        self.show(what);
    }

    fn show(&mut self, what: &str) {
        self.shown += 1;
        if self.shown <= SHOWN {
            println!("DIFFERENT: {what}");
        }
    }

    /// One call on one state: by the kernel, as a record delivered to a session, and by the slow engine.
    fn call(&mut self, call: &Call, reals: &[f64], imags: &[f64]) {
        let name = call.gate.name();
        if !both_ways(call, reals, imags) {
            self.row(name).other_way += 1;
            return;
        }
        let mut theirs = State { reals: reals.to_vec(), imags: imags.to_vec(), n: call.n as u8 };
        let (mut re, mut im) = (reals.to_vec(), imags.to_vec());
        let answer = ours::run(call, &mut re, &mut im);
        if answer == Answer::Refused(Refusal::Chance) && impossible(call, reals, imags) {
            self.row(name).chance += 1;
            return;
        }
        rust::run(call, &mut theirs);
        if has_nan(&theirs.reals) || has_nan(&theirs.imags) {
            self.row(name).nan += 1;
            return;
        }
        self.row(name).cases += 1;
        self.ones += u64::from(forced(call) == Some(1));
        let bytes = ours::record(call);
        let (mut re2, mut im2) = (reals.to_vec(), imags.to_vec());
        let (delivered, words) = ours::deliver_marked(call, self.mark, &bytes, &mut re2, &mut im2);
        self.mark = marked(self.mark, &bytes);
        let agree = same(&re, &theirs.reals) && same(&im, &theirs.imags);
        let again = same(&re2, &theirs.reals) && same(&im2, &theirs.imags);
        let kept = words == expected_words(call, self.mark);
        if !agree || !again || !kept || answer != expected(call) || delivered != ours::as_reply(answer) {
            let numbers = call.gate.numbers();
            self.different(name, &format!("{call} {numbers:?} answer {answer:?} delivered {delivered:?} words {words:x?} reals {reals:?} imags {imags:?}"));
        }
        self.slow(call, reals, imags, &(theirs.reals, theirs.imags));
    }

    /// The slow engine has no measuring.
    fn slow(&mut self, call: &Call, reals: &[f64], imags: &[f64], theirs: &Parts) {
        let Some((answer, left)) = ours::run_slow(call, reals, imags) else { return };
        let row = self.row(call.gate.name());
        row.slow += 1;
        if answer != expected(call) || !matrices::agree(theirs, &left) {
            row.slow_different += 1;
            let numbers = call.gate.numbers();
            self.show(&format!("by the slow engine {call} {numbers:?} answer {answer:?} reals {reals:?} imags {imags:?}"));
        }
    }

    fn matrix(&mut self, name: &str, theirs: Parts, ours: Parts, what: &str) {
        if has_nan(&theirs.0) || has_nan(&theirs.1) {
            self.row(name).nan += 1;
            return;
        }
        self.row(name).cases += 1;
        if !matrices::agree(&theirs, &ours) {
            self.different(name, what);
        }
    }
}

/// The answer that document 01 asks for.
pub fn expected(call: &Call) -> Answer {
    match call.gate {
        Gate::Measure(outcome, _) => Answer::Value(outcome),
        Gate::BitFlip(prob, k) => Answer::Value(u8::from(k as f64 / 2f64.powi(53) <= prob)),
        _ => Answer::Taken,
    }
}

/// Request 06's mark, worked out here: each byte turns it left by 5 and is added, and a carry out of 32 bits is dropped.
fn marked(mark: u32, bytes: &[u8]) -> u32 {
    bytes.iter().fold(mark, |mark, byte| mark.rotate_left(5).wrapping_add(u32::from(*byte)))
}

/// The words of a session that has taken the call as its first record.
fn expected_words(call: &Call, mark: u32) -> [u32; 8] {
    let value = match expected(call) {
        Answer::Value(v) => u32::from(v) + 1,
        _ => 0,
    };
    [call.n, ours::NUMBER, 1, value, mark, 0, 0, 0]
}

pub fn forced(call: &Call) -> Option<u8> {
    match call.gate {
        Gate::Measure(outcome, _) => Some(outcome),
        _ => None,
    }
}

/// The squares of the half with this target bit, added up. The sums are exact, so their order does not matter.
fn half(call: &Call, bit: u8, reals: &[f64], imags: &[f64]) -> f64 {
    let own = (0..reals.len()).filter(|i| i >> call.target & 1 == usize::from(bit));
    own.map(|i| reals[i] * reals[i] + imags[i] * imags[i]).sum()
}

/// The forced outcome's probability is not above 0.
pub fn impossible(call: &Call, reals: &[f64], imags: &[f64]) -> bool {
    forced(call).is_some_and(|outcome| half(call, outcome, reals, imags) <= 0.0)
}

/// False where outcome 1 is forced and 1-p0, by which the Rust goes, has other bits than the sum over its half, which request 03 asks for.
pub fn both_ways(call: &Call, reals: &[f64], imags: &[f64]) -> bool {
    let by_the_rest = 1.0 - half(call, 0, reals, imags);
    forced(call) != Some(1) || by_the_rest.to_bits() == half(call, 1, reals, imags).to_bits()
}

/// Every target and control for n up to 6, on every kind of state.
fn small(tally: &mut Tally, random: &mut Random) {
    for n in 1..=6 {
        for kind in KINDS.repeat(ROUNDS) {
            let mut calls = cases::all_pair_calls(n, random);
            calls.extend(cases::all_swaps(n));
            calls.extend(cases::all_flips(n, random));
            for call in calls {
                let (reals, imags) = state(kind, random, 1 << n);
                tally.call(&call, &reals, &imags);
            }
        }
        for kind in MEASURED.repeat(8 * ROUNDS) {
            for call in cases::all_measurements(n) {
                let (reals, imags) = state(kind, random, 1 << n);
                tally.call(&call, &reals, &imags);
            }
        }
    }
}

/// Random targets and controls for n from 7 to 14.
fn large(tally: &mut Tally, random: &mut Random) {
    for n in 7..=14 {
        for kind in KINDS.repeat(ROUNDS) {
            for _ in 0..40 {
                let (reals, imags) = state(kind, random, 1 << n);
                tally.call(&cases::some_pair_call(n, random), &reals, &imags);
            }
            let (reals, imags) = state(kind, random, 1 << n);
            let swaps = cases::all_swaps(n);
            tally.call(&swaps[random.below(swaps.len() as u64) as usize], &reals, &imags);
            let flips = cases::all_flips(n, random);
            tally.call(&flips[random.below(flips.len() as u64) as usize], &reals, &imags);
        }
        for kind in MEASURED {
            for call in cases::all_measurements(n) {
                let (reals, imags) = state(kind, random, 1 << n);
                tally.call(&call, &reals, &imags);
            }
        }
    }
}

fn all_matrices(tally: &mut Tally, random: &mut Random) {
    for n in 1..=6 {
        for target in 0..n {
            for gate in cases::pair_gates(random) {
                let theirs = matrices::rust_gate_matrix(gate, n, target);
                let ours = matrices::our_gate_matrix(matrices::entries(gate), n, target);
                tally.matrix("matrix of a gate", theirs, ours, &format!("matrix of {} n={n} target={target}", gate.name()));
            }
        }
        for kind in KINDS {
            for _ in 0..4 * ROUNDS {
                let (a, b) = (state(kind, random, 1 << (2 * n)), state(kind, random, 1 << (2 * n)));
                let s = state(kind, random, 1 << n);
                let what = format!("n={n} {kind:?}");
                tally.matrix("conjugate transpose", matrices::rust_transpose(&a, n), matrices::our_transpose(&a, n), &what);
                tally.matrix("product", matrices::rust_product(&a, &b, n), matrices::our_product(&a, &b, n), &what);
                tally.matrix("product with a state", matrices::rust_state_product(&a, &s, n), matrices::our_state_product(&a, &s, n), &what);
            }
        }
    }
}

/// What the slow engine ran and how much of it differed, or nothing where it has no such call.
fn by_the_slow(row: &Row) -> String {
    if row.slow == 0 {
        " |".to_string()
    } else {
        format!("{} | {}", row.slow, row.slow_different)
    }
}

/// Prints the table, and says whether nothing differed.
pub fn run(seed: u64) -> bool {
    let mut random = Random(seed);
    let mut tally = Tally { rows: BTreeMap::new(), ones: 0, mark: 0, shown: 0 };
    small(&mut tally, &mut random);
    large(&mut tally, &mut random);
    all_matrices(&mut tally, &mut random);
    println!(
        "| call | compared | different | by the slow engine | different \
        | outside: NaN came out | outside: impossible outcome | outside: 1-p0 is not p1 |\n|---|---|---|---|---|---|---|---|"
    );
    let (mut cases, mut different, mut outside, mut other_way) = (0, 0, 0, 0);
    let (mut slow, mut slow_different) = (0, 0);
    for (name, row) in &tally.rows {
        let by_the_slow = by_the_slow(row);
        println!("| {name} | {} | {} | {by_the_slow} | {} | {} | {} |", row.cases, row.different, row.nan, row.chance, row.other_way);
        cases += row.cases;
        different += row.different;
        slow += row.slow;
        slow_different += row.slow_different;
        other_way += row.other_way;
        outside += row.nan + row.chance + row.other_way;
    }
    println!("\nOutcome 1: {} kept, where 1-p0 and the sum have equal bits; {other_way} left out, where they have not.", tally.ones);
    println!("Outside the domain and not made: a NaN put in, more than one control, two threads, measuring where a square or a partial sum is inexact.");
    println!("seed {seed}: {cases} cases compared bit for bit, {different} different; {outside} made and left out as outside the domain");
    println!("by the slow engine: {slow} of these cases, every one but measuring and matrices, {slow_different} different");
    different == 0 && slow_different == 0
}
