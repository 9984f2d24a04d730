//! Document 01's twelve examples by the archive's calls, and what the safe layer adds: names of answers, records there and back.
use gate_bench::*;

fn bits(numbers: &[f64]) -> Vec<u64> {
    numbers.iter().map(|x| x.to_bits()).collect()
}

fn eight() -> ([f64; 8], [f64; 8]) {
    ([1.0, 2.0, 3.0, 4.0, 5.0, 6.0, 7.0, 8.0], [0.0; 8])
}

fn bytes(record: &Record) -> Vec<u8> {
    let mut out = [0; RECORD_MOST];
    let size = write_record(record, &mut out).expect("there is room for any record");
    out[..size].to_vec()
}

fn x_numbered(number: u16) -> Vec<u8> {
    bytes(&Record { session: 7, number, gate: Gate::X(0, 0) })
}

#[test]
fn fused_and_root() {
    let half = f64::from_bits(0x3FE0000000000000);
    let least = f64::from_bits(1);
    let near = fused(f64::from_bits(0x3FF0000000000001), f64::from_bits(0x3FEFFFFFFFFFFFFE), -1.0);
    assert_eq!(near.to_bits(), 0xB970000000000000);
    assert_eq!(fused(least, half, 0.0).to_bits(), 0);
    assert_eq!(fused(least, 0.75, 0.0).to_bits(), 1);
    assert_eq!(root(2.0).to_bits(), 0x3FF6A09E667F3BCD);
}

#[test]
fn gates() {
    let (mut reals, mut imags) = ([1.0, 2.0, 3.0, 4.0], [0.0; 4]);
    assert_eq!(x_apply(&mut reals, &mut imags, 2, 0, 2), Answer::Taken);
    assert_eq!(reals, [1.0, 2.0, 4.0, 3.0]);

    let (mut reals, mut imags) = eight();
    assert_eq!(x_apply(&mut reals, &mut imags, 3, 2, 1), Answer::Taken);
    assert_eq!(reals, [1.0, 6.0, 3.0, 8.0, 5.0, 2.0, 7.0, 4.0]);

    let (mut reals, mut imags) = ([1.0, 3.0], [2.0, 4.0]);
    assert_eq!(y_apply(&mut reals, &mut imags, 1, 0, 0), Answer::Taken);
    assert_eq!((reals, imags), ([4.0, -2.0], [-3.0, 1.0]));

    let (mut reals, mut imags) = ([1.0, 0.0], [0.0; 2]);
    assert_eq!(h_apply(&mut reals, &mut imags, 1, 0, 0), Answer::Taken);
    assert_eq!(h_apply(&mut reals, &mut imags, 1, 0, 0), Answer::Taken);
    assert_eq!(reals[0].to_bits(), 0x3FF0000000000001);

    let (mut reals, mut imags) = eight();
    assert_eq!(swap_apply(&mut reals, &mut imags, 3, 0, 2), Answer::Taken);
    assert_eq!(reals, [1.0, 5.0, 3.0, 7.0, 2.0, 6.0, 4.0, 8.0]);
}

#[test]
fn measuring() {
    let (mut reals, mut imags) = ([0.5, 0.5], [0.0; 2]);
    let forced = Forced { outcome: 0, reset: 0 };
    assert_eq!(measure_qubit(&mut reals, &mut imags, 1, 0, forced), Answer::Value(0));
    assert_eq!(bits(&reals), bits(&[1.0, 0.0]));
    let forced = Forced { outcome: 1, reset: 0 };
    assert_eq!(measure_qubit(&mut reals, &mut imags, 1, 0, forced), Answer::Refused(Refusal::Chance));
}

/// Request 03: the outcome's own half is summed, whatever the other holds, and a half of zeros is refused.
#[test]
fn measuring_by_the_half_asked_for() {
    for (outcome, before, after) in
        [(0, [2.0, 1.0], [1.0, 0.0]), (1, [1.0, 2.0], [0.0, 1.0]), (1, [f64::INFINITY, -2.0], [0.0, -1.0]), (0, [2.0, f64::NAN], [1.0, 0.0])]
    {
        let (mut reals, mut imags) = (before, [0.0; 2]);
        assert_eq!(measure_qubit(&mut reals, &mut imags, 1, 0, Forced { outcome, reset: 0 }), Answer::Value(outcome));
        assert_eq!(bits(&reals), bits(&after));
    }
    for (outcome, before) in [(1, [0.5, 0.0]), (0, [-0.0, 0.5]), (1, [0.5, f64::INFINITY]), (0, [f64::NAN, 0.5])] {
        let (mut reals, mut imags) = (before, [0.0; 2]);
        assert_eq!(measure_qubit(&mut reals, &mut imags, 1, 0, Forced { outcome, reset: 0 }), Answer::Refused(Refusal::Chance));
        assert_eq!(bits(&reals), bits(&before));
    }
}

#[test]
fn matrices() {
    let entry = |re, im| Amplitude { re, im };
    let y = [entry(0.0, 0.0), entry(0.0, -1.0), entry(0.0, 1.0), entry(0.0, 0.0)];
    let (mut ar, mut ai) = ([9.0; 4], [9.0; 4]);
    assert_eq!(from_single_qubit_gate(&mut ar, &mut ai, 1, 0, y), Answer::Taken);
    assert_eq!((ar, ai), ([0.0; 4], [0.0, -1.0, 1.0, 0.0]));
    let (mut reals, mut imags) = ([9.0; 4], [9.0; 4]);
    assert_eq!(multiply(&ar, &ai, &ar, &ai, &mut reals, &mut imags, 1), Answer::Taken);
    assert_eq!((reals, imags), ([1.0, 0.0, 0.0, 1.0], [0.0; 4]));
    let (mut reals, mut imags) = ([9.0; 2], [9.0; 2]);
    assert_eq!(apply_unitary(&ar, &ai, &[1.0, 3.0], &[2.0, 4.0], &mut reals, &mut imags, 1), Answer::Taken);
    assert_eq!((reals, imags), ([4.0, -2.0], [-3.0, 1.0]));
    assert_eq!(conj_t(&mut ar, &mut ai, 1), Answer::Taken);
    assert_eq!(ai, [0.0, -1.0, 1.0, 0.0]);
    assert_eq!(conj_t(&mut ar, &mut ai, 7), Answer::Refused(Refusal::Size));
}

#[test]
fn records() {
    let x = Record { session: 7, number: 0, gate: Gate::X(1, 4) };
    let spelled = [1, 0, 4, 0, 0, 0, 7, 2, 0, 2, 0, 0, 3, 0, 1, 2, 4, 0, 1, 1, 5, 0, 4, 0, 0, 0, 4];
    assert_eq!(bytes(&x), spelled);
    assert_eq!(read_record(&spelled), Ok(x));
    assert_eq!(read_record(&spelled[1..]), Err(Refusal::Record));
    assert_eq!(write_record(&x, &mut [0; 26]), Err(Refusal::Room));
}

#[test]
fn records_there_and_back() {
    let angle = Angle { cosine: 0.6, sine: -0.8 };
    let angles = Angles { ct: 1.0, st: 2.0, cl: 3.0, sl: 4.0, cpl: 5.0, spl: 6.0, cp: 7.0, sp: 8.0 };
    let gates = [
        Gate::H(1, 2),
        Gate::X(255, u32::MAX),
        Gate::Y(3, 4),
        Gate::Z(5, 6),
        Gate::P(7, 8, angle),
        Gate::Rx(9, 10, angle),
        Gate::Ry(11, 12, angle),
        Gate::Rz(13, 14, angle),
        Gate::U(15, 16, angles),
        Gate::Swap(17, 255),
        Gate::Measure(18, Forced { outcome: 255, reset: 1 }),
        Gate::BitFlip(19, Noise { prob: 0.25, draw: -0.0 }),
    ];
    for gate in gates {
        let record = Record { session: 0xFFFFFFFE, number: 65535, gate };
        assert_eq!(read_record(&bytes(&record)), Ok(record));
    }
}

#[test]
fn deliveries() {
    let mut session = Session::start(1, 7).expect("one qubit");
    let (mut reals, mut imags) = ([1.0, 0.0], [0.0; 2]);
    let mut said = Vec::new();
    for number in [0, 0, 2, 1] {
        let reply = session.deliver(&x_numbered(number), &mut reals, &mut imags);
        said.push((reply, session.count()));
    }
    let early = Reply::Refused(Refusal::Early);
    assert_eq!(said, [(Reply::Taken, 1), (Reply::Again(None), 1), (early, 1), (Reply::Taken, 2)]);
    assert_eq!(bits(&reals), bits(&[1.0, 0.0]));
}

#[test]
fn refusals() {
    assert_eq!(Session::start(0, 7).err(), Some(Refusal::Size));
    assert_eq!(Session::start(25, 7).err(), Some(Refusal::Size));
    let mut session = Session::start(1, 7).expect("one qubit");
    let (mut reals, mut imags) = ([1.0, 0.0], [0.0; 2]);
    let mut deliver = |bytes: &[u8], reals: &mut [f64]| session.deliver(bytes, reals, &mut imags);
    assert_eq!(deliver(&x_numbered(0), &mut []), Reply::Refused(Refusal::Length));
    assert_eq!(deliver(&[], &mut reals), Reply::Refused(Refusal::Record));
    let other = bytes(&Record { session: 8, number: 0, gate: Gate::X(0, 0) });
    assert_eq!(deliver(&other, &mut reals), Reply::Refused(Refusal::Session));
    assert_eq!(deliver(&x_numbered(65535), &mut reals), Reply::Refused(Refusal::Full));
    assert_eq!(x_apply(&mut [1.0, 0.0], &mut [0.0; 2], 1, 1, 0), Answer::Refused(Refusal::Qubit));
    assert_eq!(x_apply(&mut [1.0, 0.0], &mut [0.0; 2], 1, 0, 1), Answer::Refused(Refusal::Same));
    let noise = Noise { prob: 0.5, draw: f64::NAN };
    assert_eq!(bit_flip_noise_apply(&mut [1.0, 0.0], &mut [0.0; 2], 1, 0, noise), Answer::Refused(Refusal::Number));
    assert_eq!(reals, [1.0, 0.0]);
}

/// Each gate by its own call and by a record: the same answer and the same bits, so no argument is passed in another's place.
#[test]
fn calls_and_deliveries_agree() {
    let angle = Angle { cosine: 0.8, sine: 0.6 };
    let angles = Angles { ct: 0.8, st: 0.6, cl: 0.96, sl: 0.28, cpl: -0.6, spl: 0.8, cp: 0.28, sp: -0.96 };
    let forced = Forced { outcome: 1, reset: 1 };
    let noise = Noise { prob: 0.5, draw: 0.25 };
    type Call<'a> = (Gate, Box<dyn Fn(&mut [f64], &mut [f64]) -> Answer + 'a>);
    let calls: [Call; 13] = [
        (Gate::H(2, 1), Box::new(|re, im| h_apply(re, im, 3, 2, 1))),
        (Gate::X(0, 6), Box::new(|re, im| x_apply(re, im, 3, 0, 6))),
        (Gate::Y(1, 4), Box::new(|re, im| y_apply(re, im, 3, 1, 4))),
        (Gate::Z(2, 0), Box::new(|re, im| z_apply(re, im, 3, 2, 0))),
        (Gate::P(0, 2, angle), Box::new(|re, im| p_apply(re, im, 3, 0, 2, angle))),
        (Gate::Rx(1, 5, angle), Box::new(|re, im| rx_apply(re, im, 3, 1, 5, angle))),
        (Gate::Ry(2, 1, angle), Box::new(|re, im| ry_apply(re, im, 3, 2, 1, angle))),
        (Gate::Rz(0, 4, angle), Box::new(|re, im| rz_apply(re, im, 3, 0, 4, angle))),
        (Gate::U(1, 1, angles), Box::new(|re, im| u_apply(re, im, 3, 1, 1, angles))),
        (Gate::Swap(0, 2), Box::new(|re, im| swap_apply(re, im, 3, 0, 2))),
        (Gate::Measure(1, forced), Box::new(|re, im| measure_qubit(re, im, 3, 1, forced))),
        (Gate::BitFlip(2, noise), Box::new(|re, im| bit_flip_noise_apply(re, im, 3, 2, noise))),
        (Gate::U(1, 2, angles), Box::new(|re, im| u_apply(re, im, 3, 1, 2, angles))),
    ];
    for (gate, call) in calls {
        let start = ([0.5, 0.1, -0.2, 0.3, 0.4, -0.1, 0.2, 0.35], [0.05, -0.15, 0.25, 0.1, -0.3, 0.2, 0.15, -0.05]);
        let (mut called, mut delivered) = (start, start);
        let answer = call(&mut called.0, &mut called.1);
        let mut session = Session::start(3, 9).expect("three qubits");
        let reply = session.deliver(&bytes(&Record { session: 9, number: 0, gate }), &mut delivered.0, &mut delivered.1);
        let expected = match answer {
            Answer::Taken => Reply::Taken,
            Answer::Value(value) => Reply::Value(value),
            Answer::Refused(refusal) => Reply::Refused(refusal),
        };
        assert_eq!(reply, expected, "{gate:?}");
        assert_eq!((bits(&called.0), bits(&called.1)), (bits(&delivered.0), bits(&delivered.1)), "{gate:?}");
        assert_eq!(called == start, matches!(answer, Answer::Refused(_)), "{gate:?}");
    }
}

#[test]
fn refusals_say_the_tables_words() {
    let table = include_str!("../../../README.md");
    let row = |number: u8| {
        let starts = |line: &&str| line.starts_with(&format!("| {number} ")) && !line.starts_with(&format!("| {number} |"));
        let row = table.lines().find(starts).expect("the README has the table");
        row.trim_matches(['|', ' ']).replacen(" | ", ": ", 1)
    };
    let refusals = [
        Refusal::Size,
        Refusal::Length,
        Refusal::Qubit,
        Refusal::Same,
        Refusal::Form,
        Refusal::Number,
        Refusal::Chance,
        Refusal::Record,
        Refusal::Session,
        Refusal::Early,
        Refusal::Full,
        Refusal::Room,
    ];
    for refusal in refusals {
        let error: Box<dyn std::error::Error> = Box::new(refusal);
        assert_eq!(error.to_string(), row(refusal.number()));
    }
}

/// A session of one qubit whose number is 7, and its state.
struct Bench {
    session: Session,
    reals: [f64; 2],
    imags: [f64; 2],
}

impl Bench {
    fn of(session: Session) -> Bench {
        Bench { session, reals: [0.6, 0.8], imags: [0.0; 2] }
    }

    fn start() -> Bench {
        Bench::of(Session::start(1, 7).expect("one qubit"))
    }

    fn deliver_bytes(&mut self, bytes: &[u8]) -> Reply {
        self.session.deliver(bytes, &mut self.reals, &mut self.imags)
    }

    fn deliver(&mut self, number: u16, gate: Gate) -> Reply {
        self.deliver_bytes(&bytes(&Record { session: 7, number, gate }))
    }

    /// All eight words and the state: what a refusal and AGAIN leave as it was.
    fn all(&self) -> ([u32; 8], Vec<u64>) {
        (self.session.words(), bits(&[self.reals, self.imags].concat()))
    }
}

const X: Gate = Gate::X(0, 0);

fn measure(outcome: u8, reset: u8) -> Gate {
    Gate::Measure(0, Forced { outcome, reset })
}

/// Request 04: the answer to a measurement was lost, and the console asks again.
#[test]
fn a_repeat_tells_the_outcome_again() {
    for (outcome, reset) in [(0, 0), (0, 1), (1, 0), (1, 1)] {
        let mut bench = Bench::start();
        assert_eq!(bench.session.value(), None);
        assert_eq!(bench.deliver(0, measure(outcome, reset)), Reply::Value(outcome));
        assert_eq!((bench.session.count(), bench.session.value()), (1, Some(outcome)));
        let left = bench.all();
        for _ in 0..3 {
            assert_eq!(bench.deliver(0, measure(outcome, reset)), Reply::Again(Some(outcome)));
            assert_eq!(bench.all(), left);
        }
    }
}

#[test]
fn a_flip_tells_again_whether_it_ran() {
    for (draw, value) in [(0.25, 1), (0.5, 1), (0.75, 0)] {
        let (mut bench, flip) = (Bench::start(), Gate::BitFlip(0, Noise { prob: 0.5, draw }));
        assert_eq!(bench.deliver(0, flip), Reply::Value(value));
        assert_eq!(bench.deliver(0, flip), Reply::Again(Some(value)));
        assert_eq!(bench.reals, if value == 1 { [0.8, 0.6] } else { [0.6, 0.8] });
    }
}

#[test]
fn an_older_repeat_tells_nothing() {
    let mut bench = Bench::start();
    assert_eq!(bench.deliver(0, measure(1, 0)), Reply::Value(1));
    assert_eq!(bench.deliver(1, X), Reply::Taken);
    assert_eq!(bench.session.value(), None);
    assert_eq!(bench.deliver(0, measure(1, 0)), Reply::Again(None));
    assert_eq!(bench.deliver(1, X), Reply::Again(None));
    assert_eq!(bench.deliver(2, measure(0, 0)), Reply::Value(0));
    assert_eq!(bench.deliver(0, measure(1, 0)), Reply::Again(None));
    assert_eq!(bench.deliver(1, X), Reply::Again(None));
    assert_eq!(bench.deliver(2, measure(0, 0)), Reply::Again(Some(0)));
    assert_eq!(bench.deliver(3, Gate::BitFlip(0, Noise { prob: 1.0, draw: 0.0 })), Reply::Value(1));
    assert_eq!(bench.deliver(2, measure(0, 0)), Reply::Again(None));
    assert_eq!((bench.session.count(), bench.session.value()), (4, Some(1)));
}

#[test]
fn a_refusal_between_leaves_the_value() {
    let mut bench = Bench::start();
    assert_eq!(bench.deliver(0, measure(1, 0)), Reply::Value(1));
    let left = bench.all();
    let other = bytes(&Record { session: 8, number: 1, gate: X });
    for (refusal, refused) in [
        (Refusal::Record, vec![9; 5]),
        (Refusal::Session, other),
        (Refusal::Full, x_numbered(65535)),
        (Refusal::Early, x_numbered(2)),
        (Refusal::Qubit, bytes(&Record { session: 7, number: 1, gate: Gate::X(1, 0) })),
        (Refusal::Chance, bytes(&Record { session: 7, number: 1, gate: measure(0, 0) })),
    ] {
        assert_eq!(bench.deliver_bytes(&refused), Reply::Refused(refusal));
        assert_eq!(bench.all(), left, "{refusal:?}");
        assert_eq!(bench.deliver(0, measure(1, 0)), Reply::Again(Some(1)), "{refusal:?}");
    }
}

/// Whatever else the bytes say: of a repeat nothing but its session and its number is looked at.
#[test]
fn the_number_alone_decides() {
    let mut bench = Bench::start();
    assert_eq!(bench.deliver(0, measure(1, 0)), Reply::Value(1));
    for gate in [X, measure(0, 0), measure(7, 7), Gate::X(200, 0)] {
        assert_eq!(bench.deliver(0, gate), Reply::Again(Some(1)), "{gate:?}");
    }
}

#[test]
fn sessions_go_on_from_their_words() {
    let mut bench = Bench::start();
    assert_eq!(bench.session.words(), [1, 7, 0, 0, 0, 0, 0, 0]);
    assert_eq!(bench.deliver(0, X), Reply::Taken);
    assert_eq!(bench.deliver(1, measure(1, 0)), Reply::Value(1));
    let saved = bench.session.words();
    let measured = bytes(&Record { session: 7, number: 1, gate: measure(1, 0) });
    let mark = marked(marked(0, &x_numbered(0)), &measured);
    assert_eq!(saved, [1, 7, 2, 2, mark, 0, 0, 0]);
    let mut later = Bench { session: Session::from_words(saved).expect("one qubit"), ..bench };
    assert_eq!(later.session, bench.session);
    let Bench { session, .. } = &later;
    assert_eq!((session.n(), session.number(), session.count(), session.value(), session.mark()), (1, 7, 2, Some(1), mark));
    assert_eq!(later.deliver(0, X), Reply::Again(None));
    assert_eq!(later.deliver(1, measure(1, 0)), Reply::Again(Some(1)));
    assert_eq!(later.deliver(2, X), Reply::Taken);
    assert_eq!((later.session.count(), later.session.value(), bits(&later.reals)), (3, None, bits(&[1.0, 0.0])));
    assert_eq!(later.session.mark(), marked(mark, &x_numbered(2)));
    for n in [0, 25, u32::MAX] {
        assert_eq!(Session::from_words([n, 7, 3, 0, 0, 0, 0, 0]), Err(Refusal::Size));
    }
}

/// Any eight words are a session: of the third the low 16 bits are the count, of the fourth less 1 the low 8 are the value, and the fifth is a mark.
#[test]
fn words_of_any_kind() {
    let words = [1, 7, 65536 + 5, 300, 11, 12, 13, 14];
    let mut bench = Bench::of(Session::from_words(words).expect("one qubit"));
    assert_eq!((bench.session.count(), bench.session.value(), bench.session.mark()), (5, Some(43), 11));
    let left = bench.all();
    assert_eq!(left.0, words);
    let early = Reply::Refused(Refusal::Early);
    for (number, reply) in [(6, early), (4, Reply::Again(Some(43))), (3, Reply::Again(None)), (65535, Reply::Refused(Refusal::Full))] {
        assert_eq!(bench.deliver(number, X), reply);
        assert_eq!(bench.all(), left, "{number}");
    }
    assert_eq!(bench.deliver(5, Gate::X(1, 0)), Reply::Refused(Refusal::Qubit));
    assert_eq!(bench.all(), left);
    assert_eq!(bench.deliver(5, X), Reply::Taken);
    assert_eq!(bench.session.words(), [1, 7, 6, 0, marked(11, &x_numbered(5)), 12, 13, 14]);

    // With a count of 0 nothing is a repeat, whatever value is kept.
    let mut bench = Bench::of(Session::from_words([1, 7, 65536, 2, 0, 0, 0, 0]).expect("one qubit"));
    assert_eq!(bench.deliver(65534, X), early);
    assert_eq!(bench.deliver(0, X), Reply::Taken);
    assert_eq!(bench.deliver(0, X), Reply::Again(None));
}

/// Request 06's mark, worked out here.
fn marked(mark: u32, bytes: &[u8]) -> u32 {
    bytes.iter().fold(mark, |mark, byte| mark.rotate_left(5).wrapping_add(u32::from(*byte)))
}

#[test]
fn the_mark_of_the_tests() {
    assert_eq!(marked(0, &[1, 2]), 34);
    assert_eq!(marked(0, &x_numbered(0)), 0x55900236);
}

/// A session of three qubits whose number is 7: of what was taken the mark is held to the one worked out here, after each delivery.
struct Marked {
    session: Session,
    state: [[f64; 8]; 2],
    mark: u32,
}

impl Marked {
    fn start() -> Marked {
        let session = Session::start(3, 7).expect("three qubits");
        assert_eq!(session.mark(), 0);
        Marked { session, state: [[1.0, 0.0, 0.0, 0.0, 0.0, 0.0, 0.0, 0.0], [0.0; 8]], mark: 0 }
    }

    fn deliver(&mut self, bytes: &[u8]) -> Reply {
        let [reals, imags] = &mut self.state;
        let reply = self.session.deliver(bytes, reals, imags);
        if let Reply::Taken | Reply::Value(_) = reply {
            self.mark = marked(self.mark, bytes);
        }
        assert_eq!(self.session.mark(), self.mark, "{reply:?} to {bytes:02x?}");
        reply
    }
}

/// Request 06: before each record refusals of every kind, behind it repeats of all so far. Qubit 2 is nobody's and stays 0, so outcome 1 has no chance there.
#[test]
fn the_mark_runs_over_what_was_taken() {
    let (angle, wrong) = (Angle { cosine: 0.6, sine: -0.8 }, Angle { cosine: f64::NAN, sine: 1.0 });
    let angles = Angles { ct: 0.8, st: 0.6, cl: 0.96, sl: 0.28, cpl: -0.6, spl: 0.8, cp: 0.28, sp: -0.96 };
    let forced = Forced { outcome: 0, reset: 0 };
    let (p, rx, ry, rz) = (Gate::P(1, 1, angle), Gate::Rx(0, 2, angle), Gate::Ry(1, 0, angle), Gate::Rz(0, 0, angle));
    let (flip, stays) = (Gate::BitFlip(0, Noise { prob: 0.5, draw: 0.25 }), Gate::BitFlip(1, Noise { prob: 0.5, draw: 0.75 }));
    let gates = [Gate::H(0, 0), Gate::X(1, 1), Gate::Y(0, 2), Gate::Z(1, 0), p, rx, ry, rz, Gate::U(1, 1, angles), Gate::Swap(0, 1), flip, stays];
    let mut bench = Marked::start();
    let mut sent = Vec::new();
    for (number, gate) in (0..).zip(gates.into_iter().chain([Gate::Measure(1, forced), Gate::H(1, 0)])) {
        let record = |session, number, gate| bytes(&Record { session, number, gate });
        let (own, of) = (record(7, number, gate), |gate| record(7, number, gate));
        for (refusal, refused) in [
            (Refusal::Qubit, of(Gate::X(3, 0))),
            (Refusal::Same, of(Gate::X(0, 1))),
            (Refusal::Form, of(Gate::Z(0, 2))),
            (Refusal::Number, of(Gate::P(0, 0, wrong))),
            (Refusal::Chance, of(Gate::Measure(2, Forced { outcome: 1, reset: 0 }))),
            (Refusal::Record, own[1..].to_vec()),
            (Refusal::Record, vec![9; 300]),
            (Refusal::Session, record(8, number, gate)),
            (Refusal::Early, record(7, number + 1, gate)),
            (Refusal::Full, record(7, 65535, gate)),
        ] {
            assert_eq!(bench.deliver(&refused), Reply::Refused(refusal));
        }
        assert_eq!(bench.session.deliver(&own, &mut [], &mut []), Reply::Refused(Refusal::Length));
        assert!(matches!(bench.deliver(&own), Reply::Taken | Reply::Value(_)), "{gate:?}");
        sent.push(own);
        for repeat in &sent {
            assert!(matches!(bench.deliver(repeat), Reply::Again(_)));
        }
    }
    assert_eq!((bench.session.count(), bench.mark), (14, marked(0, &sent.concat())));
}

/// Any word is a mark to go on from; behind the last of these the record's first byte makes a carry out of 32 bits, which is dropped.
#[test]
fn any_word_is_a_mark() {
    for mark in [0, 1, 34, 0x07FFFFFF, 0x08000000, 0x80000000, u32::MAX] {
        let mut bench = Bench::of(Session::from_words([1, 7, 0, 0, mark, 0, 0, 0]).expect("one qubit"));
        assert_eq!(bench.session.mark(), mark);
        assert_eq!(bench.deliver(0, X), Reply::Taken);
        assert_eq!(bench.session.words(), [1, 7, 1, 0, marked(mark, &x_numbered(0)), 0, 0, 0]);
    }
    assert_eq!(marked(u32::MAX, &x_numbered(0)[..1]), 0);
}

/// Equal marks prove nothing: X on qubit 0 with control 5, and with control 8, alone and among other records; behind X on qubit 5 the states differ.
#[test]
fn two_lists_with_one_mark() {
    let left = |gates: &[Gate]| {
        let mut session = Session::start(9, 7).expect("nine qubits");
        let (mut reals, mut imags) = ([0.0; 512], [0.0; 512]);
        reals[0] = 1.0;
        for (number, gate) in (0..).zip(gates) {
            assert_eq!(session.deliver(&bytes(&Record { session: 7, number, gate: *gate }), &mut reals, &mut imags), Reply::Taken);
        }
        (session.mark(), bits(&reals))
    };
    let (control_5, control_8) = (Gate::X(0, 0x20), Gate::X(0, 0x100));
    assert_eq!((left(&[control_5]).0, left(&[control_8]).0), (0x55900256, 0x55900256));
    let (one, other) = (left(&[Gate::X(5, 0), control_5, Gate::H(1, 0)]), left(&[Gate::X(5, 0), control_8, Gate::H(1, 0)]));
    assert_eq!(one.0, other.0);
    assert_ne!(one.1, other.1);
}

#[test]
fn the_processor_is_as_it_starts() {
    assert!(environment_is_default());
}

/// Document 01: any NaN answer of F and of the root has these bits. A NaN operand, an infinity times zero, infinities of two signs.
#[test]
fn one_nan() {
    const NAN: u64 = 0x7FF8000000000000;
    let (infinite, other) = (f64::INFINITY, f64::from_bits(0xFFF4000000000001));
    let cases = [
        (other, 1.0, 1.0),
        (1.0, other, 1.0),
        (1.0, 1.0, other),
        (other, 0.0, infinite),
        (infinite, 0.0, 1.0),
        (-0.0, -infinite, other),
        (infinite, 1.0, -infinite),
        (-2.0, infinite, infinite),
        (f64::MAX, -infinite, infinite),
    ];
    for (x, y, z) in cases {
        assert_eq!(fused(x, y, z).to_bits(), NAN, "F({x}, {y}, {z})");
    }
    for x in [other, -1.0, -infinite, -f64::from_bits(1)] {
        assert_eq!(root(x).to_bits(), NAN, "root({x})");
    }
    // P, RZ and U leave what F gives.
    let (k, g) = (Angle { cosine: 0.0, sine: 1.0 }, Angles { ct: 0.0, st: 1.0, cl: 0.0, sl: 1.0, cpl: 0.0, spl: 1.0, cp: 0.0, sp: 1.0 });
    for x in [other, infinite, -infinite] {
        let left = |gate: &dyn Fn(&mut [f64], &mut [f64]) -> Answer| {
            let (mut reals, mut imags) = ([x; 2], [x; 2]);
            assert_eq!(gate(&mut reals, &mut imags), Answer::Taken);
            bits(&[reals, imags].concat())
        };
        assert_eq!(left(&|re, im| p_apply(re, im, 1, 0, 0, k))[1], NAN);
        assert_eq!(left(&|re, im| rz_apply(re, im, 1, 0, 0, k)), [NAN; 4]);
        assert_eq!(left(&|re, im| u_apply(re, im, 1, 0, 0, g)), [NAN; 4]);
    }
}

/// F, and 01's rules with it.
fn turned(m: [f64; 2], z: [f64; 2]) -> [f64; 2] {
    [fused(z[0], m[0], -z[1] * m[1]), fused(z[0], m[1], z[1] * m[0])]
}

type Pair = [[f64; 2]; 2];

fn p_rule(k: Angle, [ab, cd]: Pair) -> Pair {
    [ab, [fused(cd[0], k.cosine, -cd[1] * k.sine), fused(cd[1], k.cosine, cd[0] * k.sine)]]
}

fn rz_rule(k: Angle, [ab, cd]: Pair) -> Pair {
    [turned([k.cosine, -k.sine], ab), turned([k.cosine, k.sine], cd)]
}

fn u_rule(g: Angles, [[a, b], [c, d]]: Pair) -> Pair {
    let (p, q, r, u, v, e, f) = (g.ct, -g.cl * g.st, -g.sl * g.st, g.cp * g.st, g.sp * g.st, g.cpl * g.ct, g.spl * g.ct);
    let s0 = [fused(p, a, fused(q, c, -r * d)), fused(p, b, fused(q, d, r * c))];
    [s0, [fused(u, a, fused(-v, b, fused(e, c, -f * d))), fused(u, b, fused(v, a, fused(e, d, f * c)))]]
}

/// P, RZ and U work several F out side by side where every number is near 1, and take them where their sides meet: one number that is not near 1, or that
/// makes a tie (1 with the last angle, beside a number from a quarter to a half), changes nothing beside it.
#[test]
fn side_by_side() {
    let odd = [0.0, -0.0, f64::NAN, f64::INFINITY, -f64::INFINITY, 2f64.powi(-300), -2f64.powi(300), f64::from_bits(1), f64::MAX, 1.0, 2.0, -2f64.powi(-255)];
    let angle = |k: f64| Angle { cosine: k.cos(), sine: k.sin() };
    let angles = |ct: f64, st: f64| Angles { ct, st, cl: 0.8, sl: 0.6, cpl: 0.96, spl: -0.28, cp: -0.6, sp: 0.8 };
    let tie = 2f64.powi(-55);
    let fixed = [
        (angle(0.7), angles(0.96, 0.28)),
        (angle(0.0), angles(1.0, 0.0)),
        (Angle { cosine: 1e300, sine: 3.0 }, angles(-3.0, 1e-300)),
        (Angle { cosine: 1.0, sine: tie }, angles(1.0, tie)),
    ];
    for (target, ones, at) in (0..3).flat_map(|t| [0, 1, 2, 4].map(move |ones| (t, ones))).flat_map(|(t, ones)| (0..16).map(move |at| (t, ones, at))) {
        if ones >> target & 1 == 1 {
            continue;
        }
        for (x, (k, g)) in odd.iter().flat_map(|x| fixed.iter().map(move |f| (x, *f))) {
            let mut parts: Vec<f64> = (0..16).map(|i| f64::from(i * 7 % 16 - 8) / 16.3 + 0.01).collect();
            parts[at] = *x;
            let (reals, imags) = parts.split_at(8);
            let wanted = |rule: &dyn Fn(Pair) -> Pair| {
                let (mut re, mut im) = (reals.to_vec(), imags.to_vec());
                for s0 in (0..8usize).filter(|i| i >> target & 1 == 0 && *i as u32 & ones == ones) {
                    let s1 = s0 + (1 << target);
                    let left = rule([[re[s0], im[s0]], [re[s1], im[s1]]]);
                    (re[s0], im[s0], re[s1], im[s1]) = (left[0][0], left[0][1], left[1][0], left[1][1]);
                }
                bits(&[re, im].concat())
            };
            let got = |gate: &dyn Fn(&mut [f64], &mut [f64]) -> Answer| {
                let (mut re, mut im) = (reals.to_vec(), imags.to_vec());
                assert_eq!(gate(&mut re, &mut im), Answer::Taken);
                bits(&[re, im].concat())
            };
            assert_eq!(got(&|re, im| p_apply(re, im, 3, target, ones, k)), wanted(&|p| p_rule(k, p)), "P at {target}, {ones:b}, {x} at {at}");
            assert_eq!(got(&|re, im| rz_apply(re, im, 3, target, ones, k)), wanted(&|p| rz_rule(k, p)), "RZ at {target}, {ones:b}, {x} at {at}");
            assert_eq!(got(&|re, im| u_apply(re, im, 3, target, ones, g)), wanted(&|p| u_rule(g, p)), "U at {target}, {ones:b}, {x} at {at}");
        }
    }
}

/// 20, a length of two bytes, and the record.
fn frame(contents: &[u8]) -> Vec<u8> {
    [&[0x20][..], &(contents.len() as u16).to_be_bytes(), contents].concat()
}

/// A reply, and the session's count and mark behind it.
type Told = (Reply, u16, u32);

/// What a stream gives in pieces of these sizes: what was told, the state, and what is left at the end.
fn fed(sent: &[u8], pieces: &[usize]) -> (Vec<Told>, [u64; 2], bool, bool) {
    let mut stream = Stream::new(Session::start(1, 7).expect("one qubit"));
    let (mut reals, mut imags) = ([1.0, 0.0], [0.0; 2]);
    let (mut replies, mut rest) = (Vec::new(), sent);
    for size in pieces.iter().cycle() {
        let (mut piece, behind) = rest.split_at(rest.len().min(*size));
        while let Some(reply) = stream.take(&mut piece, &mut reals, &mut imags) {
            replies.push((reply, stream.session().count(), stream.session().mark()));
        }
        assert!(piece.is_empty());
        rest = behind;
        if rest.is_empty() {
            break;
        }
    }
    (replies, [reals[0].to_bits(), reals[1].to_bits()], stream.is_cut(), stream.is_stopped())
}

#[test]
fn a_stream_cut_anywhere() {
    let measurement = bytes(&Record { session: 7, number: 1, gate: measure(1, 0) });
    let one = marked(0, &x_numbered(0));
    let two = marked(one, &measurement);
    let three = marked(two, &x_numbered(2));
    let measured = frame(&measurement);
    let sent = [frame(&x_numbered(0)), frame(&[]), frame(&x_numbered(0)), measured.clone(), frame(&[9; 300]), measured.clone()].concat();
    let sent = [sent, frame(&x_numbered(2)), measured, vec![0x20, 0]].concat();
    let whole = fed(&sent, &[sent.len()]);
    let (refused, again) = (Reply::Refused(Refusal::Record), Reply::Again(None));
    let replies = [
        (Reply::Taken, 1, one),
        (refused, 1, one),
        (again, 1, one),
        (Reply::Value(1), 2, two),
        (refused, 2, two),
        (Reply::Again(Some(1)), 2, two),
        (Reply::Taken, 3, three),
        (again, 3, three),
    ];
    assert_eq!(whole.0, replies);
    assert_eq!((whole.1, whole.2, whole.3), ([1f64.to_bits(), 0], true, false));
    for size in 1..sent.len() {
        assert_eq!(fed(&sent, &[size]), whole, "pieces of {size}");
        assert_eq!(fed(&sent, &[size, 0, sent.len()]), whole, "cut at {size}");
    }
}

#[test]
fn behind_a_wrong_tag_nothing_changes() {
    let sent = [frame(&x_numbered(0)), vec![b'\n'], frame(&x_numbered(1))].concat();
    let whole = fed(&sent, &[sent.len()]);
    assert_eq!(whole, (vec![(Reply::Taken, 1, marked(0, &x_numbered(0)))], [0, 1f64.to_bits()], true, true));
    for size in 1..sent.len() {
        assert_eq!(fed(&sent, &[size]), whole, "pieces of {size}");
    }
}
