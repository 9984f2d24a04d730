//! Three qubits over a bad line, from Rust. Three records make a GHZ state; they arrive late, early, repeated and with junk
//! between. Each is run once, in order, and the state is bit for bit what the records give when nothing goes wrong. A fourth
//! measures; its answer is lost, and its repeat tells the outcome again. The mark runs over the four, once each: a bench with
//! another mark took other records.
use gate_bench::{environment_is_default, write_record, Forced, Gate, Record, Reply, Session, RECORD_MOST};
use std::process::ExitCode;

const QUBITS: u32 = 3;
const PLACES: usize = 8;
const OWN: u32 = 7;

struct State {
    session: Session,
    reals: [f64; PLACES],
    imags: [f64; PLACES],
}

impl State {
    fn start() -> State {
        let mut reals = [0.0; PLACES];
        reals[0] = 1.0;
        State { session: Session::start(QUBITS, OWN).expect("three qubits"), reals, imags: [0.0; PLACES] }
    }

    fn deliver(&mut self, bytes: &[u8]) -> Reply {
        self.session.deliver(bytes, &mut self.reals, &mut self.imags)
    }

    fn arrive(&mut self, what: &str, bytes: &[u8]) {
        let said = match self.deliver(bytes) {
            Reply::Taken => "TAKEN".to_string(),
            Reply::Again(None) => "AGAIN".to_string(),
            Reply::Again(Some(value)) => format!("AGAIN VALUE {value}"),
            Reply::Value(value) => format!("VALUE {value}"),
            Reply::Refused(refusal) => format!("REFUSED {}", refusal.number()),
        };
        println!("{what:<34} {said} COUNT {}", self.session.count());
    }

    fn bits(&self) -> Vec<u64> {
        self.reals.iter().chain(&self.imags).map(|x| x.to_bits()).collect()
    }
}

fn bytes(session: u32, number: u16, gate: Gate) -> Vec<u8> {
    let mut out = [0; RECORD_MOST];
    let size = write_record(&Record { session, number, gate }, &mut out).expect("there is room for any record");
    out[..size].to_vec()
}

fn main() -> ExitCode {
    if !environment_is_default() {
        eprintln!("ghz: rounding or subnormals are not the processor's default: no bit can be compared");
        return ExitCode::from(2);
    }
    let h = bytes(OWN, 0, Gate::H(0, 0));
    let x1 = bytes(OWN, 1, Gate::X(1, 1));
    let x2 = bytes(OWN, 2, Gate::X(2, 2));
    let m = bytes(OWN, 3, Gate::Measure(2, Forced { outcome: 1, reset: 0 }));
    let other = bytes(OWN + 1, 0, Gate::X(0, 0));

    let mut bad = State::start();
    bad.arrive("record 2, before 0 and 1", &x2);
    bad.arrive("record 0: H on 0", &h);
    bad.arrive("record 0 again", &h);
    bad.arrive("junk", &[0xde, 0xad, 0xbe, 0xef]);
    bad.arrive("record 1 without its last byte", &x1[..x1.len() - 1]);
    bad.arrive("record 2, still early", &x2);
    bad.arrive("another session's record", &other);
    bad.arrive("record 1: X on 1, controlled by 0", &x1);
    bad.arrive("record 0 once more", &h);
    bad.arrive("record 2: X on 2, controlled by 1", &x2);
    bad.arrive("record 2 again", &x2);
    for (i, (re, im)) in bad.reals.iter().zip(&bad.imags).enumerate() {
        println!("A {i} {re:.6} {:016x} {im:.6} {:016x}", re.to_bits(), im.to_bits());
    }
    bad.arrive("record 3: 2 measured, 1 forced", &m);
    bad.arrive("record 3 again, the answer lost", &m);
    bad.arrive("record 2 once more", &x2);
    println!("the value that the session keeps: {}", bad.session.value().expect("the last record measured"));
    println!("the mark over the four records: {:08x}", bad.session.mark());

    let mut good = State::start();
    for record in [&h, &x1, &x2, &m] {
        good.deliver(record);
    }
    let same = good.session == bad.session && good.bits() == bad.bits();
    println!("the same records, once each and in order: {}", if same { "the same bits" } else { "OTHER BITS" });
    if same {
        ExitCode::SUCCESS
    } else {
        ExitCode::FAILURE
    }
}
