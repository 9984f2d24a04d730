//! A call that both sides can run: a gate, a measurement or a bit flip on a state of n qubits.
use std::fmt;

/// Angles are whole, in radians; each side makes of them what it needs. A flip's draw is k / 2^53.
#[derive(Clone, Copy)]
pub enum Gate {
    H,
    X,
    Y,
    Z,
    P(f64),
    Rx(f64),
    Ry(f64),
    Rz(f64),
    U(f64, f64, f64),
    Swap(u32),
    Measure(u8, u8),
    BitFlip(f64, u64),
}

#[derive(Clone)]
pub struct Call {
    pub gate: Gate,
    pub n: u32,
    pub target: u32,
    pub controls: Vec<u32>,
}

impl Gate {
    pub fn name(&self) -> &'static str {
        match self {
            Gate::H => "H",
            Gate::X => "X",
            Gate::Y => "Y",
            Gate::Z => "Z",
            Gate::P(_) => "P",
            Gate::Rx(_) => "RX",
            Gate::Ry(_) => "RY",
            Gate::Rz(_) => "RZ",
            Gate::U(..) => "U",
            Gate::Swap(_) => "SWAP",
            Gate::Measure(..) => "measure",
            Gate::BitFlip(..) => "bit flip",
        }
    }

    /// The numbers that the port is fed: the cosines and sines that the Rust works out inside, by the same calls.
    pub fn numbers(&self) -> Vec<f64> {
        match *self {
            Gate::P(angle) => cosine_and_sine(angle),
            Gate::Rx(angle) | Gate::Ry(angle) | Gate::Rz(angle) => cosine_and_sine(angle * 0.5),
            Gate::U(theta, phi, lambda) => [theta * 0.5, lambda, phi + lambda, phi].into_iter().flat_map(cosine_and_sine).collect(),
            Gate::BitFlip(prob, k) => vec![prob, k as f64 / 2f64.powi(53)],
            _ => vec![],
        }
    }
}

fn cosine_and_sine(angle: f64) -> Vec<f64> {
    let (sine, cosine) = f64::sin_cos(angle);
    vec![cosine, sine]
}

impl Call {
    pub fn ones(&self) -> u32 {
        self.controls.iter().map(|c| 1 << c).sum()
    }
}

impl fmt::Display for Call {
    fn fmt(&self, f: &mut fmt::Formatter<'_>) -> fmt::Result {
        write!(f, "{} n={} target={}", self.gate.name(), self.n, self.target)?;
        match self.gate {
            Gate::Swap(second) => write!(f, " second={second}")?,
            Gate::Measure(outcome, reset) => write!(f, " outcome={outcome} reset={reset}")?,
            _ => {}
        }
        if !self.controls.is_empty() {
            write!(f, " controls={:?}", self.controls)?;
        }
        Ok(())
    }
}
