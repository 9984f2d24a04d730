//! Timing two sides in one run.
use std::time::Instant;

/// A side's one call.
pub type Side<'a> = &'a mut dyn FnMut();

fn seconds(side: Side, turns: u32) -> f64 {
    let start = Instant::now();
    for _ in 0..turns {
        side();
    }
    start.elapsed().as_secs_f64() / f64::from(turns)
}

/// A round lasts at least this long, so that the clock does not count.
const ROUND: f64 = 2e-4;

/// Both sides together may take about this long.
const BUDGET: f64 = 0.02;

/// Seconds of one call on each side: the best of several rounds, in which the two alternate.
pub fn time_both(ours: Side, theirs: Side) -> (f64, f64) {
    let once = seconds(ours, 1).max(seconds(theirs, 1));
    let turns = ((ROUND / once) as u32).max(1);
    let rounds = ((BUDGET / (once * f64::from(turns) * 2.0)) as u32).clamp(5, 200);
    let (mut a, mut b) = (f64::MAX, f64::MAX);
    for _ in 0..rounds {
        a = a.min(seconds(ours, turns));
        b = b.min(seconds(theirs, turns));
    }
    (a, b)
}

/// Ratios, ours divided by theirs, each with its case.
#[derive(Default)]
pub struct Ratios(Vec<(String, f64)>);

impl Ratios {
    pub fn push(&mut self, case: String, ratio: f64) {
        self.0.push((case, ratio));
    }

    pub fn is_empty(&self) -> bool {
        self.0.is_empty()
    }

    /// The geometric mean.
    pub fn mean(&self) -> f64 {
        (self.0.iter().map(|(_, ratio)| ratio.ln()).sum::<f64>() / self.0.len() as f64).exp()
    }

    pub fn worst(&self) -> (String, f64) {
        self.0.iter().max_by(|a, b| a.1.total_cmp(&b.1)).cloned().unwrap_or_default()
    }

    pub fn over(&self, limit: f64) -> usize {
        self.0.iter().filter(|(_, ratio)| *ratio > limit).count()
    }

    pub fn len(&self) -> usize {
        self.0.len()
    }

    pub fn extend(&mut self, other: &Ratios) {
        self.0.extend(other.0.iter().cloned());
    }
}

/// The mean, or nothing where there is no case.
pub fn mean_of(ratios: &Ratios) -> String {
    if ratios.is_empty() {
        String::new()
    } else {
        format!("{:.2}", ratios.mean())
    }
}
