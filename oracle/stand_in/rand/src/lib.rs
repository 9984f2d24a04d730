//! Debian's rand with one change: `thread_rng` hands out the draw that the judge has set, so that a bit flip can be compared.
pub use debian_rand::{Error, Rng, RngCore};
use std::cell::Cell;

thread_local! {
    static DRAW: Cell<u64> = const { Cell::new(0) };
}

/// The next draws of an f64 are all k / 2^53; k is below 2^53.
pub fn set_draw(k: u64) {
    DRAW.with(|draw| draw.set(k));
}

/// What `thread_rng` gives: rand makes an f64 of the upper 53 bits of a u64.
pub struct Injected;

pub fn thread_rng() -> Injected {
    Injected
}

impl RngCore for Injected {
    fn next_u32(&mut self) -> u32 {
        self.next_u64() as u32
    }

    fn next_u64(&mut self) -> u64 {
        DRAW.with(|draw| draw.get() << 11)
    }

    fn fill_bytes(&mut self, dest: &mut [u8]) {
        for chunk in dest.chunks_mut(8) {
            chunk.copy_from_slice(&self.next_u64().to_le_bytes()[..chunk.len()]);
        }
    }

    fn try_fill_bytes(&mut self, dest: &mut [u8]) -> Result<(), Error> {
        self.fill_bytes(dest);
        Ok(())
    }
}
