//! Sessions: however often a record comes, it is run once.
use crate::answers::{refusal, Refusal, Reply};
use crate::ffi;

/// n qubits, the session's number, the count of records taken, the value of the last of them, and the mark over their bytes. The state stands in
/// the caller's buffers.
///
/// Its eight words are all of it: kept beside the buffers they are the session again, in this process or a later one.
#[derive(Debug, PartialEq, Eq)]
pub struct Session {
    words: [u32; 8],
}

impl Session {
    /// n is 1 to 24.
    pub fn start(n: u32, number: u32) -> Result<Session, Refusal> {
        let mut words = [0; 8];
        match refusal(ffi::start(&mut words, n, number)) {
            Some(refused) => Err(refused),
            None => Ok(Session { words }),
        }
    }

    /// A session as it was saved: `words()` of then, beside the buffers as they were then. Its n is 1 to 24; the other words may be any.
    pub fn from_words(words: [u32; 8]) -> Result<Session, Refusal> {
        Session::start(words[0], words[1])?;
        Ok(Session { words })
    }

    /// n, the number, the count, 0 for no value or 1 more than the value, the mark, and three that later versions use.
    pub fn words(&self) -> [u32; 8] {
        self.words
    }

    /// One delivery: the bytes are read as a record and, if its number is the count, run on the state.
    pub fn deliver(&mut self, bytes: &[u8], reals: &mut [f64], imags: &mut [f64]) -> Reply {
        Reply::of(ffi::deliver(&mut self.words, bytes, reals, imags))
    }

    /// A piece of a stream: `Stream` keeps what is left of it.
    pub(crate) fn feed(&mut self, kept: &mut u32, held: &mut [u8; 97], piece: &[u8], used: &mut usize, reals: &mut [f64], imags: &mut [f64]) -> u32 {
        ffi::feed(&mut self.words, kept, held, piece, used, reals, imags)
    }

    pub fn n(&self) -> u32 {
        self.words[0]
    }

    pub fn number(&self) -> u32 {
        self.words[1]
    }

    /// How many records were taken.
    pub fn count(&self) -> u16 {
        self.words[2] as u16
    }

    /// The value of the last record taken, which `Reply::Again` tells for it: a measurement's outcome, or whether a bit flip ran.
    pub fn value(&self) -> Option<u8> {
        self.words[3].checked_sub(1).map(|value| value as u8)
    }

    /// The mark, by which two benches are compared without reading their logs. It starts at 0. For each byte of each record that is taken it is
    /// turned left by 5, and the byte is added, dropping any carry out of 32 bits: bytes 01 02 give 34, which is 22 in hex. The bytes are the
    /// record's, with its session and number, and not the frame's tag and length. Repeats and refusals do not move it.
    ///
    /// Different marks show that the lists of records taken differ. Equal marks prove nothing: as record 0 of session 7, X on qubit 0 with control 5
    /// (mask 00000020) and X on qubit 0 with control 8 (mask 00000100) both leave 55900256, since 01 turned left by 5 is 20; with the same records
    /// behind each, the two lists have one mark. A session saved from an archive that had no marks has one over what it took since.
    pub fn mark(&self) -> u32 {
        self.words[4]
    }
}

#[cfg(test)]
mod tests {
    use super::*;

    #[test]
    fn a_start_writes_every_word_or_none() {
        let mut words = [9; 8];
        for n in [0, 25, u32::MAX] {
            assert_eq!((ffi::start(&mut words, n, 7), words), (1, [9; 8]));
        }
        for n in [1, 24] {
            assert_eq!((ffi::start(&mut words, n, 7), words), (0, [n, 7, 0, 0, 0, 0, 0, 0]));
        }
    }
}
