//! The archive's one number as an answer: 0 taken, 1 to 255 a refusal, 256 AGAIN, 512 + v AGAIN with a value, 768 + v a value.
use std::error::Error;
use std::fmt;

/// Why a call did nothing, in the order of the rule book's table. Later versions have more of them.
#[derive(Clone, Copy, Debug, PartialEq, Eq, Hash)]
#[non_exhaustive]
pub enum Refusal {
    /// n is out of range.
    Size,
    /// A buffer is not of exactly the length that n asks.
    Length,
    /// Target, second qubit or a bit of the mask is n or more.
    Qubit,
    /// The target is a control.
    Same,
    /// More controls than this gate takes.
    Form,
    /// A supplied number is NaN or infinite, or outcome or reset is neither 0 nor 1.
    Number,
    /// The forced outcome's probability is NaN, infinite, zero or negative.
    Chance,
    /// The bytes, or the numbers, are not a record.
    Record,
    /// The record's session is another.
    Session,
    /// The record's number is above the count.
    Early,
    /// The record's number is 65,535.
    Full,
    /// The writer's buffer is too short.
    Room,
    /// A refusal that this version has no name for, with its number: the archive is a later one.
    Unknown(u8),
}

impl Refusal {
    /// The rule book's number.
    pub fn number(self) -> u8 {
        match self {
            Refusal::Size => 1,
            Refusal::Length => 2,
            Refusal::Qubit => 3,
            Refusal::Same => 4,
            Refusal::Form => 5,
            Refusal::Number => 6,
            Refusal::Chance => 7,
            Refusal::Record => 8,
            Refusal::Session => 9,
            Refusal::Early => 10,
            Refusal::Full => 11,
            Refusal::Room => 12,
            Refusal::Unknown(number) => number,
        }
    }

    /// The rule book's word.
    fn word(self) -> &'static str {
        match self {
            Refusal::Size => "SIZE",
            Refusal::Length => "LENGTH",
            Refusal::Qubit => "QUBIT",
            Refusal::Same => "SAME",
            Refusal::Form => "FORM",
            Refusal::Number => "NUMBER",
            Refusal::Chance => "CHANCE",
            Refusal::Record => "RECORD",
            Refusal::Session => "SESSION",
            Refusal::Early => "EARLY",
            Refusal::Full => "FULL",
            Refusal::Room => "ROOM",
            Refusal::Unknown(_) => "UNKNOWN",
        }
    }

    /// When it is given, in the rule book's words.
    fn reason(self) -> &'static str {
        match self {
            Refusal::Size => "n is out of range",
            Refusal::Length => "a buffer is not of exactly the length n asks",
            Refusal::Qubit => "target, second qubit or a bit of the mask is n or more",
            Refusal::Same => "the target is a control",
            Refusal::Form => "more controls than this gate takes",
            Refusal::Number => "a supplied number is NaN or infinite, or outcome or reset is neither 0 nor 1",
            Refusal::Chance => "the forced outcome's probability is NaN, infinite, zero or negative",
            Refusal::Record => "the bytes are not a record",
            Refusal::Session => "the record's session is another",
            Refusal::Early => "the record's number is above the count",
            Refusal::Full => "the record's number is 65,535",
            Refusal::Room => "the writer's buffer is too short",
            Refusal::Unknown(_) => "the archive is a later one than this crate",
        }
    }
}

/// As the table has it: `7 CHANCE: the forced outcome's probability is NaN, infinite, zero or negative`.
impl fmt::Display for Refusal {
    fn fmt(&self, f: &mut fmt::Formatter<'_>) -> fmt::Result {
        write!(f, "{} {}: {}", self.number(), self.word(), self.reason())
    }
}

impl Error for Refusal {}

/// What a kernel, a measurement or a matrix call answers.
#[derive(Clone, Copy, Debug, PartialEq, Eq)]
pub enum Answer {
    Taken,
    /// Taken, with the outcome of a measurement, or 1 where a bit flip ran.
    Value(u8),
    Refused(Refusal),
}

/// What a delivery says.
#[derive(Clone, Copy, Debug, PartialEq, Eq)]
pub enum Reply {
    Taken,
    /// Taken, with the outcome of a measurement, or 1 where a bit flip ran.
    Value(u8),
    /// The record was run before; nothing has changed. The value is that record's if it was the last one taken, and has one.
    Again(Option<u8>),
    Refused(Refusal),
}

const TAKEN: u32 = 0;
const AGAIN: u32 = 256;
const AGAIN_VALUE: u32 = 512;
const VALUE: u32 = 768;

/// 1 to 255, by its name if it has one.
pub(crate) fn refusal(number: u32) -> Option<Refusal> {
    use Refusal::*;
    let number = u8::try_from(number).ok().filter(|number| *number != 0)?;
    let named = [Size, Length, Qubit, Same, Form, Number, Chance, Record, Session, Early, Full, Room];
    Some(named.into_iter().find(|refusal| refusal.number() == number).unwrap_or(Unknown(number)))
}

impl Answer {
    pub(crate) fn of(number: u32) -> Answer {
        match refusal(number) {
            Some(refusal) => Answer::Refused(refusal),
            None if number == TAKEN => Answer::Taken,
            None => Answer::Value((number - VALUE) as u8),
        }
    }
}

impl Reply {
    pub(crate) fn of(number: u32) -> Reply {
        if (AGAIN..VALUE).contains(&number) {
            return Reply::Again(number.checked_sub(AGAIN_VALUE).map(|value| value as u8));
        }
        match Answer::of(number) {
            Answer::Taken => Reply::Taken,
            Answer::Value(value) => Reply::Value(value),
            Answer::Refused(refusal) => Reply::Refused(refusal),
        }
    }
}

#[cfg(test)]
mod tests {
    use super::*;

    #[test]
    fn refusals_named_and_unknown() {
        for number in 1..=255 {
            let Reply::Refused(refusal) = Reply::of(u32::from(number)) else { panic!("{number} is a refusal") };
            assert_eq!(refusal.number(), number);
            assert_eq!(refusal == Refusal::Unknown(number), number > 12, "{refusal:?}");
            assert_eq!(Answer::of(u32::from(number)), Answer::Refused(refusal));
        }
    }

    #[test]
    fn taken_again_and_values() {
        assert_eq!((Answer::of(0), Reply::of(0)), (Answer::Taken, Reply::Taken));
        assert_eq!(Reply::of(256), Reply::Again(None));
        for value in 0..=255 {
            let number = 768 + u32::from(value);
            assert_eq!((Answer::of(number), Reply::of(number)), (Answer::Value(value), Reply::Value(value)));
            assert_eq!(Reply::of(512 + u32::from(value)), Reply::Again(Some(value)));
        }
    }
}
