//! Why a call refused.
use core::fmt;

/// Why a call refused. No buffer was written.
///
/// ```
/// use bch_receiver::{decode_hard, Code, RefusalKind};
///
/// # fn main() -> Result<(), bch_receiver::Refusal> {
/// let refusal = decode_hard(Code::new(5, 1, 6)?, &[0, 0, 0, 9, 0, 0], &mut [0; 6]).unwrap_err();
/// assert_eq!(refusal.kind(), RefusalKind::Bit);
/// assert_eq!((refusal.number(), refusal.place()), (8, 3));
/// assert_eq!(refusal.to_string(), "refused 8 at 3: a bit is above 1");
/// # Ok(())
/// # }
/// ```
#[derive(Clone, Copy, Debug, PartialEq, Eq)]
pub struct Refusal {
    kind: RefusalKind,
    number: u8,
    place: usize,
}

impl Refusal {
    /// What the cause is.
    pub const fn kind(self) -> RefusalKind {
        self.kind
    }

    /// The number of the cause, as `docs/01-scope.md` has it.
    pub const fn number(self) -> u8 {
        self.number
    }

    /// The position of the bit, symbol, kind or level that is refused, in a take its offset in bytes; 0 for every other cause.
    pub const fn place(self) -> usize {
        self.place
    }

    pub(crate) const fn new(number: u8, place: usize) -> Refusal {
        Refusal { kind: RefusalKind::of(number), number, place }
    }

    /// The refusal of an input that begins at this position of a longer one.
    pub(crate) const fn moved(self, first: usize) -> Refusal {
        Refusal { place: first + self.place, ..self }
    }
}

impl fmt::Display for Refusal {
    fn fmt(&self, f: &mut fmt::Formatter<'_>) -> fmt::Result {
        write!(f, "refused {} at {}: {}", self.number, self.place, self.kind)
    }
}

#[cfg(feature = "std")]
impl std::error::Error for Refusal {}

/// The cause of a refusal; its number stands before it. Later versions may have more of them.
#[derive(Clone, Copy, Debug, PartialEq, Eq, Hash)]
#[non_exhaustive]
pub enum RefusalKind {
    /// 1: m is outside 5 to 8.
    M,
    /// 2: t is outside 1 to 3.
    T,
    /// 3: n is outside m t + 1 to 2^m - 1.
    N,
    /// 4: the depth is above 6.
    Depth,
    /// 5: the edges are not fifteen, the first above zero and each above the one before.
    Ladder,
    /// 6: an input does not have the length that the call needs.
    InputLength,
    /// 7: an output does not have exactly the length that the call writes.
    OutputLength,
    /// 8: a bit is above 1; the place is its position in its input.
    Bit,
    /// 9: a symbol is above 31; the place is its position, or its byte offset from a take's start.
    Symbol,
    /// 10: a kind is above 1; the place is its position.
    Kind,
    /// 11: a heard level is not a number; the place is its position.
    Level,
    /// 12: a take has fewer than 12 bytes.
    TakeHeader,
    /// 13: byte 7 of a take is not zero.
    TakeZero,
    /// 14: a take's words do not begin behind its label, or it does not end with its last symbol.
    TakeLength,
    /// A number that has no name here: the archive is newer than the crate.
    Unknown,
}

impl RefusalKind {
    const fn of(number: u8) -> RefusalKind {
        match number {
            1 => RefusalKind::M,
            2 => RefusalKind::T,
            3 => RefusalKind::N,
            4 => RefusalKind::Depth,
            5 => RefusalKind::Ladder,
            6 => RefusalKind::InputLength,
            7 => RefusalKind::OutputLength,
            8 => RefusalKind::Bit,
            9 => RefusalKind::Symbol,
            10 => RefusalKind::Kind,
            11 => RefusalKind::Level,
            12 => RefusalKind::TakeHeader,
            13 => RefusalKind::TakeZero,
            14 => RefusalKind::TakeLength,
            _ => RefusalKind::Unknown,
        }
    }
}

impl fmt::Display for RefusalKind {
    fn fmt(&self, f: &mut fmt::Formatter<'_>) -> fmt::Result {
        f.pad(match self {
            RefusalKind::M => "m is outside 5 to 8",
            RefusalKind::T => "t is outside 1 to 3",
            RefusalKind::N => "n is outside m t + 1 to 2^m - 1",
            RefusalKind::Depth => "the depth is over 6",
            RefusalKind::Ladder => "the edges are no ladder",
            RefusalKind::InputLength => "an input's length is not the one that the call needs",
            RefusalKind::OutputLength => "an output's length is not exact",
            RefusalKind::Bit => "a bit is above 1",
            RefusalKind::Symbol => "a symbol is above 31",
            RefusalKind::Kind => "a kind is above 1",
            RefusalKind::Level => "a heard level is not a number",
            RefusalKind::TakeHeader => "a take has fewer than 12 bytes",
            RefusalKind::TakeZero => "byte 7 of a take is not zero",
            RefusalKind::TakeLength => "a take's offset or length is wrong",
            RefusalKind::Unknown => "unknown cause",
        })
    }
}

/// The number that the archive answers, where it is no refusal: a refusal's lowest byte is 128 plus its number, and its place stands above.
pub(crate) fn answered(number: u64) -> Result<u64, Refusal> {
    match number as u8 {
        low if low >= 128 => Err(Refusal::new(low - 128, (number >> 8) as usize)),
        _ => Ok(number),
    }
}

#[cfg(test)]
mod tests {
    use super::*;

    #[test]
    fn number_without_a_name() {
        let refusal = answered(7 << 8 | (128 + 15)).unwrap_err();
        assert_eq!((refusal.kind(), refusal.number(), refusal.place()), (RefusalKind::Unknown, 15, 7));
        assert_eq!(answered(7 << 8 | 127), Ok(7 << 8 | 127));
    }
}
