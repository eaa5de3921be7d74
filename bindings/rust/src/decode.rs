//! The hard and the soft stage.
use crate::code::Code;
use crate::raw;
use crate::refusal::{answered, Refusal};
use core::fmt;

/// What the hard stage answers.
#[derive(Clone, Copy, Debug, PartialEq, Eq)]
pub enum Hard {
    /// No codeword lies within t flips; the buffer is as it was.
    Lost,
    /// The codeword is in the buffer; it differs from the bits in these positions.
    Found(Flips),
}

/// The positions that the hard stage flipped, at most three.
#[derive(Clone, Copy, Debug, PartialEq, Eq)]
pub struct Flips {
    count: usize,
    positions: [usize; 3],
}

impl Flips {
    /// How many there are.
    pub const fn count(&self) -> usize {
        self.count
    }

    /// The positions, rising.
    pub fn positions(&self) -> &[usize] {
        &self.positions[..self.count]
    }

    /// The flips that the archive tells. There are no more than places, whatever the number says.
    fn told(number: u64) -> Flips {
        let count = usize::from((number >> 8) as u8).min(3);
        Flips { count, positions: [16, 32, 48].map(|shift| (number >> shift) as u16 as usize) }
    }
}

/// Writes the codeword within t flips of n bits, where there is one, and tells the positions that were flipped.
///
/// Refuses with the first of 6, 7, 8 that applies.
///
/// ```
/// use bch_receiver::{decode_hard, Code, Hard};
///
/// # fn main() -> Result<(), bch_receiver::Refusal> {
/// let code = Code::new(5, 1, 6)?;
/// let mut codeword = [7; 6];
/// assert_eq!(decode_hard(code, &[1, 1, 0, 0, 0, 0], &mut codeword)?, Hard::Lost);
/// assert_eq!(codeword, [7; 6]);
/// match decode_hard(code, &[1, 0, 1, 0, 0, 0], &mut codeword)? {
///     Hard::Found(flips) => assert_eq!(flips.positions(), [5]),
///     Hard::Lost => unreachable!(),
/// }
/// assert_eq!(codeword, [1, 0, 1, 0, 0, 1]);
/// # Ok(())
/// # }
/// ```
pub fn decode_hard(code: Code, bits: &[u8], codeword: &mut [u8]) -> Result<Hard, Refusal> {
    let (written, room) = (codeword.as_mut_ptr(), codeword.len());
    // Safety: pointers and lengths are those of slices, and one that is lent to be written overlaps no other.
    let number = unsafe { raw::receiver_decode_hard_packed(code.m(), code.t(), code.n(), bits.as_ptr(), bits.len(), written, room) };
    answered(number).map(|number| match number as u8 {
        0 => Hard::Lost,
        _ => Hard::Found(Flips::told(number)),
    })
}

/// How far the receiver trusts a word.
#[derive(Clone, Copy, Debug, PartialEq, Eq, Hash)]
pub enum Mark {
    /// The search found no codeword.
    Lost,
    /// Of the codewords that the search found this is the nearest.
    Fair,
    /// No codeword of the whole code is nearer.
    Sure,
}

impl Mark {
    /// The mark of a mark byte, as [`read_take`](crate::read_take) writes it: 0 lost, 1 fair, 2 sure.
    ///
    /// ```
    /// use bch_receiver::Mark;
    ///
    /// assert_eq!(Mark::from_byte(2), Some(Mark::Sure));
    /// assert_eq!(Mark::from_byte(3), None);
    /// ```
    pub const fn from_byte(byte: u8) -> Option<Mark> {
        match byte {
            0 => Some(Mark::Lost),
            1 => Some(Mark::Fair),
            2 => Some(Mark::Sure),
            _ => None,
        }
    }
}

impl fmt::Display for Mark {
    fn fmt(&self, f: &mut fmt::Formatter<'_>) -> fmt::Result {
        f.pad(match self {
            Mark::Lost => "lost",
            Mark::Fair => "fair",
            Mark::Sure => "sure",
        })
    }
}

/// The numbers of a codeword that the soft stage found.
#[derive(Clone, Copy, Debug, PartialEq, Eq)]
pub struct Found {
    /// The sum of the reliabilities of the bits that the codeword changes.
    pub distance: usize,
    /// Every other codeword has at least the distance plus this.
    pub margin: i32,
    /// How many bits the codeword changes.
    pub flips: usize,
    /// The test word that gave the codeword.
    pub place: usize,
    /// How many test words went to the hard stage.
    pub tries: usize,
}

/// What the soft stage answers.
#[derive(Clone, Copy, Debug, PartialEq, Eq)]
pub enum Soft {
    /// No test word gave a codeword; the buffer is as it was.
    Lost {
        /// How many test words went to the hard stage.
        tries: usize,
    },
    /// The codeword in the buffer is the nearest of those found.
    Fair(Found),
    /// No codeword of the whole code is nearer than the one in the buffer.
    Sure(Found),
}

impl Soft {
    /// The mark alone.
    pub const fn mark(&self) -> Mark {
        match self {
            Soft::Lost { .. } => Mark::Lost,
            Soft::Fair(_) => Mark::Fair,
            Soft::Sure(_) => Mark::Sure,
        }
    }
}

/// Writes the codeword that the search of the given depth, 0 to 6, finds for n symbols, where it finds one. A symbol is 16 times the bit
/// plus its reliability, 0 to 15. The search tries the 2^depth test words, in which the least reliable bits are as received or
/// flipped, until a codeword is sure.
///
/// Refuses with the first of 4, 6, 7, 9 that applies.
///
/// ```
/// use bch_receiver::{decode_soft, Code, Found, Soft};
///
/// # fn main() -> Result<(), bch_receiver::Refusal> {
/// let mut codeword = [7; 6];
/// let symbols = [16 + 9, 1, 2, 1, 1, 2];
/// let found = Found { distance: 4, margin: -3, flips: 2, place: 8, tries: 16 };
/// assert_eq!(decode_soft(Code::new(5, 1, 6)?, 4, &symbols, &mut codeword)?, Soft::Fair(found));
/// assert_eq!(codeword, [1, 0, 1, 0, 0, 1]);
/// # Ok(())
/// # }
/// ```
pub fn decode_soft(code: Code, depth: usize, symbols: &[u8], codeword: &mut [u8]) -> Result<Soft, Refusal> {
    let (m, t, n) = (code.m(), code.t(), code.n());
    let (written, room) = (codeword.as_mut_ptr(), codeword.len());
    // Safety: pointers and lengths are those of slices, and one that is lent to be written overlaps no other.
    let number = unsafe { raw::receiver_decode_soft_packed(m, t, n, depth, symbols.as_ptr(), symbols.len(), written, room) };
    answered(number).map(|number| {
        let found = Found {
            flips: (number >> 8) as u8 as usize,
            tries: (number >> 16) as u8 as usize,
            place: (number >> 24) as u8 as usize,
            distance: (number >> 32) as u16 as usize,
            margin: (number >> 48) as i32 - 32768,
        };
        match number as u8 {
            0 => Soft::Lost { tries: found.tries },
            1 => Soft::Fair(found),
            _ => Soft::Sure(found),
        }
    })
}

#[cfg(test)]
mod tests {
    use super::*;

    #[test]
    fn count_and_places() {
        let (none, first) = (Flips::told(1), Flips::told(1 | 1 << 8));
        assert_eq!((none.count(), none.positions()), (0, &[][..]));
        assert_eq!((first.count(), first.positions()), (1, &[0][..]));
        assert_ne!(none, first);
        let three = Flips::told(1 | 3 << 8 | 2 << 16 | 0x0102 << 32 | 0xfffe << 48);
        assert_eq!((three.count(), three.positions()), (3, &[2, 0x0102, 0xfffe][..]));
    }

    /// Whatever count the archive tells, the places are three.
    #[test]
    fn more_flips_than_places() {
        for count in 0..=255 {
            let flips = Flips::told(1 | count << 8);
            assert_eq!((flips.count(), flips.positions().len()), (count.min(3) as usize, count.min(3) as usize));
        }
    }
}
