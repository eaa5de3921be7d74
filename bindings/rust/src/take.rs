//! Takes.
use crate::code::Code;
#[cfg(feature = "alloc")]
use crate::decode::Mark;
use crate::raw;
use crate::refusal::{answered, Refusal};
#[cfg(feature = "alloc")]
use alloc::{vec, vec::Vec};

/// What the header of a take says.
#[derive(Clone, Copy, Debug, PartialEq, Eq)]
pub struct Header {
    /// How many words the take has.
    pub words: usize,
    /// The code of its words.
    pub code: Code,
    /// The depth of the search.
    pub depth: usize,
}

/// Checks a take whole and answers what its header says. A take's bytes, two-byte numbers with the low byte first: 0-1 the word count W,
/// 2 m, 3 t, 4-5 n, 6 the depth, 7 zero, 8-9 where the words begin, 10-11 the length of the label; then the label (any bytes), and W
/// times n symbols.
///
/// Refuses with the first of 12, 13, 1, 2, 3, 4, 14, 9 that applies.
///
/// ```
/// use bch_receiver::{open_take, Code, Header};
///
/// # fn main() -> Result<(), bch_receiver::Refusal> {
/// let take = [1, 0, 5, 1, 6, 0, 4, 0, 12, 0, 0, 0, 25, 1, 2, 1, 1, 2];
/// assert_eq!(open_take(&take)?, Header { words: 1, code: Code::new(5, 1, 6)?, depth: 4 });
/// # Ok(())
/// # }
/// ```
pub fn open_take(take: &[u8]) -> Result<Header, Refusal> {
    // Safety: pointer and length are those of a slice.
    let number = unsafe { raw::receiver_open_take_packed(take.as_ptr(), take.len()) };
    answered(number).map(|number| Header {
        words: (number >> 8) as u16 as usize,
        code: Code::told((number >> 40) as u8 as usize, (number >> 48) as u8 as usize, (number >> 24) as u16 as usize),
        depth: (number >> 56) as usize,
    })
}

/// What the words of a take add up to.
#[derive(Clone, Copy, Debug, PartialEq, Eq)]
pub struct Totals {
    /// How many there are: those that are sure, fair and lost.
    pub words: usize,
    /// How many are sure.
    pub sure: usize,
    /// How many are fair.
    pub fair: usize,
    /// How many are lost.
    pub lost: usize,
    /// The tries of all words.
    pub tries: usize,
}

impl Totals {
    /// The totals of so many words that an answer of the archive tells.
    pub(crate) fn told(words: usize, number: u64) -> Totals {
        let sure = (number >> 8) as u16 as usize;
        let fair = (number >> 24) as u16 as usize;
        Totals { words, sure, fair, lost: words - sure - fair, tries: (number >> 40) as usize }
    }
}

/// Reads a take into lent buffers: writes k message bytes for each of its W words (0 where the word is lost), and a mark byte, 0 lost, 1
/// fair, 2 sure. [`open_take`] tells W and k. `Take::read`, of the feature `alloc`, has buffers of its own.
///
/// Refuses with the first of 12, 13, 1, 2, 3, 4, 14, 7, 9 that applies; 7 where the buffers do not have exactly W k and W bytes.
///
/// ```
/// use bch_receiver::{read_take, Totals};
///
/// # fn main() -> Result<(), bch_receiver::Refusal> {
/// let take = [1, 0, 5, 1, 6, 0, 4, 0, 12, 0, 0, 0, 25, 1, 2, 1, 1, 2];
/// let (mut messages, mut marks) = ([7; 1], [7; 1]);
/// let totals = Totals { words: 1, sure: 0, fair: 1, lost: 0, tries: 16 };
/// assert_eq!(read_take(&take, &mut messages, &mut marks)?, totals);
/// assert_eq!((messages, marks), ([1], [1]));
/// # Ok(())
/// # }
/// ```
pub fn read_take(take: &[u8], messages: &mut [u8], marks: &mut [u8]) -> Result<Totals, Refusal> {
    let words = marks.len();
    let (written, room) = (messages.as_mut_ptr(), messages.len());
    // Safety: pointers and lengths are those of slices, and those that are lent to be written overlap no other.
    let number = unsafe { raw::receiver_read_take_packed(take.as_ptr(), take.len(), written, room, marks.as_mut_ptr(), words) };
    answered(number).map(|number| Totals::told(words, number))
}

/// A take that was read.
#[cfg(feature = "alloc")]
#[derive(Clone, Debug, PartialEq, Eq)]
pub struct Take {
    header: Header,
    totals: Totals,
    marks: Vec<Mark>,
    messages: Vec<u8>,
}

#[cfg(feature = "alloc")]
impl Take {
    /// Reads a take.
    ///
    /// Refuses as [`open_take`] does.
    ///
    /// ```
    /// use bch_receiver::{Mark, Take};
    ///
    /// # fn main() -> Result<(), bch_receiver::Refusal> {
    /// let take = Take::read(&[2, 0, 5, 1, 6, 0, 0, 0, 12, 0, 0, 0, 17, 5, 5, 5, 5, 5, 17, 17, 5, 5, 5, 5])?;
    /// assert_eq!(take.marks(), [Mark::Sure, Mark::Lost]);
    /// assert_eq!(take.message(0), Some(&[0][..]));
    /// assert_eq!(take.message(1), None);
    /// assert_eq!(take.totals().lost, 1);
    /// # Ok(())
    /// # }
    /// ```
    pub fn read(bytes: &[u8]) -> Result<Take, Refusal> {
        let header = open_take(bytes)?;
        let mut messages = vec![0; header.words * header.code.message_length()];
        let mut marks = vec![0; header.words];
        let totals = read_take(bytes, &mut messages, &mut marks)?;
        let marks = marks.into_iter().map(|byte| Mark::from_byte(byte).expect("a mark byte is 0, 1 or 2")).collect();
        Ok(Take { header, totals, marks, messages })
    }

    /// What its header says.
    pub fn header(&self) -> Header {
        self.header
    }

    /// What its words add up to.
    pub fn totals(&self) -> Totals {
        self.totals
    }

    /// The mark of each word.
    pub fn marks(&self) -> &[Mark] {
        &self.marks
    }

    /// The message bits of word i, counted from 0; none where the word is lost, or where the take has no such word.
    pub fn message(&self, i: usize) -> Option<&[u8]> {
        let k = self.header.code.message_length();
        match self.marks.get(i)? {
            Mark::Lost => None,
            _ => Some(&self.messages[i * k..][..k]),
        }
    }

    /// The mark and the message bits of each word, in their order.
    ///
    /// ```
    /// use bch_receiver::{Mark, Take};
    ///
    /// # fn main() -> Result<(), bch_receiver::Refusal> {
    /// let take = Take::read(&[2, 0, 5, 1, 6, 0, 0, 0, 12, 0, 0, 0, 17, 5, 5, 5, 5, 5, 17, 17, 5, 5, 5, 5])?;
    /// let words: Vec<_> = take.words().collect();
    /// assert_eq!(words, [(Mark::Sure, Some(&[0][..])), (Mark::Lost, None)]);
    /// # Ok(())
    /// # }
    /// ```
    pub fn words(&self) -> impl ExactSizeIterator<Item = (Mark, Option<&[u8]>)> {
        (0..self.marks.len()).map(move |i| (self.marks[i], self.message(i)))
    }
}
