//! The results of a take as a strip of text, to be printed.
use crate::raw;
use crate::refusal::{answered, Refusal};
use crate::take::Totals;
#[cfg(feature = "alloc")]
use alloc::{string::String, vec};
#[cfg(feature = "alloc")]
use core::fmt;

/// Checks a take whole and answers how many bytes its strip has: 25 for each of its words and for each page. There is a page for every 40
/// words begun, and one where there are no words.
///
/// Refuses as [`open_take`](crate::open_take) does, with the first of 12, 13, 1, 2, 3, 4, 14, 9 that applies.
///
/// ```
/// # fn main() -> Result<(), bch_receiver::Refusal> {
/// let take = [1, 0, 5, 1, 6, 0, 4, 0, 12, 0, 0, 0, 25, 1, 2, 1, 1, 2];
/// assert_eq!(bch_receiver::strip_length(&take)?, 50);
/// # Ok(())
/// # }
/// ```
pub fn strip_length(take: &[u8]) -> Result<usize, Refusal> {
    // Safety: pointer and length are those of a slice.
    let number = unsafe { raw::receiver_strip_length_packed(take.as_ptr(), take.len()) };
    answered(number).map(|number| (number >> 8) as usize)
}

/// Reads a take and writes its strip to a lent buffer, in ASCII: pages of a heading and up to 40 words, in lines of 24 characters and a line
/// feed. A word has its index, its mark, the distance, the margin and the tries, in columns of 5, 4, 4, 5 and 2, each filled from the left
/// with spaces, and one space between them; distance and margin of a lost word are 0. Answers the totals of
/// [`read_take`](crate::read_take). [`strip_length`] tells the buffer's length. `Strip::print`, of the feature `alloc`, has a text of its own.
///
/// Refuses with the first of 12, 13, 1, 2, 3, 4, 14, 7, 9 that applies; 7 where the buffer does not have exactly the strip's length.
///
/// ```
/// use bch_receiver::{print_take, Totals};
///
/// # fn main() -> Result<(), bch_receiver::Refusal> {
/// let take = [1, 0, 5, 1, 6, 0, 4, 0, 12, 0, 0, 0, 25, 1, 2, 1, 1, 2];
/// let mut strip = [0; 50];
/// assert_eq!(print_take(&take, &mut strip)?, Totals { words: 1, sure: 0, fair: 1, lost: 0, tries: 16 });
/// assert_eq!(&strip[..25], b"INDEX MARK DIST MARGN TR\n");
/// assert_eq!(&strip[25..], b"    0 fair    4    -3 16\n");
/// # Ok(())
/// # }
/// ```
pub fn print_take(take: &[u8], strip: &mut [u8]) -> Result<Totals, Refusal> {
    let (written, room) = (strip.as_mut_ptr(), strip.len());
    // Safety: pointers and lengths are those of slices, and the one that is lent to be written overlaps no other.
    let number = unsafe { raw::receiver_print_take_packed(take.as_ptr(), take.len(), written, room) };
    // A take that is not refused begins with its word count.
    answered(number).map(|number| Totals::told(usize::from(u16::from_le_bytes([take[0], take[1]])), number))
}

/// The strip of a take.
#[cfg(feature = "alloc")]
#[derive(Clone, Debug, PartialEq, Eq)]
pub struct Strip {
    text: String,
    totals: Totals,
}

#[cfg(feature = "alloc")]
impl Strip {
    /// Reads a take and lays its results out as [`print_take`] does.
    ///
    /// Refuses as [`strip_length`] does.
    ///
    /// ```
    /// use bch_receiver::Strip;
    ///
    /// # fn main() -> Result<(), bch_receiver::Refusal> {
    /// let strip = Strip::print(&[2, 0, 5, 1, 6, 0, 0, 0, 12, 0, 0, 0, 17, 5, 5, 5, 5, 5, 17, 17, 5, 5, 5, 5])?;
    /// let lines: Vec<&str> = strip.text().lines().collect();
    /// assert_eq!(lines, ["INDEX MARK DIST MARGN TR", "    0 sure    1     9  1", "    1 lost    0     0  1"]);
    /// assert_eq!(strip.totals().lost, 1);
    /// # Ok(())
    /// # }
    /// ```
    pub fn print(take: &[u8]) -> Result<Strip, Refusal> {
        let mut strip = vec![0; strip_length(take)?];
        let totals = print_take(take, &mut strip)?;
        Ok(Strip { text: String::from_utf8(strip).expect("a strip is ASCII"), totals })
    }

    /// Its text. Every line has 24 characters, and a line feed behind them.
    pub fn text(&self) -> &str {
        &self.text
    }

    /// Its text, to be kept.
    pub fn into_text(self) -> String {
        self.text
    }

    /// What the words of the take add up to.
    pub fn totals(&self) -> Totals {
        self.totals
    }
}

/// The text, with the line feed at its end.
#[cfg(feature = "alloc")]
impl fmt::Display for Strip {
    fn fmt(&self, f: &mut fmt::Formatter<'_>) -> fmt::Result {
        f.write_str(&self.text)
    }
}
