//! Ladders, and the quantiser.
use crate::raw;
use crate::refusal::{answered, Refusal};

/// So many samples are handed over at once: at least as many as a word has.
const PART: usize = 256;

/// A ladder: fifteen edges, the first above zero and each above the one before. By them a level gets its reliability.
#[derive(Clone, Copy, Debug, PartialEq)]
pub struct Ladder {
    edges: [f32; 15],
}

impl Ladder {
    /// The ladder of these edges. Refuses with 5 where they are none.
    ///
    /// ```
    /// use bch_receiver::{Ladder, RefusalKind};
    ///
    /// assert_eq!(Ladder::new(&[0.5, 1.0]).unwrap_err().kind(), RefusalKind::Ladder);
    /// ```
    pub fn new(edges: &[f32]) -> Result<Ladder, Refusal> {
        // Safety: pointer and length are those of a slice.
        let number = unsafe { raw::receiver_check_ladder_packed(edges.as_ptr(), edges.len()) };
        answered(number)?;
        let mut ladder = Ladder { edges: [0.0; 15] };
        ladder.edges.copy_from_slice(edges);
        Ok(ladder)
    }

    /// Writes the symbol of each sample: a level that was heard, or none, which is a blank. A blank gives the symbol 0. A level below zero
    /// gives bit 1, otherwise bit 0, and its reliability is the number of edges that are at most its magnitude.
    ///
    /// Refuses with 7 where the symbols are not as many as the samples, and then with 11 for the first level that is not a number.
    ///
    /// ```
    /// # fn main() -> Result<(), bch_receiver::Refusal> {
    /// let edges: Vec<f32> = (1..=15u8).map(f32::from).collect();
    /// let mut symbols = [0; 4];
    /// bch_receiver::Ladder::new(&edges)?.quantise(&[Some(-2.5), Some(2.0), Some(16.0), None], &mut symbols)?;
    /// assert_eq!(symbols, [18, 2, 15, 0]);
    /// # Ok(())
    /// # }
    /// ```
    pub fn quantise(&self, samples: &[Option<f32>], symbols: &mut [u8]) -> Result<(), Refusal> {
        if symbols.len() != samples.len() {
            return Err(Refusal::new(7, 0));
        }
        // A refusal writes nothing. The archive sees to it in each part; where there are several, all go through it once before the first
        // of their symbols is written.
        if samples.len() > PART {
            let mut unused = [0; PART];
            for (i, samples) in samples.chunks(PART).enumerate() {
                self.quantise_part(i * PART, samples, &mut unused[..samples.len()])?;
            }
        }
        for (i, (samples, symbols)) in samples.chunks(PART).zip(symbols.chunks_mut(PART)).enumerate() {
            self.quantise_part(i * PART, samples, symbols)?;
        }
        Ok(())
    }

    /// Writes the symbols of at most `PART` samples, which begin at this position.
    fn quantise_part(&self, first: usize, samples: &[Option<f32>], symbols: &mut [u8]) -> Result<(), Refusal> {
        let (mut kinds, mut levels) = ([0; PART], [0.0; PART]);
        for ((kind, level), sample) in kinds.iter_mut().zip(&mut levels).zip(samples) {
            if let Some(heard) = *sample {
                (*kind, *level) = (1, heard);
            }
        }
        let count = samples.len();
        quantise(&self.edges, &kinds[..count], &levels[..count], symbols).map_err(|refusal| refusal.moved(first))
    }
}

/// Writes the symbol of each sample by the ladder of these edges, as [`Ladder::quantise`] does, from samples that are told as the archive takes
/// them: a kind for each, 0 blank or 1 heard, and a level, which is not looked at where the sample is blank.
///
/// Refuses with the first of 5, 6, 7 that applies, and then with 10 or 11 for the first sample that has a fault.
///
/// ```
/// use bch_receiver::{quantise, RefusalKind};
///
/// # fn main() -> Result<(), bch_receiver::Refusal> {
/// let edges: Vec<f32> = (1..=15u8).map(f32::from).collect();
/// let mut symbols = [0; 2];
/// quantise(&edges, &[1, 0], &[-2.5, 9.0], &mut symbols)?;
/// assert_eq!(symbols, [18, 0]);
/// let refusal = quantise(&edges, &[1, 2], &[-2.5, 9.0], &mut symbols).unwrap_err();
/// assert_eq!((refusal.kind(), refusal.place()), (RefusalKind::Kind, 1));
/// # Ok(())
/// # }
/// ```
pub fn quantise(edges: &[f32], kinds: &[u8], levels: &[f32], symbols: &mut [u8]) -> Result<(), Refusal> {
    let (kinds, count) = (kinds.as_ptr(), kinds.len());
    let (written, room) = (symbols.as_mut_ptr(), symbols.len());
    // Safety: pointers and lengths are those of slices, and one that is lent to be written overlaps no other.
    let number =
        unsafe { raw::receiver_quantise_packed(edges.as_ptr(), edges.len(), kinds, count, levels.as_ptr(), levels.len(), written, room) };
    answered(number).map(|_| ())
}
