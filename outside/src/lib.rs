//! What the programs of this crate share.

pub mod answers;
pub mod archive;
pub mod channel;
pub mod draw;
pub mod error_rates;
pub mod mark_tables;
pub mod reference;

/// The positions where two words of the same length differ.
pub fn differences<'a>(left: &'a [u8], right: &'a [u8]) -> impl Iterator<Item = usize> + 'a {
    (0..left.len()).filter(move |&position| left[position] != right[position])
}
