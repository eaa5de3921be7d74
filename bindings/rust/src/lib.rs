//! A soft-decision receiver of binary BCH codes: an encoder, a hard stage, a soft stage (a Chase search), a quantiser, and the reading and
//! printing of takes, which are measuring rounds of many words. The calls are written in Rattle, a language in which every function is
//! proved to meet its contract, and stand in the archive `libreceiver_c.a`; this crate passes them on.
//!
//! For all inputs, of whatever bytes and lengths, a call answers as `docs/01-scope.md` of the repository says, with the requests of
//! `docs/02-change-requests.md` that landed, or gives a [`Refusal`] and writes nothing. In a take that is read, a word marked *sure* has no
//! nearer codeword in the whole code, one marked *fair* has none among those that the search could reach, and one is *lost* only where the
//! search could reach none.
//!
//! That is proved of the archive. What this crate adds is tested alone: it hands over pointers and takes the numbers apart that come back.
//!
//! # Building
//!
//! `tools/archive` makes the archive, and then `cargo test` in this folder is enough. The crate is linked with the archive in the folder
//! that the variable `RECEIVER_ARCHIVE` names by its absolute path, otherwise with that in `target/staticlib` of the repository. The
//! archive is for x86-64 with ELF.
//!
//! The crate needs no standard library and allocates nothing, but for two features, which are on unless `default-features = false` is asked
//! for: `alloc` has [`Take`] and [`Strip`], and `std`, which has `alloc` too, makes [`Refusal`] an error. The archive asks for `memcpy` and `memset`.
//!
//! # Example
//!
//! ```
//! use bch_receiver::{decode_hard, encode, Code, Hard};
//!
//! # fn main() -> Result<(), bch_receiver::Refusal> {
//! let code = Code::new(6, 2, 63)?; // 63 bits carry 51, and 2 flips are repaired
//! let message = [1; 51];
//! let mut sent = [0; 63];
//! encode(code, &message, &mut sent)?;
//!
//! let mut received = sent;
//! received[7] ^= 1;
//! received[40] ^= 1;
//! let mut codeword = [0; 63];
//! match decode_hard(code, &received, &mut codeword)? {
//!     Hard::Found(flips) => assert_eq!(flips.positions(), [7, 40]),
//!     Hard::Lost => unreachable!(),
//! }
//! assert_eq!(codeword, sent);
//! # Ok(())
//! # }
//! ```
#![no_std]
#![deny(missing_docs)]
#![warn(unsafe_op_in_unsafe_fn)]

#[cfg(feature = "alloc")]
extern crate alloc;
#[cfg(feature = "std")]
extern crate std;

mod code;
mod decode;
mod ladder;
#[doc(hidden)]
pub mod raw;
mod refusal;
mod strip;
mod take;

pub use code::{encode, Code};
pub use decode::{decode_hard, decode_soft, Flips, Found, Hard, Mark, Soft};
pub use ladder::{quantise, Ladder};
pub use refusal::{Refusal, RefusalKind};
#[cfg(feature = "alloc")]
pub use strip::Strip;
pub use strip::{print_take, strip_length};
#[cfg(feature = "alloc")]
pub use take::Take;
pub use take::{open_take, read_take, Header, Totals};
