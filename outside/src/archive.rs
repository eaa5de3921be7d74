//! The archive's calls as they are, with no check before them: slices go over as pointers and lengths, any numbers with them, and the number
//! that comes back is taken apart by the bytes that `bindings/receiver.h` tells.

use crate::answers::{Code, Found, Hard, Header, Refusal, Soft, Totals};
use bch_receiver::raw;

// Safety of all calls: pointers and lengths are those of slices, and one that is lent to be written overlaps no other.

pub fn encode(code: Code, message: &[u8], codeword: &mut [u8]) -> Result<(), Refusal> {
    let Code { m, t, n } = code;
    let (written, room) = (codeword.as_mut_ptr(), codeword.len());
    done(unsafe { raw::receiver_encode_packed(m, t, n, message.as_ptr(), message.len(), written, room) })
}

pub fn decode_hard(code: Code, bits: &[u8], codeword: &mut [u8]) -> Result<Hard, Refusal> {
    let Code { m, t, n } = code;
    let (written, room) = (codeword.as_mut_ptr(), codeword.len());
    let number = unsafe { raw::receiver_decode_hard_packed(m, t, n, bits.as_ptr(), bits.len(), written, room) };
    let (flips, positions) = (bytes(number, 1, 1), [bytes(number, 2, 2), bytes(number, 4, 2), bytes(number, 6, 2)]);
    match bytes(number, 0, 1) {
        0 if (flips, positions) == (0, [0; 3]) => Ok(Hard::Lost),
        1 => Ok(Hard::Found { flips, positions }),
        _ => Err(refusal(number)),
    }
}

pub fn decode_soft(code: Code, depth: usize, symbols: &[u8], codeword: &mut [u8]) -> Result<Soft, Refusal> {
    let Code { m, t, n } = code;
    let (written, room) = (codeword.as_mut_ptr(), codeword.len());
    let number = unsafe { raw::receiver_decode_soft_packed(m, t, n, depth, symbols.as_ptr(), symbols.len(), written, room) };
    let tries = bytes(number, 2, 1);
    let found = Found {
        distance: bytes(number, 4, 2),
        margin: bytes(number, 6, 2) as i32 - 32768,
        flips: bytes(number, 1, 1),
        place: bytes(number, 3, 1),
        tries,
    };
    match bytes(number, 0, 1) {
        0 if found == (Found { distance: 0, margin: 0, flips: 0, place: 0, tries }) => Ok(Soft::Lost { tries }),
        1 => Ok(Soft::Fair(found)),
        2 => Ok(Soft::Sure(found)),
        _ => Err(refusal(number)),
    }
}

pub fn check_ladder(edges: &[f32]) -> Result<(), Refusal> {
    done(unsafe { raw::receiver_check_ladder_packed(edges.as_ptr(), edges.len()) })
}

pub fn quantise(edges: &[f32], kinds: &[u8], levels: &[f32], symbols: &mut [u8]) -> Result<(), Refusal> {
    let (kinds, count) = (kinds.as_ptr(), kinds.len());
    let (written, room) = (symbols.as_mut_ptr(), symbols.len());
    done(unsafe { raw::receiver_quantise_packed(edges.as_ptr(), edges.len(), kinds, count, levels.as_ptr(), levels.len(), written, room) })
}

pub fn open_take(take: &[u8]) -> Result<Header, Refusal> {
    let number = unsafe { raw::receiver_open_take_packed(take.as_ptr(), take.len()) };
    match bytes(number, 0, 1) {
        0 => {
            let code = Code::new(bytes(number, 5, 1), bytes(number, 6, 1), bytes(number, 3, 2));
            Ok(Header { words: bytes(number, 1, 2), code, depth: bytes(number, 7, 1) })
        }
        _ => Err(refusal(number)),
    }
}

pub fn read_take(take: &[u8], messages: &mut [u8], marks: &mut [u8]) -> Result<Totals, Refusal> {
    let words = marks.len();
    let (written, room) = (messages.as_mut_ptr(), messages.len());
    let number = unsafe { raw::receiver_read_take_packed(take.as_ptr(), take.len(), written, room, marks.as_mut_ptr(), words) };
    totals(number, words)
}

pub fn strip_length(take: &[u8]) -> Result<usize, Refusal> {
    let number = unsafe { raw::receiver_strip_length_packed(take.as_ptr(), take.len()) };
    match bytes(number, 0, 1) {
        0 => Ok(bytes(number, 1, 7)),
        _ => Err(refusal(number)),
    }
}

pub fn print_take(take: &[u8], strip: &mut [u8]) -> Result<Totals, Refusal> {
    let (written, room) = (strip.as_mut_ptr(), strip.len());
    let number = unsafe { raw::receiver_print_take_packed(take.as_ptr(), take.len(), written, room) };
    let words = take.first().zip(take.get(1)).map_or(0, |(&low, &high)| usize::from(low) + 256 * usize::from(high));
    totals(number, words)
}

/// The totals of so many words that an answer tells.
fn totals(number: u64, words: usize) -> Result<Totals, Refusal> {
    match bytes(number, 0, 1) {
        0 => {
            let (sure, fair) = (bytes(number, 1, 2), bytes(number, 3, 2));
            Ok(Totals { words, sure, fair, lost: words.wrapping_sub(sure + fair), tries: bytes(number, 5, 3) })
        }
        _ => Err(refusal(number)),
    }
}

/// The number that so many bytes of an answer hold, from byte `first` on; byte 0 is the lowest.
fn bytes(number: u64, first: u32, count: u32) -> usize {
    (number >> (8 * first) & ((1 << (8 * count)) - 1)) as usize
}

/// Of a call that has nothing to tell but that it is done.
fn done(number: u64) -> Result<(), Refusal> {
    match number {
        0 => Ok(()),
        _ => Err(refusal(number)),
    }
}

/// The refusal that an answer tells. An answer that is neither one of the call's nor a refusal is told as refusal 0, which no other gives.
fn refusal(number: u64) -> Refusal {
    Refusal { number: (number as u8).saturating_sub(128), place: (number >> 8) as usize }
}
