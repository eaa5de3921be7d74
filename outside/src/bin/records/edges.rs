//! What is just taken and just refused by the encoder and both stages, and the order of the refusals. Number and place of each refusal
//! stand here, from document 01, "Refusals, by their cause"; the second implementation is held to them and gives the rest of the answers.

use crate::call::Call;
use crate::sheet::Sheet;
use outside::reference::Code;

/// The greatest number that a record can have.
const GREATEST: usize = u64::MAX as usize;

pub fn add(sheet: &mut Sheet) {
    sheet.part("encode: the least and the greatest m, t and n, and one beyond each");
    encode_settings(sheet);
    sheet.part("encode: lengths, and bytes above 1");
    encode_words(sheet);
    sheet.part("encode: the order of the refusals, where a call has several causes");
    encode_order(sheet);
    sheet.part("hard: the least and the greatest m, t and n, and one beyond each");
    hard_settings(sheet);
    sheet.part("hard: lengths, and bytes above 1");
    hard_words(sheet);
    sheet.part("hard: the order of the refusals, where a call has several causes");
    hard_order(sheet);
    sheet.part("soft: the least and the greatest m, t, n and depth, and some beyond");
    soft_settings(sheet);
    sheet.part("soft: lengths, and symbols above 31");
    soft_words(sheet);
    sheet.part("soft: the order of the refusals, where a call has several causes");
    soft_order(sheet);
    // Of these records six are not refused.
    assert_eq!(sheet.totals(), "6 3 1 2 76");
}

fn encode(m: usize, t: usize, n: usize, message: &[u8], room: usize) -> Call<'_> {
    Call::Encode { code: Code::new(m, t, n), message, room }
}

fn hard(m: usize, t: usize, n: usize, bits: &[u8], room: usize) -> Call<'_> {
    Call::Hard { code: Code::new(m, t, n), bits, room }
}

fn soft(m: usize, t: usize, n: usize, depth: usize, symbols: &[u8], room: usize) -> Call<'_> {
    Call::Soft { code: Code::new(m, t, n), depth, symbols, room }
}

fn encode_settings(sheet: &mut Sheet) {
    sheet.refused("encode m 4", encode(4, 1, 6, &[1; 2], 6), 1, 0);
    sheet.refused("encode m 9", encode(9, 1, 10, &[1], 10), 1, 0);
    sheet.refused("encode m greatest", encode(GREATEST, 1, 6, &[1], 6), 1, 0);
    sheet.refused("encode t 0", encode(5, 0, 6, &[1; 6], 6), 2, 0);
    sheet.refused("encode t 4", encode(5, 4, 21, &[1], 21), 2, 0);
    sheet.refused("encode t greatest", encode(5, GREATEST, 6, &[1], 6), 2, 0);
    sheet.refused("encode n 5", encode(5, 1, 5, &[], 5), 3, 0);
    sheet.taken("encode n 6", encode(5, 1, 6, &[1], 6));
    sheet.taken("encode n 31", encode(5, 1, 31, &[1; 26], 31));
    sheet.refused("encode n 32", encode(5, 1, 32, &[1; 27], 32), 3, 0);
    sheet.refused("encode n greatest", encode(5, 1, GREATEST, &[1], 6), 3, 0);
}

fn encode_words(sheet: &mut Sheet) {
    sheet.refused("encode message one short", encode(5, 1, 6, &[], 6), 6, 0);
    sheet.refused("encode message one long", encode(5, 1, 6, &[1; 2], 6), 6, 0);
    sheet.refused("encode codeword one short", encode(5, 1, 6, &[1], 5), 7, 0);
    sheet.refused("encode codeword one long", encode(5, 1, 6, &[1], 7), 7, 0);
    sheet.refused("encode byte 2 at 3", encode(5, 1, 10, &[0, 1, 0, 2, 1], 10), 8, 3);
}

/// The call has the causes of all six, and then one less at a time.
fn encode_order(sheet: &mut Sheet) {
    sheet.refused("encode causes 1 to 8", encode(9, 4, 32, &[2; 3], 7), 1, 0);
    sheet.refused("encode causes 2 to 8", encode(5, 4, 32, &[2; 3], 7), 2, 0);
    sheet.refused("encode causes 3 to 8", encode(5, 1, 32, &[2; 3], 7), 3, 0);
    sheet.refused("encode causes 6 to 8", encode(5, 1, 7, &[2; 3], 8), 6, 0);
    sheet.refused("encode causes 7 and 8", encode(5, 1, 7, &[0, 2], 8), 7, 0);
    sheet.refused("encode cause 8", encode(5, 1, 7, &[0, 2], 7), 8, 1);
    sheet.taken("encode no cause", encode(5, 1, 7, &[0, 1], 7));
}

fn hard_settings(sheet: &mut Sheet) {
    sheet.refused("hard m 4", hard(4, 1, 6, &[0; 6], 6), 1, 0);
    sheet.refused("hard m 9", hard(9, 1, 10, &[0; 10], 10), 1, 0);
    sheet.refused("hard m greatest", hard(GREATEST, 1, 6, &[0; 6], 6), 1, 0);
    sheet.refused("hard t 0", hard(5, 0, 6, &[0; 6], 6), 2, 0);
    sheet.refused("hard t 4", hard(5, 4, 21, &[0; 21], 21), 2, 0);
    sheet.refused("hard t greatest", hard(5, GREATEST, 6, &[0; 6], 6), 2, 0);
    sheet.refused("hard n 5", hard(5, 1, 5, &[0; 5], 5), 3, 0);
    sheet.taken("hard n 6", hard(5, 1, 6, &[0; 6], 6));
    sheet.taken("hard n 31", hard(5, 1, 31, &[1; 31], 31));
    sheet.refused("hard n 32", hard(5, 1, 32, &[0; 32], 32), 3, 0);
    sheet.refused("hard n greatest", hard(5, 1, GREATEST, &[0; 6], 6), 3, 0);
}

fn hard_words(sheet: &mut Sheet) {
    sheet.refused("hard bits one short", hard(5, 1, 6, &[0; 5], 6), 6, 0);
    sheet.refused("hard bits one long", hard(5, 1, 6, &[0; 7], 6), 6, 0);
    sheet.refused("hard codeword one short", hard(5, 1, 6, &[0; 6], 5), 7, 0);
    sheet.refused("hard codeword one long", hard(5, 1, 6, &[0; 6], 7), 7, 0);
    sheet.refused("hard byte 2 at 3", hard(5, 1, 6, &[1, 0, 1, 2, 0, 1], 6), 8, 3);
}

/// The same for the hard stage.
fn hard_order(sheet: &mut Sheet) {
    sheet.refused("hard causes 1 to 8", hard(9, 4, 32, &[2; 5], 7), 1, 0);
    sheet.refused("hard causes 2 to 8", hard(5, 4, 32, &[2; 5], 7), 2, 0);
    sheet.refused("hard causes 3 to 8", hard(5, 1, 32, &[2; 5], 7), 3, 0);
    sheet.refused("hard causes 6 to 8", hard(5, 1, 6, &[2; 5], 7), 6, 0);
    sheet.refused("hard causes 7 and 8", hard(5, 1, 6, &[0, 0, 255, 0, 2, 0], 7), 7, 0);
    sheet.refused("hard cause 8", hard(5, 1, 6, &[0, 0, 255, 0, 2, 0], 6), 8, 2);
    sheet.taken("hard no cause", hard(5, 1, 6, &[0, 0, 1, 0, 0, 0], 6));
}

fn soft_settings(sheet: &mut Sheet) {
    sheet.refused("m 4", soft(4, 1, 6, 2, &[0; 6], 6), 1, 0);
    sheet.refused("m 9", soft(9, 1, 10, 2, &[0; 10], 10), 1, 0);
    sheet.refused("m greatest", soft(GREATEST, 1, 6, 2, &[0; 6], 6), 1, 0);
    sheet.refused("t 0", soft(5, 0, 6, 2, &[0; 6], 6), 2, 0);
    sheet.refused("t 4", soft(5, 4, 21, 2, &[0; 21], 21), 2, 0);
    sheet.refused("t greatest", soft(5, GREATEST, 6, 2, &[0; 6], 6), 2, 0);
    sheet.refused("n 5", soft(5, 1, 5, 2, &[0; 5], 5), 3, 0);
    sheet.taken("n 6", soft(5, 1, 6, 2, &[17; 6], 6));
    sheet.taken("n 31", soft(5, 1, 31, 2, &[17; 31], 31));
    sheet.refused("n 32", soft(5, 1, 32, 2, &[0; 32], 32), 3, 0);
    sheet.refused("n 24 of m 8, t 3", soft(8, 3, 24, 2, &[0; 24], 24), 3, 0);
    sheet.taken("n 25 of m 8, t 3", soft(8, 3, 25, 2, &[1; 25], 25));
    sheet.refused("n greatest", soft(5, 1, GREATEST, 2, &[0; 6], 6), 3, 0);
    sheet.taken("depth 6", soft(5, 1, 6, 6, &[17, 17, 1, 17, 17, 1], 6));
    sheet.refused("depth 7", soft(5, 1, 6, 7, &[17, 17, 1, 17, 17, 1], 6), 4, 0);
    sheet.refused("depth greatest", soft(5, 1, 6, GREATEST, &[0; 6], 6), 4, 0);
}

fn soft_words(sheet: &mut Sheet) {
    sheet.refused("no symbols", soft(5, 1, 6, 2, &[], 6), 6, 0);
    sheet.refused("symbols one short", soft(5, 1, 6, 2, &[0; 5], 6), 6, 0);
    sheet.refused("symbols one long", soft(5, 1, 6, 2, &[0; 7], 6), 6, 0);
    sheet.refused("codeword one short", soft(5, 1, 6, 2, &[0; 6], 5), 7, 0);
    sheet.refused("codeword one long", soft(5, 1, 6, 2, &[0; 6], 7), 7, 0);
    sheet.taken("symbols 31", soft(5, 1, 6, 2, &[31; 6], 6));
    sheet.refused("symbol 32 first", soft(5, 1, 6, 2, &[32, 0, 0, 0, 0, 0], 6), 9, 0);
    sheet.refused("symbol 32 last", soft(5, 1, 6, 2, &[0, 0, 0, 0, 0, 32], 6), 9, 5);
    sheet.refused("symbols 255, 32", soft(5, 1, 6, 2, &[31, 0, 255, 0, 32, 0], 6), 9, 2);
}

/// The call has the causes of all seven, and then one less at a time.
fn soft_order(sheet: &mut Sheet) {
    sheet.refused("causes 1 to 9", soft(9, 4, 32, 7, &[32; 5], 7), 1, 0);
    sheet.refused("causes 2 to 9", soft(5, 4, 32, 7, &[32; 5], 7), 2, 0);
    sheet.refused("causes 3 to 9", soft(5, 1, 32, 7, &[32; 5], 7), 3, 0);
    sheet.refused("causes 4 to 9", soft(5, 1, 6, 7, &[32; 5], 7), 4, 0);
    sheet.refused("causes 6 to 9", soft(5, 1, 6, 6, &[32; 5], 7), 6, 0);
    sheet.refused("causes 7 and 9", soft(5, 1, 6, 6, &[0, 0, 32, 0, 0, 0], 7), 7, 0);
    sheet.refused("cause 9", soft(5, 1, 6, 6, &[0, 0, 32, 0, 0, 0], 6), 9, 2);
    sheet.taken("no cause", soft(5, 1, 6, 6, &[0, 0, 31, 0, 0, 0], 6));
}
