//! Takes that are accepted: document 01's example and worked cases, to whose texts the answers are held, a measuring round, and takes of
//! every m, t and depth and of many lengths, for which the second implementation answers. At the end some whose label is too long.

use crate::call::Call;
use crate::draw::Xorshift;
use crate::sheet::Sheet;
use crate::take::{clean, Take};
use crate::worked::{E, SOFT_CASES};
use outside::reference::{self, Code};

/// The take that document 01 prints.
pub const EXAMPLE: [u8; 24] = [
    0x02, 0x00, 0x05, 0x01, 0x06, 0x00, 0x00, 0x00, 0x0C, 0x00, 0x00, 0x00, //
    0x11, 0x05, 0x05, 0x05, 0x05, 0x05, 0x11, 0x11, 0x05, 0x05, 0x05, 0x05,
];

/// The output that it prints for it.
const EXAMPLE_LISTING: &str = "0 sure 1 9 1 0\n1 lost 0 0 1 -\n2 1 0 1 2";

pub fn add(sheet: &mut Sheet) {
    sheet.part("takes: the example and the worked cases of document 01");
    add_example(sheet);
    add_worked(sheet);
    sheet.part("takes: a measuring round, and its words one by one");
    add_round(sheet);
    sheet.part("one word of a take: what is refused");
    add_refused_words(sheet);
    sheet.part("takes: no words, and labels");
    add_labels(sheet);
    sheet.part("takes: what is just taken");
    add_edges(sheet);
    sheet.part("takes: drawn, three words of every m, t and depth");
    add_drawn(sheet);
    sheet.part("takes: as long as takelist reads, and longer");
    add_long(sheet);
}

fn add_example(sheet: &mut Sheet) {
    assert_eq!(sheet.add_take("example", &EXAMPLE, (2, 2)), None);
    assert_eq!(Call::List { take: &EXAMPLE }.answer(), EXAMPLE_LISTING);
    sheet.heading("example, its words");
    sheet.known(Call::Word { take: &EXAMPLE, index: 0, room: 6 }, "sure 1 9 1 0 1 000000000000");
    sheet.known(Call::Word { take: &EXAMPLE, index: 1, room: 6 }, "lost 1 070707070707");
}

/// The worked cases 5 to 10 as takes of one word.
fn add_worked(sheet: &mut Sheet) {
    for case in &SOFT_CASES {
        let take = Take::new(E, case.depth, &[], &case.symbols);
        sheet.accepted(case.name, &take);
        assert_eq!(Call::List { take: &take.bytes() }.answer(), case.listing, "{}", case.name);
        sheet.heading(&format!("{}, its word", case.name));
        sheet.known(Call::Word { take: &take.bytes(), index: 0, room: 6 }, case.answer);
    }
}

/// A measuring round as a studio might have it: 24 words of the (63, 51) code at depth 2. A message is a gauge's number in 7 bits and the
/// length that it measured, in tenths of a millimetre, in 20, lowest bit first. A bit is sent as the level 8 or -8; the noise is the
/// sum of draws of -1, 0 and 1, more of them the farther the gauge is. It is the take of `examples/`.
pub fn round() -> Take {
    let mut draw = Xorshift(1955);
    let code = Code::new(6, 2, 63);
    let mut symbols = Vec::new();
    for gauge in 1..=24 {
        let number = gauge + 128 * (6000 + draw.below(54000));
        let message: Vec<u8> = (0..51).map(|i| (number >> i & 1) as u8).collect();
        let draws = 12 + 10 * (gauge % 6);
        for bit in crate::codeword(code, &message) {
            let noise: i64 = (0..draws).map(|_| draw.below(3) as i64 - 1).sum();
            let level = noise + if bit == 0 { 8 } else { -8 };
            symbols.push(if level < 0 { 16 } else { 0 } + level.unsigned_abs().min(15) as u8);
        }
    }
    Take::new(code, 2, b"round of 24 gauges", &symbols)
}

/// It is accepted, and has words of each mark.
fn add_round(sheet: &mut Sheet) {
    let take = round();
    let bytes = take.bytes();
    sheet.accepted("a measuring round", &take);
    let (mut messages, mut marks) = (vec![0; take.room().0], vec![0; take.room().1]);
    reference::read_take(&bytes, &mut messages, &mut marks).expect("the round is accepted");
    assert!((0..3).all(|mark| marks.contains(&mark)));
    sheet.heading("a measuring round, its words");
    for index in 0..take.words {
        sheet.call(Call::Word { take: &bytes, index, room: take.n });
    }
}

/// A word that is not there, a buffer of the wrong length, both, and takes that do not open.
fn add_refused_words(sheet: &mut Sheet) {
    let word = |index, room| Call::Word { take: &EXAMPLE, index, room };
    sheet.refused("word 3 of 2", word(3, 6), 6, 0);
    sheet.refused("word 65536 of 2", word(65536, 6), 6, 0);
    sheet.refused("word greatest of 2", word(u64::MAX as usize, 6), 6, 0);
    sheet.refused("word 1, codeword one short", word(1, 5), 7, 0);
    sheet.refused("word 1, codeword one long", word(1, 7), 7, 0);
    sheet.refused("word 2 of 2, codeword one short", word(2, 5), 6, 0);
    sheet.refused("a take one byte short", Call::Word { take: &EXAMPLE[..23], index: 0, room: 6 }, 14, 0);
    let mut high = EXAMPLE;
    high[20] = 32;
    sheet.refused("word 0, symbol 32 in word 1", Call::Word { take: &high, index: 0, room: 6 }, 9, 20);
}

/// No words, and labels of several lengths with any bytes.
fn add_labels(sheet: &mut Sheet) {
    let mut draw = Xorshift(7_000_003);
    for (m, t, n, depth, label) in [(5, 1, 6, 0, 0), (5, 1, 6, 0, 1), (6, 2, 63, 3, 0), (7, 3, 22, 6, 300), (8, 3, 255, 6, 7)] {
        let take = Take::new(Code::new(m, t, n), depth, &draw.bytes(label), &[]);
        sheet.accepted(&format!("no words, n {n}, a label of {label}"), &take);
    }
    for label in [0, 1, 2, 11, 12, 13, 31, 32, 33, 243, 244, 255, 256, 257, 511, 1000] {
        let code = Code::new(5, 1, 8);
        let symbols = clean(&mut draw, code, 2);
        sheet.accepted(&format!("a label of {label}"), &Take::new(code, 1, &draw.bytes(label), &symbols));
    }
    for byte in [0, 7, 31, 32, 255] {
        let code = Code::new(5, 2, 12);
        let symbols = clean(&mut draw, code, 1);
        sheet.accepted(&format!("a label of four bytes {byte}"), &Take::new(code, 1, &[byte; 4], &symbols));
    }
}

/// What document 01 says is just taken; what is just not is among the takes that are refused.
fn add_edges(sheet: &mut Sheet) {
    let rising: Vec<u8> = (0..32).collect();
    sheet.accepted("n 6", &Take::new(E, 2, &[], &[17; 12]));
    sheet.accepted("n 31", &Take::new(Code::new(5, 1, 31), 2, &[], &[17; 62]));
    sheet.accepted("depth 6", &Take::new(E, 6, &[], &[17, 17, 1, 17, 17, 1]));
    sheet.accepted("symbols 31", &Take::new(E, 2, &[], &[31; 6]));
    sheet.accepted("symbols 0 to 31", &Take::new(Code::new(5, 1, 16), 2, &[], &rising));
}

/// The symbols of a word. Light noise flips up to t + 1 bits of a codeword and makes every second of them weaker. Heavy noise flips
/// t + 1 bits or more of a codeword with three reliabilities; or up to t + depth bits, made weak; or the word is any bits with any
/// reliabilities.
fn noisy(draw: &mut Xorshift, code: Code, depth: usize, heavy: bool) -> Vec<u8> {
    let Code { m, t, n } = code;
    let kind = if heavy { 1 + draw.below(3) } else { 0 };
    let (least, levels, flips, weaker) = match kind {
        0 => (3, 13, draw.below(t + 2), 2),
        1 => (1 + draw.below(8), 3, t + 1 + draw.below(t + 1), 1),
        2 => (4, 12, draw.below(t + depth + 1), 4),
        _ => (0, 16, 0, 1),
    };
    let bits = if kind < 3 { crate::codeword(code, &draw.bits(n - m * t)) } else { draw.bits(n) };
    let mut symbols: Vec<u8> = bits.iter().map(|bit| 16 * bit + (least + draw.below(levels)) as u8).collect();
    for i in 0..flips {
        let at = draw.below(n);
        let z = if kind == 0 && i % 2 == 0 { symbols[at] % 16 } else { symbols[at] % 16 / weaker };
        symbols[at] = 16 * (1 - symbols[at] / 16) + z;
    }
    symbols
}

/// The symbols of so many words, with light and heavy noise in turn.
pub fn alternating(draw: &mut Xorshift, code: Code, depth: usize, words: usize) -> Vec<u8> {
    (0..words).flat_map(|i| noisy(draw, code, depth, i % 2 == 1)).collect()
}

/// Three words of every m, t and depth, of the least, a middle and the greatest n, with light noise and with heavy. Three takes of
/// four have a label.
fn add_drawn(sheet: &mut Sheet) {
    let mut draw = Xorshift(1_000_003);
    for (m, t) in crate::codes() {
        for n in [m * t + 1, (m * t + (1 << m)) / 2, (1 << m) - 1] {
            for (depth, heavy) in (0..=6).flat_map(|depth| [(depth, false), (depth, true)]) {
                let code = Code::new(m, t, n);
                let symbols: Vec<u8> = (0..3).flat_map(|_| noisy(&mut draw, code, depth, heavy)).collect();
                let label = if draw.below(4) == 0 { 0 } else { draw.below(24) };
                let take = Take::new(code, depth, &draw.bytes(label), &symbols);
                let noise = if heavy { "heavy" } else { "light" };
                sheet.accepted(&format!("m {m}, t {t}, n {n}, depth {depth}, {noise}"), &take);
            }
        }
    }
}

/// Takes about as long as `takelist` reads, and the longest label.
fn add_long(sheet: &mut Sheet) {
    let mut draw = Xorshift(9_000_011);
    let code = Code::new(8, 1, 255);
    let symbols = alternating(&mut draw, code, 3, 256);
    let take = Take::new(code, 3, &draw.bytes(244), &symbols);
    assert_eq!(take.bytes().len(), 65536);
    sheet.accepted("65536 bytes", &take);

    let symbols = alternating(&mut draw, E, 1, 10920);
    let take = Take::new(E, 1, &draw.bytes(5), &symbols);
    assert_eq!(take.bytes().len(), 65537);
    sheet.accepted("65537 bytes", &take);

    sheet.accepted("a label of 65523", &Take::new(E, 0, &draw.bytes(65523), &[]));
    add_wrapped_offsets(sheet, &draw.bytes(65524));
}

/// Offsets that agree with the label length modulo 65,536 only. The first of these takes is refused, and too long for `takelist`.
fn add_wrapped_offsets(sheet: &mut Sheet, label: &[u8]) {
    let long = Take { offset: 0, ..Take::new(E, 0, label, &[0; 6]) };
    let short = Take { label: Vec::new(), symbols: Vec::new(), words: 2, ..long.clone() };
    let longest = Take { label_length: 65535, offset: 11, words: 0, ..short.clone() };
    sheet.refused_take("a label of 65524, offset 0", &long, 14, 0);
    sheet.refused_take("a label length of 65524, offset 0, 12 bytes", &short, 14, 0);
    sheet.refused_take("a label length of 65535, offset 11, 12 bytes", &longest, 14, 0);
}
