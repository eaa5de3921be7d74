//! Takes that are refused, by each cause, and by several at once. Number and place of each refusal stand here, from document 01, "Refusals,
//! by their cause"; the second implementation is held to them.

use crate::draw::Xorshift;
use crate::sheet::Sheet;
use crate::take::{clean, Room, Take};
use crate::worked::E;
use outside::reference::{Code, Refusal};

/// The checks in their order.
pub const ORDER: [u8; 9] = [12, 13, 1, 2, 3, 4, 14, 7, 9];

pub fn add(sheet: &mut Sheet) {
    sheet.part("takes refused with 12, 13, 1, 2, 3 and 4");
    add_bad_settings(sheet);
    sheet.part("takes refused with 14");
    add_bad_lengths(sheet);
    sheet.part("takes refused with 7");
    add_bad_rooms(sheet);
    sheet.part("takes refused with 9");
    add_bad_symbols(sheet);
    sheet.part("takes with one fault, with every two and with more: the first in the order of the checks counts");
    add_faults(sheet);
}

/// The take that is made wrong: three words of code E with a label.
fn base() -> Take {
    Take::new(E, 2, b"ab", &[17, 5, 5, 5, 5, 5, 17, 17, 5, 5, 5, 5, 25, 1, 2, 1, 1, 2])
}

fn refusal(number: u8) -> Refusal {
    Refusal { number, place: 0 }
}

fn add_bad_settings(sheet: &mut Sheet) {
    let base = base();
    for length in [0, 1, 2, 7, 8, 11] {
        sheet.refused_bytes(&format!("{length} bytes"), &base.bytes()[..length], base.room(), refusal(12));
    }
    sheet.refused_bytes("11 bytes, no buffers", &base.bytes()[..11], (0, 0), refusal(12));
    for zero in [1, 16, 128, 255] {
        sheet.refused_take(&format!("byte 7 is {zero}"), &base.with(|take| take.zero = zero), 13, 0);
    }
    for m in [4, 9, 0, 255] {
        sheet.refused_take(&format!("m {m}"), &base.with(|take| take.m = m), 1, 0);
    }
    for t in [0, 4, 255] {
        sheet.refused_take(&format!("t {t}"), &base.with(|take| take.t = t), 2, 0);
    }
    add_bad_n(sheet);
    for depth in [7, 8, 255] {
        sheet.refused_take(&format!("depth {depth}"), &base.with(|take| take.depth = depth), 4, 0);
    }
}

/// The n just below and just above what each m and t takes, and others.
fn add_bad_n(sheet: &mut Sheet) {
    for (m, t) in crate::codes() {
        for n in [m * t, 1 << m] {
            sheet.refused_take(&format!("m {m}, t {t}, n {n}"), &Take::new(Code::new(m, t, n), 2, &[], &vec![0; n]), 3, 0);
        }
    }
    for n in [0, 1, 5, 32, 255, 256, 65535] {
        sheet.refused_take(&format!("n {n}, no words"), &Take::new(E, 2, &[], &[]).with(|take| take.n = n), 3, 0);
    }
    for n in [256, 511, 65535] {
        sheet.refused_take(&format!("m 8, n {n}, no words"), &Take::new(Code::new(8, 1, 9), 2, &[], &[]).with(|take| take.n = n), 3, 0);
    }
}

fn add_bad_lengths(sheet: &mut Sheet) {
    let base = base();
    let mut refused = |name: &str, take: &Take| sheet.refused_take(name, take, 14, 0);
    refused("offset one less", &base.with(|take| take.offset -= 1));
    refused("offset one more", &base.with(|take| take.offset += 1));
    refused("offset one less, a byte less", &Take { offset: 13, label: vec![b'a'], ..base.clone() });
    refused("offset one more, a byte more", &Take { offset: 15, label: vec![b'a', b'b', 0], ..base.clone() });
    refused("offset 256 more", &base.with(|take| take.offset += 256));
    refused("label length one less", &base.with(|take| take.label_length -= 1));
    refused("label length one more", &base.with(|take| take.label_length += 1));
    refused("label a byte less", &base.with(|take| take.label.truncate(1)));
    refused("label a byte more", &base.with(|take| take.label.push(0)));
    refused("a symbol less", &base.with(|take| take.symbols.truncate(17)));
    refused("a symbol more", &base.with(|take| take.symbols.push(0)));
    refused("a word less", &base.with(|take| take.symbols.truncate(12)));
    refused("a word more", &base.with(|take| take.symbols.extend([0; 6])));
    refused("W one less", &base.with(|take| take.words -= 1));
    refused("W one more", &base.with(|take| take.words += 1));
    refused("W 0 before words", &base.with(|take| take.words = 0));
    refused("n one less", &Take::new(Code::new(5, 1, 8), 0, &[], &[0; 16]).with(|take| take.n = 7));
    let empty = Take::new(E, 0, &[], &[]);
    refused("no words, a byte more", &empty.with(|take| take.symbols.push(0)));
    refused("no words, offset 0", &empty.with(|take| take.offset = 0));
    refused("no words, offset 11", &empty.with(|take| take.offset = 11));
    refused("no words, offset 13", &empty.with(|take| take.offset = 13));
    refused("a label that is not there", &Take { offset: 22, label_length: 10, ..empty.clone() });
    let many = empty.with(|take| take.words = 65535).bytes();
    sheet.refused_bytes("W 65535 and 12 bytes", &many, (0, 0), refusal(14));
    // 12 + 2115·31 is 41 modulo 65,536.
    let wrapped = Take { words: 2115, symbols: vec![0; 29], ..Take::new(Code::new(5, 1, 31), 0, &[], &[]) }.bytes();
    sheet.refused_bytes("W 2115, n 31 and 41 bytes", &wrapped, (0, 0), refusal(14));
}

fn add_bad_rooms(sheet: &mut Sheet) {
    let code = Code::new(6, 1, 9);
    let take = Take::new(code, 1, b"abc", &clean(&mut Xorshift(5_000_011), code, 4));
    assert_eq!(take.room(), (12, 4));
    let rooms = [(11, 4), (13, 4), (0, 4), (12, 3), (12, 5), (12, 0), (11, 3), (13, 5), (0, 0), (4, 12), (36, 4), (12, 36)];
    for (messages, marks) in rooms {
        sheet.refused_bytes(&format!("room for {messages} and {marks}"), &take.bytes(), (messages, marks), refusal(7));
    }
    let empty = Take::new(E, 0, &[], &[]).bytes();
    for (messages, marks) in [(1, 0), (0, 1), (1, 1), (300, 300)] {
        sheet.refused_bytes(&format!("no words, room for {messages} and {marks}"), &empty, (messages, marks), refusal(7));
    }
}

fn add_bad_symbols(sheet: &mut Sheet) {
    for label in [0, 1, 20, 300] {
        let mut add = |name: &str, high: &[(usize, u8)]| {
            let mut take = Take::new(E, 2, &vec![200; label], &[1; 18]);
            high.iter().for_each(|&(at, symbol)| take.symbols[at] = symbol);
            sheet.refused_take(&format!("{name}, a label of {label}"), &take, 9, 12 + label + high[0].0);
        };
        add("symbol 32 first", &[(0, 32)]);
        add("symbol 32 at 7", &[(7, 32)]);
        add("symbol 32 last", &[(17, 32)]);
        add("symbol 255 first", &[(0, 255)]);
        add("symbol 255 at 11", &[(11, 255)]);
        add("symbol 255 last", &[(17, 255)]);
        add("symbols 32 at 5, 255 at 6", &[(5, 32), (6, 255)]);
        add("symbols 255 at 6, 32 at 17", &[(6, 255), (17, 32)]);
    }
    let mut symbols = vec![0; 255 * 3];
    symbols[700] = 64;
    sheet.refused_take("symbol 64 at 700", &Take::new(Code::new(8, 3, 255), 6, &[], &symbols), 9, 712);
    let high: Vec<u8> = (32..50).collect();
    sheet.refused_take("symbols all above 31", &Take::new(E, 2, &[], &high), 9, 12);
}

/// The base take with these faults, and its buffers' lengths. Of each fault there are two forms: with m and t too high, n too low, or
/// the other way round, and so on. A length that follows from n follows from the wrong n.
pub fn faulty(first_form: bool, faults: &[u8]) -> (Vec<u8>, Room) {
    let pick = |one: usize, other: usize| if first_form { one } else { other };
    let mut take = base();
    for fault in faults {
        match fault {
            13 => take.zero = pick(1, 255),
            1 => take.m = pick(9, 4),
            2 => take.t = pick(4, 0),
            3 => {
                take.n = pick(5, 300);
                take.symbols.resize(take.words * take.n, 0);
            }
            4 => take.depth = pick(7, 255),
            _ => {}
        }
    }
    if faults.contains(&9) {
        let at = pick(0, take.symbols.len() - 1);
        take.symbols[at] = pick(32, 255) as u8;
    }
    match (faults.contains(&14), first_form) {
        (true, true) => take.offset -= 1,
        (true, false) => take.symbols.push(0),
        (false, _) => {}
    }
    let (mut messages, mut marks) = take.room();
    if faults.contains(&7) {
        messages += pick(1, 0);
        marks -= pick(0, 1);
    }
    let mut bytes = take.bytes();
    if faults.contains(&12) {
        bytes.truncate(pick(11, 8));
    }
    (bytes, (messages, marks))
}

/// Each fault alone, every two at once, and three or more.
fn add_faults(sheet: &mut Sheet) {
    for (form, first_form) in [(1, true), (2, false)] {
        let mut add = |name: &str, faults: &[u8]| {
            let (bytes, room) = faulty(first_form, faults);
            let refusal = sheet.add_take(&format!("{name}, form {form}"), &bytes, room);
            assert_eq!(refusal.map(|refusal| refusal.number), faults.first().copied(), "{name}");
        };
        add("no fault", &[]);
        for (i, &first) in ORDER.iter().enumerate() {
            add(&format!("fault {first}"), &[first]);
            for &second in &ORDER[i + 1..] {
                add(&format!("faults {first} and {second}"), &[first, second]);
            }
        }
        for i in 0..ORDER.len() - 2 {
            add(&format!("all faults from {} on", ORDER[i]), &ORDER[i..]);
        }
    }
}
