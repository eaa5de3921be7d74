//! Strips, from request 3 of document 02: the results of a take in lines of 24 characters. The lines of some takes are written here by hand;
//! for the others the second implementation answers. Number and place of each refusal stand here too.

use crate::call::Call;
use crate::draw::Xorshift;
use crate::refused_takes::{faulty, ORDER};
use crate::sheet::Sheet;
use crate::take::Take;
use crate::takes::{alternating, round, EXAMPLE};
use crate::text::hex;
use crate::worked::E;
use outside::reference::{self, Code};

pub fn add(sheet: &mut Sheet) {
    sheet.part("strips: lines written by hand");
    add_by_hand(sheet);
    sheet.part("strips: a measuring round");
    add_round(sheet);
    sheet.part("strips: pages that are empty, one word short and full, and one word over");
    add_pages(sheet);
    sheet.part("strips: drawn, four words of every m, t and depth");
    add_drawn(sheet);
    sheet.part("strips: long takes");
    add_long(sheet);
    sheet.part("strips refused with 7");
    add_bad_rooms(sheet);
    sheet.part("strips of takes with one fault, with every two and with more: the first in the order of the checks counts");
    add_faults(sheet);
    sheet.part("strips: a take that is too long for the program");
    add_too_long(sheet);
}

/// How many bytes the strip of so many words has, on so many pages.
fn length(words: usize, pages: usize) -> usize {
    25 * (words + pages)
}

/// The three records of a take that is accepted: it is printed, asked for the length of its strip, and printed by the program.
fn add_strip(sheet: &mut Sheet, name: &str, take: &[u8], room: usize) {
    sheet.taken(name, Call::Print { take, room });
    let answer = sheet.call(Call::Length { take });
    assert_eq!(answer, format!("length {room}"), "{name}");
    let text = sheet.call(Call::Strip { take });
    assert_eq!(text.len() + 1, room, "{name}");
    count_strip(sheet, &text);
}

/// A take with its totals and the lines of its strip.
fn known(sheet: &mut Sheet, name: &str, take: &[u8], totals: &str, lines: &[&str]) {
    let text: String = lines.iter().map(|line| format!("{line}\n")).collect();
    assert!(lines.iter().all(|line| line.len() == 24), "{name}");
    sheet.heading(name);
    sheet.known(Call::Print { take, room: text.len() }, &format!("printed {totals} {}", hex(text.as_bytes())));
    sheet.known(Call::Length { take }, &format!("length {}", text.len()));
    sheet.known(Call::Strip { take }, text.trim_end_matches('\n'));
    count_strip(sheet, &text);
}

/// Counts a strip, and what its lines have.
fn count_strip(sheet: &mut Sheet, text: &str) {
    sheet.count("strips", 1);
    for line in text.lines().filter(|line| !line.starts_with('I')) {
        let fields: Vec<&str> = line.split_whitespace().collect();
        sheet.count(&format!("lines of strips, {}", fields[1]), 1);
        for (column, at) in [("index", 0), ("distance", 2), ("margin", 3), ("tries", 4)] {
            sheet.count(&format!("lines of strips, {column} {} wide", fields[at].len()), 1);
        }
    }
}

fn add_by_hand(sheet: &mut Sheet) {
    let heading = "INDEX MARK DIST MARGN TR";
    known(
        sheet,
        "strip of the example",
        &EXAMPLE,
        "2 1 0 1 2",
        &[
            heading, //
            "    0 sure    1     9  1",
            "    1 lost    0     0  1",
        ],
    );
    known(sheet, "strip of no words", &Take::new(E, 0, &[], &[]).bytes(), "0 0 0 0 0", &[heading]);
    // Code E at depth 4. Cases 10 and 9 of document 01. Bits 1 and 3, which no codeword has, are set and strong: lost. Case 5. No wrong bit,
    // and all z 15: A is 15 + 15 + 15. Bit 4, which no codeword has, set with z 15, and the other z are 1: L 15, and A 1 + 1.
    let symbols = [
        [17, 5, 5, 5, 5, 5],
        [25, 1, 2, 1, 1, 2],
        [1, 25, 1, 25, 1, 1],
        [17, 17, 5, 5, 5, 5],
        [15, 15, 15, 15, 15, 15],
        [1, 1, 1, 1, 31, 1],
    ];
    known(
        sheet,
        "strip of six words at depth 4",
        &Take::new(E, 4, b"by hand", &symbols.concat()).bytes(),
        "6 3 2 1 52",
        &[
            heading,
            "    0 sure    1     9  1",
            "    1 fair    4    -3 16",
            "    2 lost    0     0 16",
            "    3 sure    2     3  2",
            "    4 sure    0    45  1",
            "    5 fair   15   -13 16",
        ],
    );
    add_widest(sheet, heading);
}

/// The code m 8, t 3, n 25 has two codewords: none set, and the generator, {0, 2, 4, 5, 7, 8, 13, 15, 16, 17, 19, 20, 21, 23, 24}, eleven of
/// whose positions are not weak where all z are 15 and the depth is 6. Received are: none; 0 to 3 and three that are not weak, so that L is
/// 7·15, and A is 0 since q is d; 0 to 5 and the same three, L 9·15; and four that are not weak.
fn add_widest(sheet: &mut Sheet, heading: &str) {
    let code = Code::new(8, 3, 25);
    let word = |set: &[usize]| (0..25).map(|position| 15 + 16 * u8::from(set.contains(&position))).collect::<Vec<u8>>();
    let symbols = [word(&[]), word(&[0, 1, 2, 3, 9, 10, 11]), word(&[0, 1, 2, 3, 4, 5, 9, 10, 11]), word(&[9, 10, 11, 12])];
    known(
        sheet,
        "strip of four words of z 15 at depth 6",
        &Take::new(code, 6, &[], &symbols.concat()).bytes(),
        "4 1 2 1 193",
        &[
            heading, //
            "    0 sure    0   105  1",
            "    1 fair  105  -105 64",
            "    2 fair  135  -135 64",
            "    3 lost    0     0 64",
        ],
    );
}

/// The take of `examples/`.
fn add_round(sheet: &mut Sheet) {
    add_strip(sheet, "a measuring round, its strip", &round().bytes(), length(24, 1));
}

/// The last page has no words, one, 39 or 40.
fn add_pages(sheet: &mut Sheet) {
    let mut draw = Xorshift(3_000_017);
    let takes = [
        (5, 1, 0, 0, 1),
        (6, 2, 1, 3, 1),
        (5, 1, 39, 6, 1),
        (5, 2, 40, 2, 1),
        (6, 1, 41, 1, 2),
        (5, 3, 80, 4, 2),
        (6, 3, 81, 6, 3),
        (7, 2, 120, 0, 3),
        (5, 1, 121, 5, 4),
    ];
    for (m, t, words, depth, pages) in takes {
        let code = Code::new(m, t, m * t + 6);
        let symbols = alternating(&mut draw, code, depth, words);
        let label = draw.below(9);
        let take = Take::new(code, depth, &draw.bytes(label), &symbols).bytes();
        add_strip(sheet, &format!("strip, {words} words"), &take, length(words, pages));
    }
}

fn add_drawn(sheet: &mut Sheet) {
    let mut draw = Xorshift(2_000_003);
    for (m, t) in crate::codes() {
        for depth in 0..=6 {
            let code = Code::new(m, t, [m * t + 1, (m * t + (1 << m)) / 2, (1 << m) - 1][depth % 3]);
            let take = Take::new(code, depth, &[], &alternating(&mut draw, code, depth, 4)).bytes();
            sheet.taken(&format!("strip, m {m}, t {t}, n {}, depth {depth}", code.n), Call::Print { take: &take, room: length(4, 1) });
            count_strip(sheet, &reference::strip(&take));
        }
    }
}

/// About as many words as a record has room for, and as many as the program reads: its input has 65,536 bytes.
fn add_long(sheet: &mut Sheet) {
    let mut draw = Xorshift(8_000_009);
    let take = Take::new(E, 2, &[], &alternating(&mut draw, E, 2, 2550)).bytes();
    sheet.taken("strip, 2550 words", Call::Print { take: &take, room: length(2550, 64) });
    count_strip(sheet, &reference::strip(&take));

    let take = Take::new(E, 1, &draw.bytes(4), &alternating(&mut draw, E, 1, 10920)).bytes();
    assert_eq!(take.len(), 65536);
    sheet.heading("strip, 10920 words");
    let room = length(10920, 273);
    sheet.known(Call::Length { take: &take }, &format!("length {room}"));
    let text = sheet.call(Call::Strip { take: &take });
    assert_eq!(text.len() + 1, room);
    count_strip(sheet, &text);
}

/// A byte too few and too many, no room at all, and lengths that a wrong count of lines, pages or line feeds would give. A symbol above 31 is
/// told only where the length is right.
fn add_bad_rooms(sheet: &mut Sheet) {
    let mut draw = Xorshift(6_000_011);
    for (words, pages) in [(0, 1), (1, 1), (2, 1), (40, 1), (41, 2), (80, 2)] {
        let mut take = Take::new(E, 1, b"ab", &alternating(&mut draw, E, 1, words)).bytes();
        let right = length(words, pages);
        let rooms = [0, 1, right - 25, right - 24, right - 1, right + 1, right + 24, right + 25, 24 * (words + pages)];
        for room in rooms {
            sheet.refused(&format!("strip, {words} words, room for {room}"), Call::Print { take: &take, room }, 7, 0);
        }
        if words > 0 {
            let last = take.len() - 1;
            take[last] = 32;
            for room in [0, right - 1, right + 1] {
                sheet.refused(
                    &format!("strip, {words} words, the last symbol 32, room for {room}"),
                    Call::Print { take: &take, room },
                    7,
                    0,
                );
            }
            sheet.refused(&format!("strip, {words} words, the last symbol 32"), Call::Print { take: &take, room: right }, 9, last);
            sheet.refused(&format!("strip, {words} words, the last symbol 32, its length"), Call::Length { take: &take }, 9, last);
            sheet.refused(&format!("strip, {words} words, the last symbol 32, the program"), Call::Strip { take: &take }, 9, last);
        }
    }
}

/// No bytes; then each fault alone, every two at once, and three or more, in two forms, as with reading. The strip has three words and one page.
fn add_faults(sheet: &mut Sheet) {
    sheet.refused("strip, no bytes, no room", Call::Print { take: &[], room: 0 }, 12, 0);
    sheet.refused("strip, no bytes, room for a heading", Call::Print { take: &[], room: 25 }, 12, 0);
    sheet.refused("strip, no bytes, its length", Call::Length { take: &[] }, 12, 0);
    sheet.refused("strip, no bytes, the program", Call::Strip { take: &[] }, 12, 0);
    for (form, first_form) in [(1, true), (2, false)] {
        let mut add = |name: &str, faults: &[u8]| {
            let (take, _) = faulty(first_form, faults);
            let right = length(3, 1);
            let room = match (faults.contains(&7), first_form) {
                (true, true) => right + 1,
                (true, false) => right - 1,
                (false, _) => right,
            };
            sheet.heading(&format!("strip, {name}, form {form}"));
            let printed = sheet.call(Call::Print { take: &take, room });
            let told = sheet.call(Call::Length { take: &take });
            let text = sheet.call(Call::Strip { take: &take });
            // Without the strip's buffer there is no 7.
            let others = faults.iter().find(|&&fault| fault != 7);
            assert_eq!(number(&printed), faults.first().copied(), "{name}");
            assert_eq!(number(&told), others.copied(), "{name}");
            assert_eq!(number(&text), others.copied(), "{name}");
        };
        add("no fault", &[]);
        for (i, &first) in ORDER.iter().enumerate() {
            add(&format!("fault {first}"), &[first]);
            for &second in &ORDER[i + 1..] {
                add(&format!("faults {first} and {second}"), &[first, second]);
            }
        }
        for i in 0..ORDER.len() - 2 {
            add(&format!("all faults from {} on", ORDER[i]), &ORDER[i..]);
        }
    }
}

/// The number of an answer that is a refusal.
fn number(answer: &str) -> Option<u8> {
    answer.strip_prefix("refused ")?.split(' ').next()?.parse().ok()
}

/// A take that the calls accept.
fn add_too_long(sheet: &mut Sheet) {
    let mut draw = Xorshift(4_000_037);
    let code = Code::new(8, 3, 255);
    let take = Take::new(code, 0, &draw.bytes(245), &alternating(&mut draw, code, 0, 256)).bytes();
    assert_eq!(take.len(), 65537);
    sheet.heading("strip, 65537 bytes, 256 words");
    sheet.known(Call::Strip { take: &take }, "too long");
    sheet.known(Call::Length { take: &take }, "length 6575");
}
