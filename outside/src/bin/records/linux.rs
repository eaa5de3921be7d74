//! The answers of an outside decoder, Linux 6.1's lib/bch.c. A line of its file is `m t n received decoded`, with position 0 first, and
//! `lost` for `decoded` where Linux found no codeword. The answers are these words, with the positions in which the two differ; that these
//! are the flips, and that a lost word leaves the buffer's bytes, is document 01's.

use crate::call::{Call, UNTOUCHED};
use crate::sheet::Sheet;
use crate::text::hex;
use outside::differences;
use outside::reference::Code;

const FILE: &str = include_str!("../../../data/linux-6.1-bch.txt");

/// One word that Linux was given, and the codeword that it found.
struct Line {
    code: Code,
    received: Vec<u8>,
    decoded: Option<Vec<u8>>,
}

/// The line of this text; there is none where the text is no such line.
fn line(text: &str) -> Option<Line> {
    let fields: Vec<&str> = text.split(' ').collect();
    match fields[..] {
        [m, t, n, received, decoded] => {
            let code = Code::new(m.parse().ok()?, t.parse().ok()?, n.parse().ok()?);
            let decoded = if decoded == "lost" { None } else { Some(bits(decoded, code.n)?) };
            Some(Line { code, received: bits(received, code.n)?, decoded })
        }
        _ => None,
    }
}

/// The bits of a word of this length.
fn bits(word: &str, n: usize) -> Option<Vec<u8>> {
    let bits: Vec<u8> = word.chars().map(|digit| digit.to_digit(2).map(|bit| bit as u8)).collect::<Option<_>>()?;
    Some(bits).filter(|bits| bits.len() == n)
}

pub fn add(sheet: &mut Sheet) {
    sheet.part("the words and answers of Linux 6.1's lib/bch.c; a word that it found is encoded again from its message");
    let lines: Vec<Line> = FILE.lines().map(|text| line(text).unwrap_or_else(|| panic!("no word of Linux's: {text}"))).collect();
    for (m, t) in crate::codes() {
        let lines: Vec<&Line> = lines.iter().filter(|line| (line.code.m, line.code.t) == (m, t)).collect();
        let found = lines.iter().filter(|line| line.decoded.is_some()).count();
        sheet.heading(&format!("m {m}, t {t}: {} words, {found} found, {} lost", lines.len(), lines.len() - found));
        lines.iter().for_each(|line| add_word(sheet, line));
    }
    sheet.count("words of Linux's", lines.len());
    sheet.count("words of Linux's that it found", lines.iter().filter(|line| line.decoded.is_some()).count());
}

fn add_word(sheet: &mut Sheet, line: &Line) {
    let code @ Code { m, t, n } = line.code;
    let hard = Call::Hard { code, bits: &line.received, room: n };
    match &line.decoded {
        None => sheet.known(hard, &format!("lost 0 0 0 0 {}", hex(&vec![UNTOUCHED; n]))),
        Some(codeword) => {
            let positions: Vec<usize> = differences(codeword, &line.received).collect();
            let place = |i| positions.get(i).copied().unwrap_or(0);
            sheet.known(hard, &format!("found {} {} {} {} {}", positions.len(), place(0), place(1), place(2), hex(codeword)));
            sheet.known(Call::Encode { code, message: &codeword[m * t..], room: n }, &format!("written {}", hex(codeword)));
        }
    }
}
