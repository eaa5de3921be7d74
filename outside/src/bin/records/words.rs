//! 2,688 drawn words for the soft stage: of every m, t and depth, of four lengths and eight kinds. The answers are the second
//! implementation's, which writes out every test word. Before them stands a word that is hardly ever drawn, with its answer.

use crate::call::Call;
use crate::draw::Xorshift;
use crate::sheet::Sheet;
use outside::reference::{Candidate, Code, Found, Reference, Soft};

/// 8 kinds, 4 lengths, 7 depths and 12 pairs of m and t.
const WORDS: usize = 2688;

/// The words of a kind and a length stand together, so many.
const TOGETHER: usize = 84;

const KINDS: [&str; 8] = [
    "few errors",
    "errors at weak positions",
    "errors at strong positions",
    "three reliabilities",
    "two reliabilities",
    "one reliability",
    "any bits, three reliabilities",
    "any bits, all reliabilities",
];

const LENGTHS: [&str; 4] = ["the least length", "the full length", "drawn lengths", "drawn lengths again"];

struct Word {
    code: Code,
    depth: usize,
    symbols: Vec<u8>,
}

/// The noise of a kind of words.
struct Noise {
    /// The least reliability, and how many there are from it on.
    least: usize,
    levels: usize,
    /// The most positions that are struck.
    most: usize,
}

/// The noise of a kind of words; `x` is a number that was drawn.
fn noise(kind: usize, t: usize, x: usize) -> Noise {
    let (least, levels, most) = match kind {
        0 => (3, 13, t),
        1 => (4, 12, t + 6),
        2 => (8, 8, t + 1),
        3 => (1, 3, 2 * t + 3),
        4 => (x / 65536 % 15, 2, 2 * t + 3),
        5 => (x / 65536 % 4 * 5, 1, t + 3),
        6 => (0, 3, 0),
        _ => (0, 16, 0),
    };
    Noise { least, levels, most }
}

/// A struck position: its bit is flipped, and its reliability is made weak for kind 1 and strong for kind 2.
fn struck(kind: usize, symbol: u8) -> u8 {
    let z = match kind {
        1 => symbol % 16 / 4,
        2 => 15,
        _ => symbol % 16,
    };
    16 * (1 - symbol / 16) + z
}

/// The length of a word; `x` is a number that was drawn.
fn length(number: usize, m: usize, t: usize, x: usize) -> usize {
    let (least, full) = (m * t + 1, (1 << m) - 1);
    match number / TOGETHER % 4 {
        0 => least,
        1 => full,
        _ => least + x % (full + 1 - least),
    }
}

/// The word of this number.
fn word(number: usize) -> Word {
    let (m, t) = (5 + number % 12 / 3, 1 + number % 3);
    let (depth, kind) = (number / 12 % 7, number / (4 * TOGETHER));
    let mut draw = Xorshift((number as u32 + 1) * 1_000_003);
    let n = length(number, m, t, draw.next());
    let code = Code::new(m, t, n);
    let x = draw.next();
    let noise = noise(kind, t, x);
    let bits = if kind < 6 { crate::codeword(code, &draw.bits(n - m * t)) } else { draw.bits(n) };
    let mut symbols: Vec<u8> = bits.iter().map(|bit| 16 * bit + (noise.least + draw.next() % noise.levels) as u8).collect();
    for _ in 0..x % (noise.most + 1) {
        let at = draw.next() % n;
        symbols[at] = struck(kind, symbols[at]);
    }
    Word { code, depth, symbols }
}

pub fn add(sheet: &mut Sheet) {
    sheet.part("a sure candidate that is as near as a fair one before it");
    add_as_near(sheet);
    sheet.part("2688 drawn words for the soft stage; under each heading every m and t at depth 0, then at 1, and so on to 6");
    for number in 0..WORDS {
        if number % TOGETHER == 0 {
            let (kind, length) = (KINDS[number / (4 * TOGETHER)], LENGTHS[number / TOGETHER % 4]);
            sheet.heading(&format!("words {number} to {}: {kind}, {length}", number + TOGETHER - 1));
        }
        let word = word(number);
        sheet.call(Call::Soft { code: word.code, depth: word.depth, symbols: &word.symbols, room: word.code.n });
        count(sheet, &word);
    }
    sheet.totals();
}

/// Two codewords of the code m 5, t 2, n 14 are none set and {0, 2, 7, 8, 13}. Received is {0, 2}, both with z 3; z is 5, 1 and 0 at 7, 8
/// and 13, and 4 elsewhere. Test word 0 gives none set: q 2, L 3 + 3 and A 0 + 1 + 4. Test word 1, with 13 flipped, gives the other: q 3,
/// L 5 + 1 + 0 and A 3 + 3.
fn add_as_near(sheet: &mut Sheet) {
    let (code, symbols) = (Code::new(5, 2, 14), [19, 4, 19, 4, 4, 4, 4, 5, 1, 4, 4, 4, 4, 0]);
    sheet.heading("as near, depth 0");
    sheet.known(Call::Soft { code, depth: 0, symbols: &symbols, room: 14 }, "fair 6 -1 2 0 1 0000000000000000000000000000");
    sheet.heading("as near, depth 1");
    sheet.known(Call::Soft { code, depth: 1, symbols: &symbols, room: 14 }, "sure 6 0 3 1 2 0100010000000001010000000001");
}

/// Counts the rarer ways of the search that a word takes.
fn count(sheet: &mut Sheet, word: &Word) {
    let Word { code, depth, symbols } = word;
    let reference = Reference::new(*code).expect("a drawn code");
    let answer = reference.decode_soft(*depth, symbols, &mut vec![0; code.n]).expect("no drawn word is refused");
    let (Soft::Sure(Found { tries, .. }) | Soft::Fair(Found { tries, .. }) | Soft::Lost { tries }) = answer;
    let mut candidates = reference.candidates(*depth, symbols);
    candidates.retain(|candidate| candidate.place < tries);

    let mut count = |what: &str, holds: bool| sheet.count(&format!("drawn words, {what}"), usize::from(holds));
    count("weak positions told apart by position alone", has_weak_tie(word));
    count("a weak position flipped and flipped back", candidates.iter().any(|candidate| flips_back(word, candidate)));
    let (place, sure) = match answer {
        Soft::Sure(found) => (found.place, true),
        Soft::Fair(found) => (found.place, false),
        Soft::Lost { .. } => return,
    };
    let chosen = candidates.iter().find(|candidate| candidate.place == place).expect("the answer is a candidate");
    let as_near = |other: &Candidate| other.distance == chosen.distance && other.codeword != chosen.codeword;
    count("an answer that was not the first candidate", chosen.place > candidates[0].place);
    count("margin 0", chosen.margin == 0);
    count("margin 0 at a distance above 0", chosen.margin == 0 && chosen.distance > 0);
    count("sure after the first try", sure && chosen.place > 0);
    count("sure with 2t + 1 flips or more", sure && chosen.flips > 2 * code.t);
    count("fair with more than t flips", !sure && chosen.flips > code.t);
    count("fair, and another codeword found as near", !sure && candidates.iter().any(as_near));
}

/// The positions in the weakest order.
fn weakest_order(word: &Word) -> Vec<usize> {
    let mut order: Vec<usize> = (0..word.symbols.len()).collect();
    order.sort_by_key(|&position| (word.symbols[position] % 16, position));
    order
}

/// Whether the test word flips a weak position that the codeword has as it was received.
fn flips_back(word: &Word, candidate: &Candidate) -> bool {
    let order = weakest_order(word);
    let mut flipped = (0..word.depth).filter(|i| candidate.place >> i & 1 == 1).map(|i| order[i]);
    flipped.any(|position| candidate.codeword[position] == word.symbols[position] / 16)
}

/// Whether the last weak position is as reliable as the one after it.
fn has_weak_tie(word: &Word) -> bool {
    let z: Vec<u8> = weakest_order(word).into_iter().map(|position| word.symbols[position] % 16).collect();
    word.depth > 0 && z.get(word.depth) == Some(&z[word.depth - 1])
}
