//! The calls held to document 01 (`docs/01-scope.md`): the worked cases of its small code, each refusal with its place and an untouched
//! buffer, and the take of a measuring round; and to request 3 of document 02, the lines and pages of strips.
use bch_receiver::*;

/// The small code of the worked cases: no position set, and {0, 2, 5}.
fn code_e() -> Code {
    Code::new(5, 1, 6).unwrap()
}

/// What a buffer holds before a call, byte for byte.
const BEFORE: u8 = 0xA5;

/// An answer, or the number and the place of a refusal.
type Answer<T> = Result<T, (u8, usize)>;

/// The answer, with the refusal held to the kind that its number has.
fn told<T>(answer: Result<T, Refusal>) -> Answer<T> {
    answer.map_err(|refusal| {
        assert_eq!(refusal.kind(), KINDS[usize::from(refusal.number()) - 1]);
        (refusal.number(), refusal.place())
    })
}

/// The kinds of refusals, by their numbers from 1 on.
const KINDS: [RefusalKind; 14] = [
    RefusalKind::M,
    RefusalKind::T,
    RefusalKind::N,
    RefusalKind::Depth,
    RefusalKind::Ladder,
    RefusalKind::InputLength,
    RefusalKind::OutputLength,
    RefusalKind::Bit,
    RefusalKind::Symbol,
    RefusalKind::Kind,
    RefusalKind::Level,
    RefusalKind::TakeHeader,
    RefusalKind::TakeZero,
    RefusalKind::TakeLength,
];

/// The answer of a call to a buffer of this length, and the buffer after it.
fn lent<T>(length: usize, call: impl FnOnce(&mut [u8]) -> Result<T, Refusal>) -> (Answer<T>, Vec<u8>) {
    let mut buffer = vec![BEFORE; length];
    let answer = told(call(&mut buffer));
    (answer, buffer)
}

/// A refusal that writes nothing to a buffer of this length.
fn refused<T>(number: u8, place: usize, length: usize) -> (Answer<T>, Vec<u8>) {
    (Err((number, place)), vec![BEFORE; length])
}

/// The bytes that are written as digits.
fn digits(text: &str) -> Vec<u8> {
    text.bytes().map(|digit| digit - b'0').collect()
}

// ---- codes

#[test]
fn codes() {
    let code = Code::new(6, 2, 63).unwrap();
    assert_eq!((code.m(), code.t(), code.n(), code.parity_length(), code.message_length()), (6, 2, 63, 12, 51));
    // Every code there is, and no other beside these.
    for m in 4..=9 {
        for t in 0..=4 {
            for n in 0..=600 {
                let right = match (m, t, n) {
                    (m, _, _) if !(5..=8).contains(&m) => Err((1, 0)),
                    (_, t, _) if !(1..=3).contains(&t) => Err((2, 0)),
                    (m, t, n) if n <= m * t || n >= 1 << m => Err((3, 0)),
                    _ => Ok((m, t, n)),
                };
                assert_eq!(told(Code::new(m, t, n)).map(|code| (code.m(), code.t(), code.n())), right);
            }
        }
    }
}

/// The first of 1, 2, 3 that applies, also where only the lowest bits are right.
#[test]
fn codes_refused() {
    let new = |m, t, n| told(Code::new(m, t, n).map(|_| ()));
    assert_eq!(new(0, 0, 0), Err((1, 0)));
    assert_eq!(new(usize::MAX, usize::MAX, usize::MAX), Err((1, 0)));
    assert_eq!(new(5 + (1 << 8), 1, 6), Err((1, 0)));
    assert_eq!(new(5, 0, 0), Err((2, 0)));
    assert_eq!(new(5, usize::MAX, usize::MAX), Err((2, 0)));
    assert_eq!(new(5, 1 + (1 << 32), 6), Err((2, 0)));
    assert_eq!(new(5, 1, 5), Err((3, 0)));
    assert_eq!(new(5, 1, 32), Err((3, 0)));
    assert_eq!(new(5, 1, usize::MAX), Err((3, 0)));
    assert_eq!(new(5, 1, 6 + (1 << 16)), Err((3, 0)));
}

// ---- the encoder and the hard stage

#[test]
fn encode_case() {
    assert_eq!(lent(6, |codeword| encode(code_e(), &[1], codeword)), (Ok(()), digits("101001")));
}

/// The answer of the hard stage, with the positions that were flipped where it found a codeword, and the buffer after it.
fn hard(code: Code, bits: &[u8]) -> (Answer<Option<Vec<usize>>>, Vec<u8>) {
    let flipped = |answer| match answer {
        Hard::Lost => None,
        Hard::Found(flips) => {
            assert_eq!(flips.count(), flips.positions().len());
            Some(flips.positions().to_vec())
        }
    };
    lent(code.n(), |codeword| decode_hard(code, bits, codeword).map(flipped))
}

#[test]
fn hard_cases() {
    let hard = |bits| hard(code_e(), &digits(bits));
    assert_eq!(hard("100000"), (Ok(Some(vec![0])), digits("000000")));
    assert_eq!(hard("110000"), (Ok(None), vec![BEFORE; 6]));
    assert_eq!(hard("101000"), (Ok(Some(vec![5])), digits("101001")));
    assert_eq!(hard("101001"), (Ok(Some(vec![])), digits("101001")));
}

/// At most three wrong bits in the codeword 0: all such words of 31 bits, and one of 255.
#[test]
fn hard_positions() {
    let told = |m, n: usize, wrong: &[usize]| {
        let bits: Vec<u8> = (0..n).map(|position| u8::from(wrong.contains(&position))).collect();
        assert_eq!(hard(Code::new(m, 3, n).unwrap(), &bits), (Ok(Some(wrong.to_vec())), vec![0; n]));
    };
    told(5, 31, &[]);
    for i in 0..31 {
        told(5, 31, &[i]);
        for j in 0..i {
            told(5, 31, &[j, i]);
            (0..j).for_each(|k| told(5, 31, &[k, j, i]));
        }
    }
    told(8, 255, &[0, 127, 254]);
}

/// Position 0 is told apart from no position.
#[test]
fn hard_position_0() {
    let answer = |bits| decode_hard(code_e(), &digits(bits), &mut [0; 6]).unwrap();
    assert_ne!(answer("100000"), answer("000000"));
    assert_eq!(answer("101001"), answer("000000"));
}

/// A call that takes bits and writes a codeword, where it or the code must be refused. `word` are bits of the right length for (5, 1, 10),
/// of which that at 3 is a 2. All faults at once come first, and then one fault less in each line.
fn refuses_bits<T: std::fmt::Debug + PartialEq>(word: &str, call: impl Fn(Code, &[u8], &mut [u8]) -> Result<T, Refusal>) {
    let call = |(m, t, n), bits: &str, room| lent(room, |codeword| call(Code::new(m, t, n)?, &digits(bits), codeword));
    assert_eq!(call((4, 0, 0), "2", 11), refused(1, 0, 11));
    assert_eq!(call((5, 0, 0), "2", 11), refused(2, 0, 11));
    assert_eq!(call((5, 1, 5), "2", 11), refused(3, 0, 11));
    assert_eq!(call((5, 1, 10), "2", 11), refused(6, 0, 11));
    assert_eq!(call((5, 1, 10), word, 11), refused(7, 0, 11));
    assert_eq!(call((5, 1, 10), word, 0), refused(7, 0, 0));
    assert_eq!(call((5, 1, 10), word, 10), refused(8, 3, 10));

    assert_eq!(call((usize::MAX, 1, 10), word, 10), refused(1, 0, 10));
    assert_eq!(call((5, usize::MAX, 10), word, 10), refused(2, 0, 10));
    assert_eq!(call((5, 1, 32), word, 32), refused(3, 0, 32));
    assert_eq!(call((5, 1, 10), "", 10), refused(6, 0, 10));
}

#[test]
fn encode_refuses() {
    refuses_bits("01022", encode);
}

#[test]
fn hard_refuses() {
    refuses_bits("0002200000", decode_hard);
}

// ---- the soft stage

/// The symbols of bits and reliabilities.
fn symbols(bits: &str, reliabilities: [u8; 6]) -> Vec<u8> {
    digits(bits).iter().zip(reliabilities).map(|(bit, z)| 16 * bit + z).collect()
}

#[test]
fn soft_cases() {
    let soft = |depth, bits, z| lent(6, |codeword| decode_soft(code_e(), depth, &symbols(bits, z), codeword));
    let found = |distance, margin, flips, place, tries| Found { distance, margin, flips, place, tries };
    let none = digits("000000");
    assert_eq!(soft(2, "110000", [1, 1, 5, 5, 5, 5]), (Ok(Soft::Sure(found(2, 3, 2, 1, 2))), none.clone()));
    assert_eq!(soft(0, "110000", [1, 1, 5, 5, 5, 5]), (Ok(Soft::Lost { tries: 1 }), vec![BEFORE; 6]));
    assert_eq!(soft(0, "000000", [0; 6]), (Ok(Soft::Sure(found(0, 0, 0, 0, 1))), none.clone()));
    assert_eq!(soft(2, "100000", [9, 1, 2, 1, 1, 2]), (Ok(Soft::Fair(found(9, -7, 1, 0, 4))), none.clone()));
    assert_eq!(soft(4, "100000", [9, 1, 2, 1, 1, 2]), (Ok(Soft::Fair(found(4, -3, 2, 8, 16))), digits("101001")));
    assert_eq!(soft(0, "100000", [1, 5, 5, 5, 5, 5]), (Ok(Soft::Sure(found(1, 9, 1, 0, 1))), none));
}

#[test]
fn soft_refuses() {
    let call = |(m, t, n), depth, symbols: &[u8], room| lent(room, |codeword| decode_soft(Code::new(m, t, n)?, depth, symbols, codeword));
    let high = [31, 0, 32, 255, 0, 0];
    assert_eq!(call((4, 0, 0), 7, &high[2..], 7), refused(1, 0, 7));
    assert_eq!(call((5, 0, 0), 7, &high[2..], 7), refused(2, 0, 7));
    assert_eq!(call((5, 1, 5), 7, &high[2..], 7), refused(3, 0, 7));
    assert_eq!(call((5, 1, 6), 7, &high[2..], 7), refused(4, 0, 7));
    assert_eq!(call((5, 1, 6), 6, &high[2..], 7), refused(6, 0, 7));
    assert_eq!(call((5, 1, 6), 6, &high, 7), refused(7, 0, 7));
    assert_eq!(call((5, 1, 6), 6, &high, 6), refused(9, 2, 6));
}

// ---- ladders and samples

/// The edges 1 to 15.
fn edges() -> Vec<f32> {
    (1..=15u8).map(f32::from).collect()
}

#[test]
fn quantise_cases() {
    let ladder = Ladder::new(&edges()).unwrap();
    let levels = [-2.5, 2.0, 16.0, -0.0, f32::NEG_INFINITY, f32::INFINITY, f32::NAN];
    let mut samples = levels.map(Some);
    samples[6] = None;
    let right = (Ok(()), vec![18, 2, 15, 0, 31, 15, 0]);
    assert_eq!(lent(7, |symbols| ladder.quantise(&samples, symbols)), right);
    assert_eq!(lent(7, |symbols| quantise(&edges(), &[1, 1, 1, 1, 1, 1, 0], &levels, symbols)), right);
    assert_eq!(ladder.quantise(&[], &mut []), Ok(()));
    assert_eq!(quantise(&edges(), &[], &[], &mut []), Ok(()));
}

/// Levels and blanks in turn, of which the archive gets 256 at a time; beside each other they give the symbols 16 to 31, and 0.
#[test]
fn quantise_many() {
    let ladder = Ladder::new(&edges()).unwrap();
    for count in [1, 255, 256, 257, 511, 512, 513, 3000] {
        let sample = |i: usize| if i % 3 == 2 { None } else { Some(-0.5 - (i % 16) as f32) };
        let mut samples: Vec<Option<f32>> = (0..count).map(sample).collect();
        let symbols = (0..count).map(|i| if i % 3 == 2 { 0 } else { 16 + (i % 16) as u8 }).collect();
        assert_eq!(lent(count, |symbols| ladder.quantise(&samples, symbols)), (Ok(()), symbols));

        // The first level that is not a number counts, and nothing is written, wherever it stands; but the length counts before it.
        samples[count - 1] = Some(f32::NAN);
        for first in [count - 1, count / 2, 0] {
            samples[first] = Some(-f32::NAN);
            assert_eq!(lent(count, |symbols| ladder.quantise(&samples, symbols)), refused(11, first, count));
            assert_eq!(lent(count + 1, |symbols| ladder.quantise(&samples, symbols)), refused(7, 0, count + 1));
            assert_eq!(lent(count - 1, |symbols| ladder.quantise(&samples, symbols)), refused(7, 0, count - 1));
        }
    }
}

#[test]
fn quantise_refuses() {
    let (edges, levels) = (edges(), [1.0, 1.0, f32::NAN, 1.0]);
    let call = |edges: &[f32], kinds, levels: &[f32], room| lent(room, |symbols| quantise(edges, &digits(kinds), levels, symbols));
    assert_eq!(call(&edges[1..], "0112", &levels[1..], 5), refused(5, 0, 5));
    assert_eq!(call(&edges, "0112", &levels[1..], 5), refused(6, 0, 5));
    assert_eq!(call(&edges, "0112", &levels, 5), refused(7, 0, 5));
    assert_eq!(call(&edges, "0112", &levels, 4), refused(11, 2, 4));
    assert_eq!(call(&edges, "0201", &levels, 4), refused(10, 1, 4));
    assert_eq!(call(&edges, "0121", &levels, 4), refused(10, 2, 4));
}

#[test]
fn ladder_refuses() {
    let no_ladder = Err((5, 0));
    let changed = |position: usize, edge: f32| {
        let mut edges = edges();
        edges[position] = edge;
        told(Ladder::new(&edges).map(|_| ()))
    };
    assert_eq!(changed(0, 0.0), no_ladder);
    assert_eq!(changed(7, 7.0), no_ladder);
    assert_eq!(changed(7, f32::NAN), no_ladder);
    assert_eq!(changed(14, f32::INFINITY), Ok(()));
    assert_eq!(told(Ladder::new(&edges()[1..]).map(|_| ())), no_ladder);
    assert_eq!(told(Ladder::new(&[]).map(|_| ())), no_ladder);
}

// ---- takes

/// The take that document 01 gives as an example: a sure word and a lost one.
const EXAMPLE: [u8; 24] = [2, 0, 5, 1, 6, 0, 0, 0, 12, 0, 0, 0, 17, 5, 5, 5, 5, 5, 17, 17, 5, 5, 5, 5];

#[test]
fn take_example() {
    let totals = Totals { words: 2, sure: 1, fair: 0, lost: 1, tries: 2 };
    let (mut messages, mut marks) = ([BEFORE; 2], [BEFORE; 2]);
    assert_eq!(open_take(&EXAMPLE), Ok(Header { words: 2, code: code_e(), depth: 0 }));
    assert_eq!(read_take(&EXAMPLE, &mut messages, &mut marks), Ok(totals));
    assert_eq!((messages, marks), ([0, 0], [2, 0]));
}

#[test]
fn take_without_words() {
    let take = [0, 0, 8, 3, 255, 0, 6, 0, 13, 0, 1, 0, b'x'];
    assert_eq!(open_take(&take), Ok(Header { words: 0, code: Code::new(8, 3, 255).unwrap(), depth: 6 }));
    assert_eq!(read_take(&take, &mut [], &mut []), Ok(Totals { words: 0, sure: 0, fair: 0, lost: 0, tries: 0 }));
}

/// All calls refuse a take alike.
fn refuses_take(take: &[u8], number: u8, place: usize) {
    assert_eq!(told(open_take(take)), Err((number, place)));
    assert_eq!(told(strip_length(take)), Err((number, place)));
    #[cfg(feature = "alloc")]
    assert_eq!(told(Take::read(take)), Err((number, place)));
    #[cfg(feature = "alloc")]
    assert_eq!(told(Strip::print(take)), Err((number, place)));
    refuses_to_read(take, 2, 2, number, place);
    refuses_to_print(take, 75, number, place);
}

/// Reading a take into buffers of these lengths writes to neither.
fn refuses_to_read(take: &[u8], messages: usize, marks: usize, number: u8, place: usize) {
    let answer = lent(messages + marks, |buffers| {
        let (messages, marks) = buffers.split_at_mut(messages);
        read_take(take, messages, marks)
    });
    assert_eq!(answer, refused(number, place, messages + marks));
}

/// Printing a take to a buffer of this length does not write to it.
fn refuses_to_print(take: &[u8], length: usize, number: u8, place: usize) {
    assert_eq!(lent(length, |strip| print_take(take, strip)), refused(number, place, length));
}

#[test]
fn take_refuses() {
    let mut take = EXAMPLE;
    for (at, fault) in [(2, 4), (3, 0), (4, 5), (6, 7), (7, 1), (8, 13), (15, 32), (20, 255)] {
        take[at] = fault;
    }
    refuses_take(&[], 12, 0);
    refuses_take(&take[..11], 12, 0);
    // Each fault is refused and then mended.
    for (number, at) in [(13, 7), (1, 2), (2, 3), (3, 4), (4, 6), (14, 8)] {
        refuses_take(&take, number, 0);
        take[at] = EXAMPLE[at];
    }
    refuses_take(&take[..23], 14, 0);
    refuses_to_read(&take, 3, 2, 7, 0);
    refuses_to_read(&take, 2, 1, 7, 0);
    [0, 50, 74, 76, 100].into_iter().for_each(|length| refuses_to_print(&take, length, 7, 0));
    for at in [15, 20] {
        refuses_take(&take, 9, at);
        take[at] = 31;
    }
    assert!(read_take(&take, &mut [0; 2], &mut [0; 2]).is_ok());
    assert!(print_take(&take, &mut [0; 75]).is_ok());
    #[cfg(feature = "alloc")]
    assert!(Take::read(&take).is_ok() && Strip::print(&take).is_ok());
}

/// The take of a measuring round, and its marks.
const ROUND: &[u8] = include_bytes!("../../../examples/round.take");
const ROUND_MARKS: &str = "sssffssslffsfsfffssffffs";

#[test]
fn measuring_round() {
    let header = open_take(ROUND).unwrap();
    assert_eq!(header, Header { words: 24, code: Code::new(6, 2, 63).unwrap(), depth: 2 });
    let mut messages = vec![BEFORE; header.words * header.code.message_length()];
    let mut marks = vec![BEFORE; header.words];
    assert_eq!(read_take(ROUND, &mut messages, &mut marks), Ok(Totals { words: 24, sure: 11, fair: 12, lost: 1, tries: 63 }));
    let marks: String = marks.iter().map(|&byte| Mark::from_byte(byte).unwrap().to_string().remove(0)).collect();
    assert_eq!(marks, ROUND_MARKS);
    assert_eq!(messages[..51], digits("100000000110010011001110000000000000000000000000000"));
    assert_eq!(messages[8 * 51..9 * 51], [0; 51]);
    assert_eq!(messages[23 * 51..], digits("000110011101101100010110000000000000000000000000000"));
}

/// Takes with buffers of their own.
#[cfg(feature = "alloc")]
mod takes {
    use super::*;

    #[test]
    fn example() {
        let take = Take::read(&EXAMPLE).unwrap();
        assert_eq!(take.header(), Header { words: 2, code: code_e(), depth: 0 });
        assert_eq!(take.totals(), Totals { words: 2, sure: 1, fair: 0, lost: 1, tries: 2 });
        assert_eq!(take.marks(), [Mark::Sure, Mark::Lost]);
        assert_eq!((take.message(0), take.message(1), take.message(2)), (Some(&[0][..]), None, None));
        assert_eq!(take.words().collect::<Vec<_>>(), [(Mark::Sure, Some(&[0][..])), (Mark::Lost, None)]);
    }

    #[test]
    fn without_words() {
        let take = Take::read(&[0, 0, 8, 3, 255, 0, 6, 0, 13, 0, 1, 0, b'x']).unwrap();
        assert_eq!(take.header(), Header { words: 0, code: Code::new(8, 3, 255).unwrap(), depth: 6 });
        assert_eq!(take.totals(), Totals { words: 0, sure: 0, fair: 0, lost: 0, tries: 0 });
        assert_eq!((take.marks(), take.message(0), take.words().len()), (&[][..], None, 0));
    }

    #[test]
    fn measuring_round() {
        let take = Take::read(ROUND).unwrap();
        let marks: String = take.marks().iter().map(|mark| mark.to_string().remove(0)).collect();
        assert_eq!(take.header(), Header { words: 24, code: Code::new(6, 2, 63).unwrap(), depth: 2 });
        assert_eq!(take.totals(), Totals { words: 24, sure: 11, fair: 12, lost: 1, tries: 63 });
        assert_eq!(marks, ROUND_MARKS);
        assert_eq!(take.message(0), Some(&digits("100000000110010011001110000000000000000000000000000")[..]));
        assert_eq!(take.message(8), None);
        assert_eq!(take.message(23), Some(&digits("000110011101101100010110000000000000000000000000000")[..]));
        let words: Vec<_> = take.words().collect();
        assert_eq!(words, (0..24).map(|i| (take.marks()[i], take.message(i))).collect::<Vec<_>>());
    }
}

// ---- strips

/// The heading of a page.
const HEADING: &str = "INDEX MARK DIST MARGN TR";

/// The totals, and the lines of a strip of this length.
fn print(take: &[u8], length: usize) -> (Totals, Vec<String>) {
    assert_eq!(strip_length(take), Ok(length));
    let (answer, strip) = lent(length, |strip| print_take(take, strip));
    let text = String::from_utf8(strip).unwrap();
    assert!(text.ends_with('\n'));
    (answer.unwrap(), text.lines().map(str::to_string).collect())
}

#[test]
fn strip_of_the_example() {
    let lines = [HEADING, "    0 sure    1     9  1", "    1 lost    0     0  1"];
    assert_eq!(print(&EXAMPLE, 75), (Totals { words: 2, sure: 1, fair: 0, lost: 1, tries: 2 }, lines.map(str::to_string).to_vec()));
}

/// Cases 10 and 9 of document 01, a lost word, case 5, no wrong bit with reliability 15, and one such bit that is wrong; at depth 4.
const WORDS: [[u8; 6]; 6] =
    [[17, 5, 5, 5, 5, 5], [25, 1, 2, 1, 1, 2], [1, 25, 1, 25, 1, 1], [17, 17, 5, 5, 5, 5], [15; 6], [1, 1, 1, 1, 31, 1]];

/// A take of so many words: those above, again and again.
fn take_of(words: usize) -> Vec<u8> {
    let [low, high] = (words as u16).to_le_bytes();
    let mut take = vec![low, high, 5, 1, 6, 0, 4, 0, 12, 0, 0, 0];
    (0..words).for_each(|i| take.extend(WORDS[i % WORDS.len()]));
    take
}

#[test]
fn strip_lines() {
    let lines = [
        HEADING,
        "    0 sure    1     9  1",
        "    1 fair    4    -3 16",
        "    2 lost    0     0 16",
        "    3 sure    2     3  2",
        "    4 sure    0    45  1",
        "    5 fair   15   -13 16",
    ];
    assert_eq!(print(&take_of(6), 175), (Totals { words: 6, sure: 3, fair: 2, lost: 1, tries: 52 }, lines.map(str::to_string).to_vec()));
}

/// Every line has 24 characters, and a page begins before every word whose index is a multiple of 40; without words there is one heading.
#[test]
fn strip_pages() {
    for (words, pages) in [(0, 1), (1, 1), (39, 1), (40, 1), (41, 2), (80, 2), (81, 3), (10920, 273), (65535, 1639)] {
        let (totals, lines) = print(&take_of(words), 25 * (words + pages));
        assert_eq!((totals.words, totals.sure + totals.fair + totals.lost), (words, words));
        assert_eq!(lines.len(), words + pages);
        for (i, line) in lines.iter().enumerate() {
            match i % 41 {
                0 => assert_eq!(line, HEADING),
                place => assert!(line.len() == 24 && line.starts_with(&format!("{:5} ", 40 * (i / 41) + place - 1)), "{line}"),
            }
        }
    }
}

/// A strip with a text of its own.
#[cfg(feature = "alloc")]
#[test]
fn strip_of_the_round() {
    let strip = Strip::print(ROUND).unwrap();
    let mut written = vec![BEFORE; 625];
    assert_eq!(strip.totals(), Take::read(ROUND).unwrap().totals());
    assert_eq!(print_take(ROUND, &mut written), Ok(strip.totals()));
    assert_eq!(strip.text().as_bytes(), written);
    let marks: String = strip.text().lines().skip(1).map(|line| &line[6..7]).collect();
    assert_eq!(marks, ROUND_MARKS);
    assert_eq!(strip.to_string(), strip.text());
    assert_eq!(strip.clone().into_text(), strip.text());
    assert_eq!(Strip::print(&[0, 0, 8, 3, 255, 0, 6, 0, 13, 0, 1, 0, b'x']).unwrap().text(), "INDEX MARK DIST MARGN TR\n");
}

// ---- what the answers say

/// A refusal of each number.
fn refusals() -> Vec<Refusal> {
    let (e, mut room) = (code_e(), [0; 6]);
    vec![
        Code::new(4, 1, 6).unwrap_err(),
        Code::new(5, 4, 6).unwrap_err(),
        Code::new(5, 1, 5).unwrap_err(),
        decode_soft(e, 7, &[0; 6], &mut room).unwrap_err(),
        Ladder::new(&[]).unwrap_err(),
        decode_hard(e, &[0; 5], &mut room).unwrap_err(),
        decode_hard(e, &[0; 6], &mut room[..5]).unwrap_err(),
        decode_hard(e, &[0, 0, 0, 0, 0, 9], &mut room).unwrap_err(),
        decode_soft(e, 6, &[0, 0, 0, 0, 32, 0], &mut room).unwrap_err(),
        quantise(&edges(), &[0, 2], &[0.0; 2], &mut room[..2]).unwrap_err(),
        Ladder::new(&edges()).unwrap().quantise(&[None, None, Some(f32::NAN)], &mut room[..3]).unwrap_err(),
        open_take(&[]).unwrap_err(),
        open_take(&[1; 12]).unwrap_err(),
        open_take(&EXAMPLE[..23]).unwrap_err(),
    ]
}

#[test]
fn refusals_by_number() {
    let places = [0, 0, 0, 0, 0, 0, 0, 5, 4, 1, 2, 0, 0, 0];
    for (i, refusal) in refusals().into_iter().enumerate() {
        assert_eq!((usize::from(refusal.number()), refusal.kind(), refusal.place()), (i + 1, KINDS[i], places[i]));
    }
}

#[test]
fn refusals_in_words() {
    let refusals = refusals();
    assert_eq!(refusals[7].to_string(), "refused 8 at 5: a bit is above 1");
    let texts: std::collections::HashSet<String> = refusals.iter().map(|refusal| refusal.kind().to_string()).collect();
    assert!(texts.len() == 14 && !texts.iter().any(|text| text.contains("unknown")));
    for refusal in refusals {
        assert_eq!(refusal.to_string(), format!("refused {} at {}: {}", refusal.number(), refusal.place(), refusal.kind()));
    }
}

#[cfg(feature = "std")]
#[test]
fn refusals_are_errors() {
    let error: Box<dyn std::error::Error> = refusals()[0].into();
    assert_eq!(error.to_string(), "refused 1 at 0: m is outside 5 to 8");
}

#[test]
fn marks_of_answers() {
    let mark = |depth, bits, z| decode_soft(code_e(), depth, &symbols(bits, z), &mut [0; 6]).unwrap().mark();
    assert_eq!(mark(0, "110000", [1; 6]), Mark::Lost);
    assert_eq!(mark(2, "100000", [9, 1, 2, 1, 1, 2]), Mark::Fair);
    assert_eq!(mark(0, "100000", [1, 5, 5, 5, 5, 5]), Mark::Sure);
}
