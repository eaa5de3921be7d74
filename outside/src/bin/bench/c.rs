//! The encoder, the two decoders and the quantiser in C (c/core.h), and the clock (c/clock.c).
use outside::reference::{Code, Found, Hard, Soft, Totals};
use std::time::Duration;

/// The tables of a code, as C has them.
#[repr(C)]
struct Tables {
    _private: [u8; 0],
}

#[repr(C)]
struct Flips {
    count: i32,
    positions: [u32; 3],
}

#[repr(C)]
struct Answer {
    mark: u32,
    distance: u32,
    margin: i32,
    flips: u32,
    place: u32,
    tries: u32,
}

#[repr(C)]
struct Counts {
    marks: [u32; 3],
    tries: u32,
}

extern "C" {
    fn core_new_code(m: u32, t: u32, n: u32) -> *mut Tables;
    fn core_free_code(tables: *mut Tables);
    fn core_encode(tables: *const Tables, message: *const u8, codeword: *mut u8);
    fn core_decode_hard(tables: *const Tables, bits: *const u8, codeword: *mut u8) -> Flips;
    fn core_decode_soft(tables: *const Tables, depth: u32, symbols: *const u8, codeword: *mut u8) -> Answer;
    fn core_read_words(tables: *const Tables, depth: u32, words: usize, symbols: *const u8, messages: *mut u8, marks: *mut u8) -> Counts;
    fn core_textbook_hard(tables: *const Tables, bits: *const u8, codeword: *mut u8) -> Flips;
    fn core_textbook_soft(tables: *const Tables, depth: u32, symbols: *const u8, codeword: *mut u8) -> Answer;
    fn core_textbook_words(
        tables: *const Tables,
        depth: u32,
        words: usize,
        symbols: *const u8,
        messages: *mut u8,
        marks: *mut u8,
    ) -> Counts;
    fn core_quantise(edges: *const f32, samples: usize, kinds: *const u8, levels: *const f32, symbols: *mut u8);
    fn processor_time() -> u64;
}

/// The functions of one decoder.
struct Calls {
    hard: unsafe extern "C" fn(*const Tables, *const u8, *mut u8) -> Flips,
    soft: unsafe extern "C" fn(*const Tables, u32, *const u8, *mut u8) -> Answer,
    words: unsafe extern "C" fn(*const Tables, u32, usize, *const u8, *mut u8, *mut u8) -> Counts,
}

static CLOSED_FORM: Calls = Calls { hard: core_decode_hard, soft: core_decode_soft, words: core_read_words };
static TEXTBOOK: Calls = Calls { hard: core_textbook_hard, soft: core_textbook_soft, words: core_textbook_words };

/// A decoder of one code. Its tables are filled.
pub struct Decoder {
    code: Code,
    calls: &'static Calls,
    tables: *mut Tables,
}

impl Decoder {
    pub fn closed_form(code: Code) -> Decoder {
        Decoder::new(code, &CLOSED_FORM)
    }

    pub fn textbook(code: Code) -> Decoder {
        Decoder::new(code, &TEXTBOOK)
    }

    fn new(code: Code, calls: &'static Calls) -> Decoder {
        assert!((5..=8).contains(&code.m) && (1..=3).contains(&code.t) && (code.m * code.t + 1..1 << code.m).contains(&code.n));
        // Safety: the code is one of those that C has a generator for.
        let tables = unsafe { core_new_code(code.m as u32, code.t as u32, code.n as u32) };
        Decoder { code, calls, tables }
    }

    pub fn encode(&self, message: &[u8], codeword: &mut [u8]) {
        assert!(message.len() + self.code.m * self.code.t == self.code.n && codeword.len() == self.code.n);
        // Safety: the lengths are those of the code, as also below.
        unsafe { core_encode(self.tables, message.as_ptr(), codeword.as_mut_ptr()) }
    }

    pub fn hard(&self, bits: &[u8], codeword: &mut [u8]) -> Hard {
        assert!(bits.len() == self.code.n && codeword.len() == self.code.n);
        let flips = unsafe { (self.calls.hard)(self.tables, bits.as_ptr(), codeword.as_mut_ptr()) };
        match flips.count {
            -1 => Hard::Lost,
            count => Hard::Found { flips: count as usize, positions: flips.positions.map(|position| position as usize) },
        }
    }

    pub fn soft(&self, depth: usize, symbols: &[u8], codeword: &mut [u8]) -> Soft {
        assert!(depth <= 6 && symbols.len() == self.code.n && codeword.len() == self.code.n);
        let answer = unsafe { (self.calls.soft)(self.tables, depth as u32, symbols.as_ptr(), codeword.as_mut_ptr()) };
        let found = Found {
            distance: answer.distance as usize,
            margin: answer.margin,
            flips: answer.flips as usize,
            place: answer.place as usize,
            tries: answer.tries as usize,
        };
        match answer.mark {
            0 => Soft::Lost { tries: found.tries },
            1 => Soft::Fair(found),
            _ => Soft::Sure(found),
        }
    }

    /// Reads the words of a take: its symbols, without a header.
    pub fn read_words(&self, depth: usize, symbols: &[u8], messages: &mut [u8], marks: &mut [u8]) -> Totals {
        let (words, code) = (marks.len(), self.code);
        assert!(depth <= 6 && symbols.len() == words * code.n && messages.len() + words * code.m * code.t == symbols.len());
        let counts =
            unsafe { (self.calls.words)(self.tables, depth as u32, words, symbols.as_ptr(), messages.as_mut_ptr(), marks.as_mut_ptr()) };
        let [lost, fair, sure] = counts.marks.map(|count| count as usize);
        Totals { words, sure, fair, lost, tries: counts.tries as usize }
    }
}

impl Drop for Decoder {
    fn drop(&mut self) {
        // Safety: the tables are this decoder's alone.
        unsafe { core_free_code(self.tables) }
    }
}

/// The quantiser.
pub fn quantise(edges: &[f32; 15], kinds: &[u8], levels: &[f32], symbols: &mut [u8]) {
    assert!(kinds.len() == levels.len() && symbols.len() == levels.len());
    // Safety: all three have as many samples.
    unsafe { core_quantise(edges.as_ptr(), levels.len(), kinds.as_ptr(), levels.as_ptr(), symbols.as_mut_ptr()) }
}

/// The processor time that this thread has used.
pub fn clock() -> Duration {
    // Safety: nothing is handed over.
    Duration::from_nanos(unsafe { processor_time() })
}

#[cfg(test)]
mod tests {
    use super::Decoder;
    use crate::calls::soft_without_tries;
    use outside::draw::Draw;
    use outside::reference::{Code, Found, Reference, Soft};

    /// The codes of every length.
    fn codes() -> impl Iterator<Item = Code> {
        let pairs = (5..=8).flat_map(|m| (1..=3).map(move |t| (m, t)));
        pairs.flat_map(|(m, t)| (m * t + 1..1 << m).map(move |n| Code::new(m, t, n)))
    }

    /// Bits of every length: the codeword 0 with up to t + 1 wrong bits.
    #[test]
    fn every_length_hard() {
        let mut draw = Draw::new(1);
        for code in codes() {
            let reference = Reference::new(code).expect("a code");
            for wrong in 0..=code.t + 1 {
                let (mut bits, mut theirs) = (vec![0; code.n], vec![0; code.n]);
                (0..wrong).for_each(|_| bits[draw.below(code.n)] ^= 1);
                let right = reference.decode_hard(&bits, &mut theirs);
                for c in [Decoder::closed_form(code), Decoder::textbook(code)] {
                    let mut ours = vec![0; code.n];
                    assert_eq!((Ok(c.hard(&bits, &mut ours)), &ours), (right, &theirs), "{code:?}, {bits:?}");
                }
            }
        }
    }

    /// Words of every length: the codeword 0 with some wrong bits, and reliabilities from some level on.
    #[test]
    fn every_length() {
        let mut draw = Draw::new(1);
        for code in codes() {
            let (c, reference) = (Decoder::closed_form(code), Reference::new(code).expect("a code"));
            for depth in 0..=6 {
                let least = draw.below(16);
                let symbol = |_| 16 * u8::from(draw.once_in(32)) + (least + draw.below(16 - least)) as u8;
                let symbols: Vec<u8> = (0..code.n).map(symbol).collect();
                let (mut ours, mut theirs) = (vec![0; code.n], vec![0; code.n]);
                let right = reference.decode_soft(depth, &symbols, &mut theirs);
                assert_eq!((Ok(c.soft(depth, &symbols, &mut ours)), ours), (right, theirs), "{code:?}, depth {depth}");
            }
        }
    }

    /// Words of full length, of few reliabilities or many, whose wrong bits are mostly among the weakest. The textbook makes all tries.
    #[test]
    fn weakest_wrong() {
        let mut draw = Draw::new(1);
        for code in codes().filter(|code| code.n == (1 << code.m) - 1) {
            let reference = Reference::new(code).expect("a code");
            let (c, textbook) = (Decoder::closed_form(code), Decoder::textbook(code));
            for depth in (0..=6).cycle().take(1400) {
                let symbols = weak_word(&mut draw, code, depth);
                let (mut ours, mut written, mut theirs) = (vec![0; code.n], vec![0; code.n], vec![0; code.n]);
                let right = reference.decode_soft(depth, &symbols, &mut theirs).expect("a word");
                let all = soft_without_tries(textbook.soft(depth, &symbols, &mut written));
                assert_eq!((c.soft(depth, &symbols, &mut ours), &ours), (right, &theirs), "{code:?}, depth {depth}, {symbols:?}");
                assert_eq!((all, written), (soft_without_tries(right), theirs), "textbook, {code:?}, depth {depth}, {symbols:?}");
            }
        }
    }

    /// The second candidate is as near as the first, which is fair, and is sure.
    #[test]
    fn sure_and_as_near() {
        let code = Code::new(5, 2, 14);
        let symbols = [19, 4, 19, 4, 4, 4, 4, 5, 1, 4, 4, 4, 4, 0];
        for c in [Decoder::closed_form(code), Decoder::textbook(code)] {
            let mut codeword = [0; 14];
            let found = Found { distance: 6, margin: 0, flips: 3, place: 1, tries: 2 };
            assert_eq!(c.soft(1, &symbols, &mut codeword), Soft::Sure(found));
            assert_eq!(codeword, [1, 0, 1, 0, 0, 0, 0, 1, 1, 0, 0, 0, 0, 1]);
        }
    }

    /// The codeword 0 with reliabilities from some level on, and up to t + depth wrong bits, two of three of them among the weakest.
    fn weak_word(draw: &mut Draw, code: Code, depth: usize) -> Vec<u8> {
        let (least, levels) = draw.pick(&[(0, 16), (0, 3), (1, 3), (3, 2), (5, 11), (7, 1)]);
        let mut symbols: Vec<u8> = (0..code.n).map(|_| (least + draw.below(levels)) as u8).collect();
        let mut order: Vec<usize> = (0..code.n).collect();
        order.sort_by_key(|&position| symbols[position]);
        for _ in 0..draw.below(code.t + depth + 1) {
            let among = if draw.once_in(3) { code.n } else { 2 * code.t + 1 + depth };
            symbols[order[draw.below(among)]] ^= 16;
        }
        symbols
    }
}
