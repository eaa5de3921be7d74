//! A take as it is made, and its records.

use crate::call::Call;
use crate::draw::Xorshift;
use crate::sheet::Sheet;
use outside::reference::{self, Code, Refusal};

/// What a take is made of. A number that follows from others can be made wrong after `new`.
#[derive(Clone)]
pub struct Take {
    pub words: usize,
    pub m: usize,
    pub t: usize,
    pub n: usize,
    pub depth: usize,
    pub zero: usize,
    pub offset: usize,
    pub label_length: usize,
    pub label: Vec<u8>,
    pub symbols: Vec<u8>,
}

/// The lengths of the buffers for the messages and the marks.
pub type Room = (usize, usize);

impl Take {
    pub fn new(code: Code, depth: usize, label: &[u8], symbols: &[u8]) -> Take {
        let Code { m, t, n } = code;
        assert_eq!(symbols.len() % n, 0);
        let (label, symbols) = (label.to_vec(), symbols.to_vec());
        Take { words: symbols.len() / n, m, t, n, depth, zero: 0, offset: 12 + label.len(), label_length: label.len(), label, symbols }
    }

    /// A copy of the take, changed.
    pub fn with(&self, change: impl Fn(&mut Take)) -> Take {
        let mut take = self.clone();
        change(&mut take);
        take
    }

    pub fn bytes(&self) -> Vec<u8> {
        let one = |number: usize| u8::try_from(number).expect("one byte");
        let two = |number: usize| u16::try_from(number).expect("two bytes").to_le_bytes();
        let mut bytes = two(self.words).to_vec();
        bytes.extend([one(self.m), one(self.t)]);
        bytes.extend(two(self.n));
        bytes.extend([one(self.depth), one(self.zero)]);
        bytes.extend(two(self.offset));
        bytes.extend(two(self.label_length));
        bytes.extend(&self.label);
        bytes.extend(&self.symbols);
        bytes
    }

    /// The lengths of its buffers. Where n is below m t, k counts as 0.
    pub fn room(&self) -> Room {
        (self.words * self.n.saturating_sub(self.m * self.t), self.words)
    }
}

/// The symbols of so many words without errors, with any reliabilities.
pub fn clean(draw: &mut Xorshift, code: Code, words: usize) -> Vec<u8> {
    let mut symbols = Vec::new();
    for _ in 0..words {
        let codeword = crate::codeword(code, &draw.bits(code.n - code.m * code.t));
        symbols.extend(codeword.iter().map(|bit| 16 * bit + draw.below(16) as u8));
    }
    symbols
}

impl Sheet {
    /// The four records of a take: it is read, opened, asked for the word after its last where it opens, and listed.
    pub fn add_take(&mut self, name: &str, bytes: &[u8], room: Room) -> Option<Refusal> {
        self.heading(name);
        self.call(Call::Take { take: bytes, messages: room.0, marks: room.1 });
        self.call(Call::Open { take: bytes });
        if let Ok(header) = reference::open_take(bytes) {
            let answer = self.call(Call::Word { take: bytes, index: header.words, room: header.code.n });
            assert!(answer.starts_with("refused 6 0 "), "{name}: {answer}");
        }
        self.call(Call::List { take: bytes });
        self.count_take(bytes, room)
    }

    /// A take that is accepted.
    pub fn accepted(&mut self, name: &str, take: &Take) {
        assert_eq!(self.add_take(name, &take.bytes(), take.room()), None, "{name}");
    }

    /// A take that is refused with this number and place.
    pub fn refused_take(&mut self, name: &str, take: &Take, number: u8, place: usize) {
        self.refused_bytes(name, &take.bytes(), take.room(), Refusal { number, place });
    }

    /// The same of bytes and of buffers of these lengths.
    pub fn refused_bytes(&mut self, name: &str, bytes: &[u8], room: Room, refusal: Refusal) {
        assert_eq!(self.add_take(name, bytes, room), Some(refusal), "{name}");
    }

    /// Counts a take and its words, and answers the refusal of reading it.
    fn count_take(&mut self, bytes: &[u8], room: Room) -> Option<Refusal> {
        self.count("takes", 1);
        self.count("takes too long for takelist", usize::from(bytes.len() > 65536));
        match reference::read_take(bytes, &mut vec![0; room.0], &mut vec![0; room.1]) {
            Err(refusal) => {
                self.count(&format!("takes refused with {}", refusal.number), 1);
                Some(refusal)
            }
            Ok(totals) => {
                let label = reference::layout(bytes).map_or(0, |layout| layout.label);
                self.count("takes accepted", 1);
                self.count("takes accepted, no words", usize::from(totals.words == 0));
                self.count("takes accepted, with a label", usize::from(label > 0));
                self.count("words of takes, sure", totals.sure);
                self.count("words of takes, fair", totals.fair);
                self.count("words of takes, lost", totals.lost);
                None
            }
        }
    }
}
