//! What the calls are timed on, drawn from a fixed seed.
use outside::archive::encode;
use outside::draw::Draw;
use outside::reference::Code;

/// What a sent bit becomes.
#[derive(Clone, Copy)]
pub struct Channel {
    pub name: &'static str,
    symbol: fn(&mut Draw, u8) -> u8,
}

/// About 2.2 wrong bits in 255.
pub const LIGHT: Channel = Channel { name: "light noise", symbol: |draw, bit| noisy(draw, bit, 17) };
/// About 7.1 wrong bits in 255.
pub const HEAVY: Channel = Channel { name: "heavy noise", symbol: |draw, bit| noisy(draw, bit, 26) };
/// No wrong bits, and about 8 reliabilities in 255 below 15: the weakest symbols stand on many levels, and the lower ones are empty.
pub const STRONG: Channel = Channel { name: "strong", symbol: strong };

/// A bit is sent as the level 8 or -8, and the noise is the sum of so many draws of -1, 0 and 1.
fn noisy(draw: &mut Draw, bit: u8, draws: usize) -> u8 {
    let sent = if bit == 1 { -8 } else { 8 };
    let level = (0..draws).fold(sent, |level, _| level + draw.below(3) as i32 - 1);
    16 * u8::from(level < 0) + level.abs().min(15) as u8
}

/// One symbol in 32 has a reliability from 8 to 14, and the others 15.
fn strong(draw: &mut Draw, bit: u8) -> u8 {
    let reliability = if draw.once_in(32) { 8 + draw.below(7) } else { 15 };
    16 * bit + reliability as u8
}

/// Items of one length that stand one behind the other.
pub struct Words<T> {
    pub length: usize,
    pub all: Vec<T>,
}

impl<T> Words<T> {
    pub fn at(&self, i: usize) -> &[T] {
        &self.all[i * self.length..][..self.length]
    }

    pub fn count(&self) -> usize {
        self.all.len() / self.length
    }
}

const SEED: u64 = 1;

fn codeword(draw: &mut Draw, code: Code) -> Vec<u8> {
    let mut message = vec![0; code.n - code.m * code.t];
    let mut codeword = vec![0; code.n];
    draw.bits(&mut message);
    encode(code, &message, &mut codeword).expect("a message of the code");
    codeword
}

pub fn messages(code: Code, count: usize) -> Words<u8> {
    let length = code.n - code.m * code.t;
    let mut all = vec![0; count * length];
    Draw::new(SEED).bits(&mut all);
    Words { length, all }
}

/// Codewords with that many wrong bits in each.
pub fn wrong_words(code: Code, errors: usize, count: usize) -> Words<u8> {
    let mut draw = Draw::new(SEED);
    let mut all = Vec::new();
    for _ in 0..count {
        let sent = codeword(&mut draw, code);
        let mut word = sent.clone();
        while sent.iter().zip(&word).filter(|(a, b)| a != b).count() < errors {
            word[draw.below(code.n)] ^= 1;
        }
        all.extend(word);
    }
    Words { length: code.n, all }
}

/// Codewords as the channel gives them.
pub fn received_words(code: Code, channel: Channel, count: usize) -> Words<u8> {
    let mut draw = Draw::new(SEED);
    let mut all = Vec::new();
    for _ in 0..count {
        let sent = codeword(&mut draw, code);
        all.extend(sent.into_iter().map(|bit| (channel.symbol)(&mut draw, bit)));
    }
    Words { length: code.n, all }
}

/// A take of these words, behind a label of that length.
pub fn take(code: Code, depth: usize, label: usize, words: &Words<u8>) -> Vec<u8> {
    let mut take = Vec::new();
    let mut put = |number: usize| take.extend((number as u16).to_le_bytes());
    put(words.count());
    put(code.m + 256 * code.t);
    put(code.n);
    put(depth);
    put(12 + label);
    put(label);
    take.resize(12 + label, 0);
    take.extend(&words.all);
    take
}

/// Levels from -17 to 17; some are whole numbers.
pub fn levels(length: usize, count: usize) -> Words<f32> {
    let mut draw = Draw::new(SEED);
    Words { length, all: (0..count * length).map(|_| (draw.below(65536) as f32 - 32768.0) / 1927.0).collect() }
}

/// Kinds of samples: all heard, or half of them blank.
pub fn kinds(blanks: bool, length: usize, count: usize) -> Words<u8> {
    let mut draw = Draw::new(SEED);
    Words { length, all: (0..count * length).map(|_| if blanks { draw.bit() } else { 1 }).collect() }
}
