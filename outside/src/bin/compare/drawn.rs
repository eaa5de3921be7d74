//! Draws calls: of every code and depth, on words that are hard to decode, and every fourth with something wrong in it.

use crate::call::{Call, Request};
use crate::facts::weakest;
use outside::draw::Draw;
use outside::reference::{self, Code};

/// A call, and the codeword that its bits or symbols were made from, where there is one.
pub struct Drawn {
    pub call: Call,
    pub sent: Option<Vec<u8>>,
}

pub fn call(draw: &mut Draw) -> Drawn {
    let mut drawn = match draw.below(17) {
        0 => encode(draw),
        1..=3 => decode_hard(draw),
        4..=9 => decode_soft(draw),
        10 => lent(Request::CheckLadder { edges: edges(draw) }, &[]),
        11 | 12 => quantise(draw),
        13 => {
            let take = few_words(draw).bytes;
            lent(if draw.bit() == 0 { Request::OpenTake { take } } else { Request::StripLength { take } }, &[])
        }
        14 | 15 => read_take(draw),
        _ => print_take(draw),
    };
    if draw.once_in(4) {
        drawn.sent = None;
        damage(draw, &mut drawn.call);
        if draw.once_in(4) {
            damage(draw, &mut drawn.call);
        }
    }
    drawn.call.buffers.iter_mut().for_each(|content| draw.bytes(content));
    drawn
}

/// The request, lent buffers of these lengths.
fn lent(request: Request, lengths: &[usize]) -> Drawn {
    Drawn { call: Call { request, buffers: lengths.iter().map(|&length| vec![0; length]).collect() }, sent: None }
}

fn encode(draw: &mut Draw) -> Drawn {
    let code = code(draw);
    lent(Request::Encode { code, message: message(draw, code) }, &[code.n])
}

fn decode_hard(draw: &mut Draw) -> Drawn {
    let code = code(draw);
    let Word { symbols, sent } = word(draw, code, 0);
    let bits = symbols.iter().map(|symbol| symbol >> 4).collect();
    Drawn { sent, ..lent(Request::DecodeHard { code, bits }, &[code.n]) }
}

fn decode_soft(draw: &mut Draw) -> Drawn {
    let (code, depth) = (code(draw), draw.below(7));
    let Word { symbols, sent } = word(draw, code, depth);
    Drawn { sent, ..lent(Request::DecodeSoft { code, depth, symbols }, &[code.n]) }
}

fn quantise(draw: &mut Draw) -> Drawn {
    let edges = edges(draw);
    let count = if draw.once_in(8) { draw.below(600) } else { draw.below(20) };
    let kinds: Vec<u8> = (0..count).map(|_| draw.bit()).collect();
    let levels = kinds.iter().map(|&kind| if kind == 1 { level(draw, &edges) } else { any_float(draw) }).collect();
    lent(Request::Quantise { edges, kinds, levels }, &[count])
}

fn read_take(draw: &mut Draw) -> Drawn {
    let Take { code, words, bytes } = few_words(draw);
    let k = code.n - code.m * code.t;
    lent(Request::ReadTake { take: bytes }, &[words * k, words])
}

/// One take in eight has about as many words as fill some pages of 40, and one in 8,000 so many that the index has five digits.
fn print_take(draw: &mut Draw) -> Drawn {
    let words = match draw.below(8000) {
        0 => Some(10_000 + draw.below(100)),
        1..=1000 => Some(draw.pick(&[39, 40, 41, 79, 80, 81, 119, 120, 121])),
        _ => None,
    };
    let Take { words, bytes, .. } = match words {
        Some(words) => take(draw, words),
        None => few_words(draw),
    };
    lent(Request::PrintTake { take: bytes }, &[25 * (words + words.div_ceil(40).max(1))])
}

/// A code, often of the least or the full length.
fn code(draw: &mut Draw) -> Code {
    let (m, t) = (5 + draw.below(4), 1 + draw.below(3));
    let (least, full) = (m * t + 1, (1 << m) - 1);
    let n = match draw.below(8) {
        0 => least,
        1 | 2 => full,
        _ => least + draw.below(full - least + 1),
    };
    Code::new(m, t, n)
}

fn message(draw: &mut Draw, code: Code) -> Vec<u8> {
    let mut message = vec![0; code.n - code.m * code.t];
    draw.bits(&mut message);
    message
}

fn codeword(draw: &mut Draw, code: Code) -> Vec<u8> {
    let mut codeword = vec![0; code.n];
    reference::encode(code, &message(draw, code), &mut codeword).expect("a message of the code");
    codeword
}

/// A word's symbols, and the codeword that they were made from, where there is one.
struct Word {
    symbols: Vec<u8>,
    sent: Option<Vec<u8>>,
}

fn word(draw: &mut Draw, code: Code, depth: usize) -> Word {
    if draw.once_in(8) {
        return Word { symbols: (0..code.n).map(|_| draw.below(32) as u8).collect(), sent: None };
    }
    let sent = codeword(draw, code);
    let symbols = if draw.once_in(4) { noisy(draw, &sent) } else { with_errors(draw, code, depth, &sent) };
    Word { symbols, sent: Some(sent) }
}

/// What a channel with white Gaussian noise makes of the codeword.
fn noisy(draw: &mut Draw, codeword: &[u8]) -> Vec<u8> {
    let strength = draw.pick(&[0.2, 0.4, 0.5, 0.6, 0.8, 1.2]);
    let scale = draw.pick(&[1.0, 4.0, 8.0, 20.0]);
    let mut symbol = |&bit: &u8| {
        let level = 1.0 - 2.0 * f64::from(bit) + strength * draw.gauss();
        16 * u8::from(level < 0.0) + (level.abs() * scale).min(15.0) as u8
    };
    codeword.iter().map(&mut symbol).collect()
}

/// The codeword with reliabilities of any, few or one value, and errors anywhere or with t or t + 1 of them beyond the weak positions.
fn with_errors(draw: &mut Draw, code: Code, depth: usize, codeword: &[u8]) -> Vec<u8> {
    let values: Vec<u8> = (0..draw.pick(&[1, 2, 3, 16])).map(|_| draw.below(16) as u8).collect();
    let mut symbols: Vec<u8> = codeword.iter().map(|bit| 16 * bit + draw.pick(&values)).collect();
    let order = weakest(&symbols);
    if draw.once_in(3) {
        let count = draw.below(code.t + depth + 2);
        flip(draw, &mut symbols, &order, count);
    } else {
        let (weak, others) = order.split_at(depth);
        let (in_weak, beyond) = (draw.below(depth + 1), code.t + draw.below(2));
        flip(draw, &mut symbols, weak, in_weak);
        flip(draw, &mut symbols, others, beyond);
    }
    symbols
}

/// Flips the bits at so many of the positions, or at all.
fn flip(draw: &mut Draw, symbols: &mut [u8], positions: &[usize], count: usize) {
    let mut positions = positions.to_vec();
    for _ in 0..count.min(positions.len()) {
        let position = positions.swap_remove(draw.below(positions.len()));
        symbols[position] ^= 16;
    }
}

/// The bits of the infinite float; those of all smaller ones above zero are smaller, in their order.
const INFINITE: u32 = 0x7f80_0000;

/// A ladder: of 1 to 15, or rising by equal steps in its bits from the least float, to the infinite one, or in between.
fn edges(draw: &mut Draw) -> Vec<f32> {
    if draw.once_in(4) {
        return (1..=15u8).map(f32::from).collect();
    }
    let step = draw.pick(&[1, 1000, 0x40_0000]);
    let highest = INFINITE - 14 * step;
    let between = 1 + draw.below(highest as usize) as u32;
    let first = draw.pick(&[1, between, highest]);
    (0..15).map(|i| f32::from_bits(first + i * step)).collect()
}

/// A level that is a number: often an edge or the float beside it.
fn level(draw: &mut Draw, edges: &[f32]) -> f32 {
    let magnitude = match draw.below(4) {
        0 => draw.pick(&[0.0, f32::INFINITY, f32::MAX, f32::MIN_POSITIVE, f32::from_bits(1)]),
        1 => 8.0 * draw.gauss() as f32,
        _ => f32::from_bits((draw.pick(edges).to_bits() + draw.below(3) as u32 - 1).min(INFINITE)),
    };
    if draw.bit() == 1 {
        -magnitude
    } else {
        magnitude
    }
}

fn any_float(draw: &mut Draw) -> f32 {
    if draw.once_in(4) {
        not_a_number(draw)
    } else {
        f32::from_bits(draw.number() as u32)
    }
}

fn not_a_number(draw: &mut Draw) -> f32 {
    f32::from_bits(draw.pick(&[0x7fc0_0000, 0xffc0_0000, INFINITE + 1, u32::MAX]))
}

struct Take {
    code: Code,
    words: usize,
    bytes: Vec<u8>,
}

/// A take, mostly of few words.
fn few_words(draw: &mut Draw) -> Take {
    let words = match draw.below(40_000) {
        0 => 65_535,
        1 => draw.below(65_536),
        _ => draw.pick(&[0, 1, 2, 3, 5, 10, 20]),
    };
    take(draw, words)
}

/// A take, mostly with a short label; with one of 65,524 bytes or more its offset cannot be told in two bytes.
fn take(draw: &mut Draw, words: usize) -> Take {
    let (code, depth) = (code(draw), draw.below(7));
    let label = match draw.below(500) {
        0 => 65_500 + draw.below(36),
        1..=250 => 0,
        _ => draw.below(300),
    };
    let mut bytes = vec![0; 12 + label];
    draw.bytes(&mut bytes[12..]);
    bytes[..12].copy_from_slice(&header(words, code, depth, label));
    for _ in 0..words {
        bytes.extend(word(draw, code, depth).symbols);
    }
    Take { code, words, bytes }
}

fn header(words: usize, code: Code, depth: usize, label: usize) -> [u8; 12] {
    let [words, n, offset, label] = [words, code.n, 12 + label, label].map(|number| (number as u16).to_le_bytes());
    let [m, t, depth] = [code.m, code.t, depth].map(|number| number as u8);
    [words[0], words[1], m, t, n[0], n[1], depth, 0, offset[0], offset[1], label[0], label[1]]
}

/// Puts a fault into the call; now and then it is none.
fn damage(draw: &mut Draw, call: &mut Call) {
    let Call { request, buffers } = call;
    match request {
        Request::Encode { code, message: bits } | Request::DecodeHard { code, bits } => match draw.below(4) {
            0 => damage_code(draw, code),
            1 => damage_length(draw, bits),
            2 => damage_length(draw, &mut buffers[0]),
            _ => raise_bytes(draw, bits, 2),
        },
        Request::DecodeSoft { code, depth, symbols } => match draw.below(5) {
            0 => damage_code(draw, code),
            1 => damage_setting(draw, depth, 0, 6),
            2 => damage_length(draw, symbols),
            3 => damage_length(draw, &mut buffers[0]),
            _ => raise_bytes(draw, symbols, 32),
        },
        Request::CheckLadder { edges } => damage_edges(draw, edges),
        Request::Quantise { edges, kinds, levels } => match draw.below(6) {
            0 => damage_edges(draw, edges),
            1 => damage_length(draw, kinds),
            2 => damage_length(draw, levels),
            3 => damage_length(draw, &mut buffers[0]),
            4 => raise_bytes(draw, kinds, 2),
            _ => {
                for _ in 0..levels.len().min(3) {
                    let at = draw.below(levels.len());
                    levels[at] = not_a_number(draw);
                }
            }
        },
        Request::OpenTake { take } | Request::StripLength { take } => damage_take(draw, take),
        Request::ReadTake { take } => match draw.below(4) {
            0 => {
                let which = draw.below(2);
                damage_length(draw, &mut buffers[which]);
            }
            _ => damage_take(draw, take),
        },
        Request::PrintTake { take } => match draw.below(4) {
            0 => damage_strip(draw, &mut buffers[0]),
            _ => damage_take(draw, take),
        },
    }
}

/// Makes the strip's length wrong: by a byte, by a line, or to none.
fn damage_strip(draw: &mut Draw, strip: &mut Vec<u8>) {
    match draw.below(3) {
        0 => strip.resize(strip.len() + 25, 0),
        1 => strip.truncate(strip.len().saturating_sub(25)),
        _ => damage_length(draw, strip),
    }
}

fn damage_code(draw: &mut Draw, code: &mut Code) {
    match draw.below(3) {
        0 => damage_setting(draw, &mut code.m, 5, 8),
        1 => damage_setting(draw, &mut code.t, 1, 3),
        _ => {
            let (least, full) = (code.m.saturating_mul(code.t).saturating_add(1), (1 << code.m.min(8)) - 1);
            damage_setting(draw, &mut code.n, least, full);
        }
    }
}

/// Makes the setting one beside its range, or one of which only the lowest bits are right, or any other.
fn damage_setting(draw: &mut Draw, setting: &mut usize, least: usize, most: usize) {
    let any = draw.number() as usize;
    *setting = match draw.below(8) {
        0 => 0,
        1 => least.wrapping_sub(1),
        2 => most + 1,
        3 => usize::MAX,
        4 => setting.wrapping_add(1 << 8),
        5 => setting.wrapping_add(1 << 16),
        6 => setting.wrapping_add(1 << 32),
        _ => any,
    };
}

fn damage_length<T: Clone + Default>(draw: &mut Draw, values: &mut Vec<T>) {
    match draw.below(3) {
        0 => values.clear(),
        1 => values.truncate(values.len().saturating_sub(1)),
        _ => values.push(T::default()),
    }
}

/// Makes one to three bytes too high.
fn raise_bytes(draw: &mut Draw, bytes: &mut [u8], limit: u8) {
    if bytes.is_empty() {
        return;
    }
    for _ in 0..1 + draw.below(3) {
        let any = limit + draw.below(256 - usize::from(limit)) as u8;
        bytes[draw.below(bytes.len())] = draw.pick(&[limit, 255, any]);
    }
}

fn damage_edges(draw: &mut Draw, edges: &mut Vec<f32>) {
    if edges.len() < 2 || draw.once_in(4) {
        return damage_length(draw, edges);
    }
    let at = 1 + draw.below(edges.len() - 1);
    match draw.below(6) {
        0 => edges.push(f32::INFINITY),
        1 => edges[0] = draw.pick(&[0.0, -0.0, -1.0, f32::NAN]),
        2 => edges[at] = not_a_number(draw),
        3 => edges[at] = edges[at - 1],
        4 => edges[at] = f32::INFINITY,
        _ => edges.swap(at - 1, at),
    }
}

fn damage_take(draw: &mut Draw, take: &mut Vec<u8>) {
    if take.len() < 12 || draw.once_in(6) {
        let lengths = [draw.below(13), draw.below(take.len() + 1), take.len().saturating_sub(1)];
        return take.truncate(draw.pick(&lengths));
    }
    let at = draw.below(12);
    match draw.below(6) {
        0 => take[at] = draw.number() as u8,
        1 => take[at] ^= 1 << draw.below(8),
        2 => take[at] = take[at].wrapping_add(draw.pick(&[1, 255])),
        3 => {
            take[8] = take[8].wrapping_add(1);
            take[10] = take[10].wrapping_add(1);
        }
        4 => take.resize(take.len() + draw.pick(&[1, 1, 12, 256]), 0),
        _ => {
            let start = (12 + usize::from(take[10]) + 256 * usize::from(take[11])).min(take.len());
            raise_bytes(draw, &mut take[start..], 32);
        }
    }
}
