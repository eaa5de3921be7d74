//! Words sent over a channel with Gaussian noise to all decoders.

use crate::archive::{decode_hard, decode_soft, encode};
use crate::draw::Draw;
use crate::error_rates::{message_length, Count, Decoder, Row, DECODERS};
use crate::reference::{Code, Hard, Soft};
use bch_receiver::{Ladder, Mark};
use std::thread;

/// The threads, and the words of a block: fixed, so that the counts are the same on every machine.
const THREADS: u64 = 2;
const BLOCK: u64 = 8192;

/// A point ends with the round of blocks after which every decoder has so many wrong words and the soft stage at each depth so many sure
/// words that are wrong, or so many message bits are sent.
#[derive(Clone, Copy)]
pub struct Limit {
    pub word_errors: u64,
    pub wrong_sure: u64,
    pub bits: u64,
}

impl Limit {
    /// Whether a decoder's count is as long as the rates of wrong words ask for.
    fn is_met(&self, decoder: Decoder, count: &Count) -> bool {
        count.word_errors >= self.word_errors && (count.wrong_sure >= self.wrong_sure || !matches!(decoder, Decoder::Soft(_)))
    }
}

/// A code, Eb/N0 in dB, and the ladder by which levels are quantised; the amplitude of the signal is 1.
#[derive(Clone, Copy)]
pub struct Channel {
    pub code: Code,
    pub ebn0: f64,
    ladder: Ladder,
}

impl Channel {
    /// The ladder's edges are 1 to 15 times the step.
    pub fn new(code: Code, ebn0: f64, step: f32) -> Channel {
        let edges: Vec<f32> = (1..16).map(|i| i as f32 * step).collect();
        Channel { code, ebn0, ladder: Ladder::new(&edges).unwrap() }
    }

    /// The standard deviation of the noise: its variance is 1 / (2 (k / n) Eb/N0).
    fn deviation(&self) -> f64 {
        let rate = message_length(self.code) as f64 / self.code.n as f64;
        (2.0 * rate * 10f64.powf(self.ebn0 / 10.0)).sqrt().recip()
    }

    /// The probability that a bit arrives wrong.
    pub fn bit_error_probability(&self) -> f64 {
        q_function(self.deviation().recip())
    }

    /// The probability that hard decoding goes wrong: that more than t bits arrive wrong.
    pub fn hard_error_probability(&self) -> f64 {
        let p = self.bit_error_probability();
        let n = self.code.n as i32;
        let mut term = (1.0 - p).powi(n);
        let mut repaired = 0.0;
        for i in 0..=self.code.t as i32 {
            repaired += term;
            term *= f64::from(n - i) / f64::from(i + 1) * p / (1.0 - p);
        }
        1.0 - repaired
    }

    /// Sends blocks of words in rounds, one block for each thread, until the limit is reached.
    pub fn measure(&self, limit: Limit) -> Vec<Row> {
        let most_words = limit.bits / message_length(self.code) as u64;
        let mut sum = Counts::default();
        let mut round = 0;
        while sum[0].words < most_words && !DECODERS.iter().zip(&sum).all(|(&decoder, count)| limit.is_met(decoder, count)) {
            self.send_round(round, Channel::send_block).iter().for_each(|counts| add(&mut sum, counts));
            round += 1;
        }
        let row = |(decoder, count)| Row { code: self.code, ebn0: self.ebn0, decoder, count };
        DECODERS.into_iter().zip(sum).map(row).collect()
    }

    /// Of so many rounds of blocks, the margin of each word that is fair at this depth, and whether it is wrong.
    pub fn fair_margins(&self, depth: usize, rounds: u64) -> Vec<(i32, bool)> {
        let send = |channel: &Channel, block| {
            let mut link = channel.link(block);
            let fair = (0..BLOCK).filter_map(|_| {
                link.send();
                link.fair_margin(depth)
            });
            fair.collect::<Vec<_>>()
        };
        (0..rounds).flat_map(|round| self.send_round(round, send)).flatten().collect()
    }

    /// Has a round of blocks sent, each by a thread of its own.
    fn send_round<T: Send>(&self, round: u64, send: impl Fn(&Channel, u64) -> T + Copy + Send) -> Vec<T> {
        thread::scope(|scope| {
            let blocks = round * THREADS..(round + 1) * THREADS;
            let threads: Vec<_> = blocks.map(|block| scope.spawn(move || send(self, block))).collect();
            threads.into_iter().map(|thread| thread.join().unwrap()).collect()
        })
    }

    /// Sends the words of one block, each to all decoders.
    fn send_block(&self, block: u64) -> Counts {
        let mut link = self.link(block);
        let mut sum = Counts::default();
        for _ in 0..BLOCK {
            link.send();
            add(&mut sum, &link.receive_all());
        }
        sum
    }

    /// The link over which a block is sent. The draws of a block are its own.
    fn link(&self, block: u64) -> Link {
        let point = (self.code.n * 10 + self.code.t) * 1000 + (self.ebn0 * 10.0) as usize;
        Link::new(self, ((point as u64) << 32) + block)
    }
}

type Counts = [Count; DECODERS.len()];

fn add(sum: &mut Counts, counts: &Counts) {
    sum.iter_mut().zip(counts).for_each(|(sum, count)| *sum += *count);
}

/// The word that is on its way.
struct Link {
    code: Code,
    ladder: Ladder,
    deviation: f32,
    draw: Draw,
    message: Vec<u8>,
    codeword: Vec<u8>,
    levels: Vec<Option<f32>>,
    symbols: Vec<u8>,
    bits: Vec<u8>,
    decoded: Vec<u8>,
}

impl Link {
    fn new(channel: &Channel, seed: u64) -> Link {
        let Channel { code, ladder, .. } = *channel;
        Link {
            code,
            ladder,
            // Powers may differ in the last digit from machine to machine; as an f32 it is the same.
            deviation: channel.deviation() as f32,
            draw: Draw::new(seed),
            message: vec![0; message_length(code)],
            codeword: vec![0; code.n],
            levels: vec![None; code.n],
            symbols: vec![0; code.n],
            bits: vec![0; code.n],
            decoded: vec![0; code.n],
        }
    }

    /// Draws a message, sends its codeword with bit 0 as +1 and bit 1 as -1, and quantises what arrives.
    fn send(&mut self) {
        self.draw.bits(&mut self.message);
        encode(self.code, &self.message, &mut self.codeword).unwrap();
        for (level, &bit) in self.levels.iter_mut().zip(&self.codeword) {
            *level = Some(1.0 - 2.0 * f32::from(bit) + self.deviation * self.draw.gauss() as f32);
        }
        self.ladder.quantise(&self.levels, &mut self.symbols).unwrap();
        for (bit, &symbol) in self.bits.iter_mut().zip(&self.symbols) {
            *bit = symbol / 16;
        }
    }

    /// What all decoders make of the word. Where it is sure at one depth it is not decoded at greater ones: their search begins with the same test
    /// words, and the first that is sure ends it.
    fn receive_all(&mut self) -> Counts {
        let mut sure = None;
        DECODERS.map(|decoder| {
            let count = sure.unwrap_or_else(|| self.receive(decoder));
            sure = (count.sure > 0).then_some(count);
            count
        })
    }

    /// What a decoder makes of the word. A lost word keeps its hard bits.
    fn receive(&mut self, decoder: Decoder) -> Count {
        self.decoded.copy_from_slice(&self.bits);
        let (mark, tries) = match decoder {
            Decoder::Absent => (None, 0),
            Decoder::Hard => match decode_hard(self.code, &self.bits, &mut self.decoded).unwrap() {
                Hard::Lost => (Some(Mark::Lost), 1),
                Hard::Found { .. } => (None, 1),
            },
            Decoder::Soft(depth) => match decode_soft(self.code, depth, &self.symbols, &mut self.decoded).unwrap() {
                Soft::Lost { tries } => (Some(Mark::Lost), tries),
                Soft::Fair(found) => (Some(Mark::Fair), found.tries),
                Soft::Sure(found) => (Some(Mark::Sure), found.tries),
            },
        };
        Count::of_word(mark, self.bit_errors(), tries as u64)
    }

    /// The word's margin where it is fair at this depth, and whether it is wrong.
    fn fair_margin(&mut self, depth: usize) -> Option<(i32, bool)> {
        match decode_soft(self.code, depth, &self.symbols, &mut self.decoded).unwrap() {
            Soft::Fair(found) => Some((found.margin, self.bit_errors() > 0)),
            _ => None,
        }
    }

    /// How many message bits are decoded otherwise than they were sent.
    fn bit_errors(&self) -> u64 {
        let carried = &self.decoded[self.code.n - self.message.len()..];
        carried.iter().zip(&self.message).filter(|(a, b)| a != b).count() as u64
    }
}

/// The probability that a normal variable is above x: the integral of its density over the next 10, by Simpson's rule.
fn q_function(x: f64) -> f64 {
    const STEPS: i32 = 1000;
    let step = 10.0 / f64::from(STEPS);
    let density = |at: f64| (-at * at / 2.0).exp() / std::f64::consts::TAU.sqrt();
    let weighed = |at: f64| density(at) + 4.0 * density(at + step / 2.0) + density(at + step);
    (0..STEPS).map(|i| weighed(x + f64::from(i) * step)).sum::<f64>() * step / 6.0
}

#[cfg(test)]
mod tests {
    use super::*;

    /// So much noise that all marks are given, and wrong words with each.
    fn noisy() -> Channel {
        Channel::new(Code::new(6, 2, 31), 2.0, 0.0625)
    }

    #[test]
    fn marks_add_up() {
        for Row { decoder, count, .. } in noisy().measure(Limit { word_errors: 1, wrong_sure: 1, bits: 10_000_000 }) {
            let marked = count.sure + count.fair + count.lost;
            if let Decoder::Soft(_) = decoder {
                assert_eq!(marked, count.words, "{decoder}");
                assert_eq!(count.wrong_sure + count.wrong_fair + count.lost, count.word_errors, "{decoder}");
                assert!(count.wrong_sure > 0 && count.wrong_fair > 0 && count.lost > 0, "{decoder}: {count:?}");
            } else {
                assert_eq!((marked, count.wrong_sure + count.wrong_fair), (count.lost, 0), "{decoder}");
            }
        }
    }

    #[test]
    fn depth_0_is_the_hard_stage_with_marks() {
        let point = noisy().measure(Limit { word_errors: 1, wrong_sure: 0, bits: 10_000_000 });
        let [hard, soft] = [Decoder::Hard, Decoder::Soft(0)].map(|decoder| point.iter().find(|row| row.decoder == decoder).unwrap().count);
        assert_eq!(Count { sure: 0, wrong_sure: 0, fair: 0, wrong_fair: 0, ..soft }, hard);
    }

    #[test]
    fn a_sure_word_is_the_same_at_greater_depths() {
        let mut link = noisy().link(0);
        for _ in 0..BLOCK {
            link.send();
            assert_eq!(link.receive_all(), DECODERS.map(|decoder| link.receive(decoder)));
        }
    }

    #[test]
    fn a_longer_point_begins_with_the_same_words() {
        for rounds in [1, 2] {
            let mut sum = Counts::default();
            (0..THREADS * rounds).for_each(|block| add(&mut sum, &noisy().send_block(block)));
            let point = noisy().measure(Limit { word_errors: u64::MAX, wrong_sure: 0, bits: THREADS * rounds * BLOCK * 19 });
            assert!(point.iter().map(|row| row.count).eq(sum), "{rounds} rounds");
        }
    }

    #[test]
    fn q_function_as_tabled() {
        for (x, right) in [(0.0, 0.5), (1.0, 0.158_655_254), (2.0, 0.022_750_132), (3.0, 0.001_349_898), (4.0, 0.000_031_671)] {
            assert!((q_function(x) - right).abs() < 1e-9, "Q({x}) is {}, not {right}", q_function(x));
        }
    }
}
