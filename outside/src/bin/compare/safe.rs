//! The calls through the crate `bch_receiver`, with its answers as the reference's types. Where the crate has another call beside the
//! archive's, for samples as options and for takes and strips with buffers of their own, that one is made, since it makes the archive's in
//! turn.

use bch_receiver::{Ladder, Mark, Strip, Take};
use outside::reference::{Code, Found, Hard, Header, Refusal, Soft, Totals};

pub fn encode(code: Code, message: &[u8], codeword: &mut [u8]) -> Result<(), Refusal> {
    bch_receiver::encode(named(code)?, message, codeword).map_err(refusal)
}

pub fn decode_hard(code: Code, bits: &[u8], codeword: &mut [u8]) -> Result<Hard, Refusal> {
    let answer = bch_receiver::decode_hard(named(code)?, bits, codeword).map_err(refusal)?;
    Ok(match answer {
        bch_receiver::Hard::Lost => Hard::Lost,
        bch_receiver::Hard::Found(flips) => {
            let mut positions = [0; 3];
            positions[..flips.positions().len()].copy_from_slice(flips.positions());
            Hard::Found { flips: flips.count(), positions }
        }
    })
}

pub fn decode_soft(code: Code, depth: usize, symbols: &[u8], codeword: &mut [u8]) -> Result<Soft, Refusal> {
    let answer = bch_receiver::decode_soft(named(code)?, depth, symbols, codeword).map_err(refusal)?;
    let found = |bch_receiver::Found { distance, margin, flips, place, tries }| Found { distance, margin, flips, place, tries };
    Ok(match answer {
        bch_receiver::Soft::Lost { tries } => Soft::Lost { tries },
        bch_receiver::Soft::Fair(fair) => Soft::Fair(found(fair)),
        bch_receiver::Soft::Sure(sure) => Soft::Sure(found(sure)),
    })
}

pub fn check_ladder(edges: &[f32]) -> Result<(), Refusal> {
    Ladder::new(edges).map(|_| ()).map_err(refusal)
}

pub fn quantise(edges: &[f32], kinds: &[u8], levels: &[f32], symbols: &mut [u8]) -> Result<(), Refusal> {
    let ladder = Ladder::new(edges).map_err(refusal)?;
    let answer = match samples(kinds, levels) {
        Some(samples) => ladder.quantise(&samples, symbols),
        None => bch_receiver::quantise(edges, kinds, levels, symbols),
    };
    answer.map_err(refusal)
}

/// The samples as options, where these can tell them: there are as many kinds as levels, and each is 0 or 1.
fn samples(kinds: &[u8], levels: &[f32]) -> Option<Vec<Option<f32>>> {
    let told = kinds.len() == levels.len() && kinds.iter().all(|&kind| kind <= 1);
    told.then(|| kinds.iter().zip(levels).map(|(&kind, &level)| (kind == 1).then_some(level)).collect())
}

pub fn open_take(take: &[u8]) -> Result<Header, Refusal> {
    let bch_receiver::Header { words, code, depth } = Take::read(take).map_err(refusal)?.header();
    Ok(Header { words, code: Code::new(code.m(), code.t(), code.n()), depth })
}

/// Writes what was read to the buffers. The other call tells what is refused, since buffers of a wrong length come before some refusals.
pub fn read_take(take: &[u8], messages: &mut [u8], marks: &mut [u8]) -> Result<Totals, Refusal> {
    let totals = match Take::read(take) {
        Ok(read) if marks.len() == read.marks().len() && messages.len() == marks.len() * read.header().code.message_length() => {
            write(&read, messages, marks);
            Ok(read.totals())
        }
        _ => bch_receiver::read_take(take, messages, marks),
    };
    totals.map(told).map_err(refusal)
}

pub fn strip_length(take: &[u8]) -> Result<usize, Refusal> {
    bch_receiver::strip_length(take).map_err(refusal)
}

/// Writes the text to the buffer. The other call tells what is refused, as with reading.
pub fn print_take(take: &[u8], strip: &mut [u8]) -> Result<Totals, Refusal> {
    let totals = match Strip::print(take) {
        Ok(printed) if printed.text().len() == strip.len() => {
            strip.copy_from_slice(printed.text().as_bytes());
            Ok(printed.totals())
        }
        _ => bch_receiver::print_take(take, strip),
    };
    totals.map(told).map_err(refusal)
}

fn told(totals: bch_receiver::Totals) -> Totals {
    let bch_receiver::Totals { words, sure, fair, lost, tries } = totals;
    Totals { words, sure, fair, lost, tries }
}

fn write(read: &Take, messages: &mut [u8], marks: &mut [u8]) {
    let messages = messages.chunks_mut(read.header().code.message_length());
    for (((mark, bits), message), byte) in read.words().zip(messages).zip(marks) {
        *byte = match mark {
            Mark::Lost => 0,
            Mark::Fair => 1,
            Mark::Sure => 2,
        };
        match bits {
            Some(bits) => message.copy_from_slice(bits),
            None => message.fill(0),
        }
    }
}

fn named(code: Code) -> Result<bch_receiver::Code, Refusal> {
    bch_receiver::Code::new(code.m, code.t, code.n).map_err(refusal)
}

fn refusal(refusal: bch_receiver::Refusal) -> Refusal {
    Refusal { number: refusal.number(), place: refusal.place() }
}
