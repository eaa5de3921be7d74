//! What document 01 says of every answer, whatever the reference says.

use crate::call::{Answer, Call, Outcome, Request};
use outside::differences;
use outside::reference::{Code, Found, Hard, Soft, Totals};

/// The first fact that does not hold of the outcome. The word sent is known where the call's bits or symbols were made from it.
pub fn broken(call: &Call, outcome: &Outcome, sent: Option<&[u8]>) -> Option<&'static str> {
    buffers_hold(call, outcome).and_then(|()| answer_holds(call, outcome, sent)).err()
}

type Fact = Result<(), &'static str>;

fn fact(text: &'static str, holds: bool) -> Fact {
    if holds {
        Ok(())
    } else {
        Err(text)
    }
}

fn buffers_hold(call: &Call, outcome: &Outcome) -> Fact {
    let kept = outcome.lent.iter().map(|lent| lent.content()).eq(&call.buffers);
    fact("no byte beside a buffer is written", outcome.lent.iter().all(|lent| lent.beside_is_kept()))?;
    fact("a refusal writes no buffer", outcome.answer.is_ok() || kept)?;
    fact("a lost word writes no codeword", !is_lost(outcome) || kept)
}

fn is_lost(outcome: &Outcome) -> bool {
    matches!(outcome.answer, Ok(Answer::Hard(Hard::Lost) | Answer::Soft(Soft::Lost { .. })))
}

fn answer_holds(call: &Call, outcome: &Outcome, sent: Option<&[u8]>) -> Fact {
    let written = outcome.lent.first().map_or(&[][..], |lent| lent.content());
    match (&call.request, &outcome.answer) {
        (Request::Encode { code, message }, Ok(Answer::Done)) => {
            fact("what is encoded is a codeword", is_codeword(*code, written))?;
            fact("the message stands behind the parity", written.ends_with(message))
        }
        (Request::DecodeHard { code, bits }, Ok(Answer::Hard(answer))) => hard_holds(*code, bits, *answer, written, sent),
        (Request::DecodeSoft { code, depth, symbols }, Ok(Answer::Soft(answer))) => {
            let word = Word { code: *code, depth: *depth, symbols, bits: symbols.iter().map(|symbol| symbol >> 4).collect() };
            match answer {
                Soft::Lost { .. } => fact("a word near the sent one is not lost", sent.map_or(true, |sent| !word.is_near(sent))),
                Soft::Fair(found) | Soft::Sure(found) => word.found_holds(found, written, sent),
            }
        }
        (Request::ReadTake { .. }, Ok(Answer::Read(totals))) => {
            let marked = |mark| outcome.lent[1].content().iter().filter(|&&byte| byte == mark).count();
            fact("the totals count the marks", [totals.lost, totals.fair, totals.sure] == [marked(0), marked(1), marked(2)])
        }
        (Request::PrintTake { .. }, Ok(Answer::Printed(totals))) => strip_holds(*totals, written),
        _ => Ok(()),
    }
}

/// What request 3 of document 02 says of every strip.
fn strip_holds(totals: Totals, written: &[u8]) -> Fact {
    let lines: Vec<&[u8]> = written.chunks(25).collect();
    let is_line = |line: &&[u8]| line.len() == 25 && line.iter().position(|&byte| byte == b'\n') == Some(24);
    fact("each line has 24 characters and a line feed", lines.iter().all(is_line))?;
    let is_heading = |line: &[u8]| line == b"INDEX MARK DIST MARGN TR\n";
    let headings = !lines.is_empty() && lines.iter().step_by(41).all(|line| is_heading(line));
    fact("the first line is the heading, and then every 41st", headings)?;
    fact("no page is without words, but that of a take without words", totals.words == 0 || lines.len() % 41 != 1)?;

    let words: Vec<&&[u8]> = lines.iter().enumerate().filter(|(at, _)| at % 41 > 0).map(|(_, line)| line).collect();
    let field = |line: &[u8], at: usize, width: usize| String::from_utf8_lossy(&line[at..at + width]).trim_start().to_string();
    let marked = |mark: &str| words.iter().filter(|line| field(line, 6, 4) == mark).count();
    let tries = words.iter().map(|line| field(line, 22, 2).parse().unwrap_or(0)).sum();
    fact("each word has a line, in order", (0..totals.words).map(|i| i.to_string()).eq(words.iter().map(|line| field(line, 0, 5))))?;
    fact("a space stands between columns", words.iter().all(|line| [5, 10, 15, 21].iter().all(|&at| line[at] == b' ')))?;
    let negative = |line: &[u8]| field(line, 16, 5).starts_with('-');
    fact("a fair word's margin is below 0, and no other's", words.iter().all(|line| negative(line) == (field(line, 6, 4) == "fair")))?;
    let counted = Totals { words: words.len(), sure: marked("sure"), fair: marked("fair"), lost: marked("lost"), tries };
    fact("the totals count the lines", totals == counted)
}

fn hard_holds(code: Code, bits: &[u8], answer: Hard, written: &[u8], sent: Option<&[u8]>) -> Fact {
    if let Hard::Found { flips, positions } = answer {
        fact("what is found is a codeword", is_codeword(code, written))?;
        fact("the flips are those made, at most t", flips == differences(written, bits).count() && flips <= code.t)?;
        let (flipped, unused) = positions.split_at(flips);
        fact("the positions are those flipped", flipped.iter().all(|&position| written[position] != bits[position]))?;
        fact("the positions rise", flipped.windows(2).all(|pair| pair[0] < pair[1]))?;
        fact("unused places are 0", unused.iter().all(|&place| place == 0))?;
    }
    match sent {
        Some(sent) if differences(sent, bits).count() <= code.t => fact("a sent word within t flips is found", written == sent),
        _ => Ok(()),
    }
}

/// What the soft stage was handed.
struct Word<'a> {
    code: Code,
    depth: usize,
    symbols: &'a [u8],
    bits: Vec<u8>,
}

impl Word<'_> {
    fn found_holds(&self, found: &Found, written: &[u8], sent: Option<&[u8]>) -> Fact {
        fact("what is found is a codeword", is_codeword(self.code, written))?;
        fact("the flips are those made", found.flips == differences(written, &self.bits).count())?;
        fact("the distance is that of the codeword", found.distance == self.distance(written))?;
        if let Some(sent) = sent {
            let sent_distance = self.distance(sent);
            fact("no sent word that is near is nearer", !self.is_near(sent) || found.distance <= sent_distance)?;
            let bound = found.distance as i64 + i64::from(found.margin);
            fact("every other codeword has at least the distance plus the margin", written == sent || sent_distance as i64 >= bound)?;
        }
        Ok(())
    }

    fn distance(&self, codeword: &[u8]) -> usize {
        differences(codeword, &self.bits).map(|position| usize::from(self.symbols[position] & 15)).sum()
    }

    /// Whether the hard bits differ from the codeword in at most t positions beyond the weak ones.
    fn is_near(&self, codeword: &[u8]) -> bool {
        let weakest = weakest(self.symbols);
        differences(codeword, &self.bits).filter(|position| !weakest[..self.depth].contains(position)).count() <= self.code.t
    }
}

/// The positions, the weakest first.
pub fn weakest(symbols: &[u8]) -> Vec<usize> {
    let mut positions: Vec<usize> = (0..symbols.len()).collect();
    positions.sort_by_key(|&position| (symbols[position] & 15, position));
    positions
}

/// Whether the word has bits alone and the syndromes S1 to S(2t-1) are 0, each by Horner's rule.
fn is_codeword(code: Code, word: &[u8]) -> bool {
    let syndrome = |i| word.iter().rev().fold(0, |sum, &bit| times_alpha(code.m, sum, i) ^ u32::from(bit));
    word.iter().all(|&bit| bit <= 1) && (0..code.t).all(|i| syndrome(2 * i + 1) == 0)
}

/// The element times α, so many times.
fn times_alpha(m: usize, element: u32, times: usize) -> u32 {
    let polynomial = [0x25, 0x43, 0x89, 0x11d][m - 5];
    (0..times).fold(element, |element, _| (element << 1) ^ (element >> (m - 1)) * polynomial)
}
