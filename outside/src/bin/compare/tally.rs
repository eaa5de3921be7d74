//! What the calls of a run added up to.

use crate::call::{Answer, Call, Outcome, Request, NAMES};
use outside::reference::{Code, Hard, Soft};
use std::collections::BTreeSet;
use std::fmt;

/// The counts of one kind of call. A call that is refused has no words.
#[derive(Clone, Copy, Default)]
struct Row {
    calls: usize,
    words: usize,
    lost: usize,
    fair: usize,
    sure: usize,
    refused: [usize; 15],
}

#[derive(Default)]
pub struct Tally {
    rows: [Row; NAMES.len()],
    codes: BTreeSet<(usize, usize, usize)>,
    depths: BTreeSet<usize>,
    /// Words that are searched at a depth above 0, and those of them where the last weak position is as reliable as the next one.
    searched: usize,
    tied: usize,
    /// Words in which the hard stage flips so many positions, and those of them where position 0 is one.
    flips: [usize; 4],
    flips_first: usize,
    /// Strips without words, with words on one page, on two, and on more.
    pages: [usize; 4],
}

impl Tally {
    pub fn words(&self) -> usize {
        self.rows.iter().map(|row| row.words).sum()
    }

    pub fn count(&mut self, call: &Call, outcome: &Outcome) {
        self.note_settings(call, outcome);
        let row = &mut self.rows[call.request.index()];
        row.calls += 1;
        match &outcome.answer {
            Err(refusal) => row.refused[usize::from(refusal.number)] += 1,
            Ok(Answer::Done) => row.words += usize::from(matches!(call.request, Request::Encode { .. })),
            Ok(Answer::Hard(answer)) => {
                row.words += 1;
                match *answer {
                    Hard::Lost => row.lost += 1,
                    Hard::Found { flips, positions } => {
                        self.flips[flips] += 1;
                        self.flips_first += usize::from(flips > 0 && positions[0] == 0);
                    }
                }
            }
            Ok(Answer::Soft(answer)) => {
                row.words += 1;
                *row.mark(answer) += 1;
            }
            Ok(Answer::Opened(_) | Answer::Length(_)) => (),
            Ok(Answer::Read(totals) | Answer::Printed(totals)) => {
                row.words += totals.words;
                row.lost += totals.lost;
                row.fair += totals.fair;
                row.sure += totals.sure;
            }
        }
        if let Ok(Answer::Printed(totals)) = outcome.answer {
            self.pages[totals.words.div_ceil(40).min(3)] += 1;
        }
    }

    /// Notes the code and the depth of a call that is answered.
    fn note_settings(&mut self, call: &Call, outcome: &Outcome) {
        match (&call.request, &outcome.answer) {
            (Request::Encode { code, .. } | Request::DecodeHard { code, .. }, Ok(_)) => self.note(*code, None),
            (Request::DecodeSoft { code, depth, symbols }, Ok(_)) => {
                self.note(*code, Some(*depth));
                self.note_ties(*depth, symbols);
            }
            (
                Request::OpenTake { take } | Request::ReadTake { take } | Request::StripLength { take } | Request::PrintTake { take },
                Ok(answer),
            ) => {
                let (code, depth) = (Code::new(take[2].into(), take[3].into(), take[4].into()), take[6].into());
                self.note(code, Some(depth));
                if let Answer::Read(totals) | Answer::Printed(totals) = answer {
                    let words = &take[take.len() - totals.words * code.n..];
                    words.chunks(code.n).for_each(|word| self.note_ties(depth, word));
                }
            }
            _ => (),
        }
    }

    /// Notes whether positions that are equally reliable stand on both sides of the last weak one.
    fn note_ties(&mut self, depth: usize, symbols: &[u8]) {
        let mut reliabilities: Vec<u8> = symbols.iter().map(|symbol| symbol % 16).collect();
        reliabilities.sort_unstable();
        self.searched += usize::from(depth > 0);
        self.tied += usize::from(depth > 0 && reliabilities.get(depth - 1) == reliabilities.get(depth));
    }

    fn note(&mut self, code: Code, depth: Option<usize>) {
        self.codes.insert((code.m, code.t, code.n));
        self.depths.extend(depth);
    }
}

impl Row {
    fn mark(&mut self, answer: &Soft) -> &mut usize {
        match answer {
            Soft::Lost { .. } => &mut self.lost,
            Soft::Fair(_) => &mut self.fair,
            Soft::Sure(_) => &mut self.sure,
        }
    }
}

impl fmt::Display for Tally {
    fn fmt(&self, f: &mut fmt::Formatter<'_>) -> fmt::Result {
        writeln!(f, "{:12} {:>8} {:>8} {:>8} {:>8} {:>8}", "", "calls", "words", "lost", "fair", "sure")?;
        for (name, row) in NAMES.iter().zip(&self.rows) {
            writeln!(f, "{:12} {:8} {:8} {:8} {:8} {:8}", name, row.calls, row.words, row.lost, row.fair, row.sure)?;
        }
        write!(f, "\n{:12}", "refused by")?;
        (1..15).try_for_each(|number| write!(f, " {number:>6}"))?;
        for (name, row) in NAMES.iter().zip(&self.rows) {
            write!(f, "\n{name:12}")?;
            row.refused[1..].iter().try_for_each(|count| write!(f, " {count:6}"))?;
        }
        let pairs: BTreeSet<(usize, usize)> = self.codes.iter().map(|&(m, t, _)| (m, t)).collect();
        let codes: usize = (5..=8).flat_map(|m| (1..=3).map(move |t| (1 << m) - 1 - m * t)).sum();
        write!(f, "\n\nreached: {} of 12 pairs of m and t, {} of {codes} codes, ", pairs.len(), self.codes.len())?;
        writeln!(f, "{} of 7 depths", self.depths.len())?;
        writeln!(f, "equals on both sides of the last weak position: {} of {} words searched at depth 1 to 6", self.tied, self.searched)?;
        let [none, one, two, three] = self.flips;
        write!(f, "words that the hard stage finds by 0 to 3 flips: {none}, {one}, {two}, {three}; ")?;
        writeln!(f, "position 0 is flipped in {}", self.flips_first)?;
        let [none, one, two, more] = self.pages;
        writeln!(f, "strips without words: {none}; of one page: {one}, of two: {two}, of more: {more}")
    }
}
