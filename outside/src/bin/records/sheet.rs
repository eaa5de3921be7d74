//! The records and their answers, side by side, and how many there are of each kind.

use crate::call::Call;
use crate::text;
use outside::reference::{Refusal, Totals};
use std::collections::BTreeMap;
use std::fmt;

#[derive(Default)]
pub struct Sheet {
    pub records: String,
    pub answers: String,
    /// How many records there are, by the word that they begin with.
    kinds: BTreeMap<String, usize>,
    /// How often something occurred, in the order in which it was first named.
    occurred: Vec<(String, usize)>,
    /// The answers to soft records since the last record `totals`.
    soft_answers: Vec<String>,
}

impl Sheet {
    /// A heading over a part.
    pub fn part(&mut self, title: &str) {
        self.heading(&format!("---- {title}"));
    }

    /// A heading, which stands in both files.
    pub fn heading(&mut self, title: &str) {
        let line = format!("# {title}\n");
        self.records += &line;
        self.answers += &line;
    }

    /// A record and its answer, as text.
    pub fn add(&mut self, record: &str, answer: &str) {
        let kind = record.split(' ').next().unwrap_or_default().to_string();
        if kind == "soft" {
            self.soft_answers.push(answer.to_string());
        }
        *self.kinds.entry(kind).or_default() += 1;
        self.records += record;
        self.records += "\n";
        self.answers += answer;
        self.answers += "\n";
    }

    /// A call with the second implementation's answer, which is handed back.
    pub fn call(&mut self, call: Call) -> String {
        let answer = call.answer();
        self.add(&call.record(), &answer);
        answer
    }

    /// A named call that is not refused, with the second implementation's answer.
    pub fn taken(&mut self, name: &str, call: Call) {
        self.heading(name);
        let answer = self.call(call);
        assert!(!answer.starts_with("refused"), "{name}: {answer}");
    }

    /// A call with an answer that is known from elsewhere. The second implementation is held to it.
    pub fn known(&mut self, call: Call, answer: &str) {
        self.add(&call.record(), answer);
        assert_eq!(answer, call.answer(), "{}", call.record());
    }

    /// A named call that is refused with this number and place, which the second implementation is held to.
    pub fn refused(&mut self, name: &str, call: Call, number: u8, place: usize) {
        self.heading(name);
        let answer = self.call(call);
        let refusal = text::refused(Refusal { number, place });
        assert!(answer == refusal || answer.starts_with(&(refusal + " ")), "{name}: {answer}");
    }

    /// The record `totals`. The totals, which are handed back, are read off the answers to the soft records since the last one.
    pub fn totals(&mut self) -> String {
        let answers = std::mem::take(&mut self.soft_answers);
        let count = |mark: &str| answers.iter().filter(|answer| answer.starts_with(mark)).count();
        let (sure, fair, lost) = (count("sure"), count("fair"), count("lost"));
        let tries = answers.iter().map(|answer| tries(answer)).sum();
        let totals = text::totals(Totals { words: sure + fair + lost, sure, fair, lost, tries });
        self.heading("totals of the soft records before");
        self.add("totals", &format!("totals {totals}"));
        totals
    }

    /// Counts what occurred, so many times more.
    pub fn count(&mut self, what: &str, times: usize) {
        match self.occurred.iter_mut().find(|(name, _)| name == what) {
            Some((_, sum)) => *sum += times,
            None => self.occurred.push((what.to_string(), times)),
        }
    }
}

/// The tries of an answer to a soft record; a refusal has none.
fn tries(answer: &str) -> usize {
    let fields: Vec<&str> = answer.split(' ').collect();
    let tries = match fields[..] {
        ["sure" | "fair", _, _, _, _, tries, _] | ["lost", tries, _] => tries,
        _ => "0",
    };
    tries.parse().expect("tries are a number")
}

/// How many records there are of each kind, and how often something occurred.
impl fmt::Display for Sheet {
    fn fmt(&self, f: &mut fmt::Formatter<'_>) -> fmt::Result {
        writeln!(f, "{} records", self.kinds.values().sum::<usize>())?;
        self.kinds.iter().try_for_each(|(kind, count)| writeln!(f, "    {kind}: {count}"))?;
        writeln!(f, "among them")?;
        self.occurred.iter().try_for_each(|(what, times)| writeln!(f, "    {what}: {times}"))
    }
}
