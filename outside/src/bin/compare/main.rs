//! `compare [SEED] [WORDS]` draws calls of every kind until so many words were answered, and holds what the archive answers and leaves in the
//! buffers, called directly and through the crate `bch_receiver`, to the reference. It ends with status 1 at the first difference and prints
//! that call; `compare repeat [CALL]` repeats a call that is so printed, or read from standard input.

mod call;
mod drawn;
mod facts;
mod safe;
mod tally;

use call::{hex, Call, Outcome, ARCHIVE, CRATE, REFERENCE};
use drawn::Drawn;
use outside::draw::Draw;
use std::fmt;
use std::process::ExitCode;
use tally::Tally;

const SEED: u64 = 1;
const WORDS: usize = 1_000_000;

fn main() -> ExitCode {
    let arguments: Vec<String> = std::env::args().skip(1).collect();
    let arguments: Vec<&str> = arguments.iter().map(String::as_str).collect();
    let done = match arguments[..] {
        ["repeat"] => read_line().and_then(|text| repeat(&text)),
        ["repeat", text] => repeat(text),
        [] => Some(run(SEED, WORDS)),
        [seed] => seed.parse().ok().map(|seed| run(seed, WORDS)),
        [seed, words] => seed.parse().ok().zip(words.parse().ok()).map(|(seed, words)| run(seed, words)),
        _ => None,
    };
    done.unwrap_or_else(|| {
        eprintln!("usage: compare [SEED] [WORDS] | compare repeat [CALL]");
        ExitCode::from(2)
    })
}

fn run(seed: u64, words: usize) -> ExitCode {
    let mut draw = Draw::new(seed);
    let mut tally = Tally::default();
    while tally.words() < words {
        let Drawn { call, sent } = drawn::call(&mut draw);
        let compared = Compared::new(&call, sent.as_deref());
        if compared.failure.is_some() {
            println!("call: {call}\nsent: {}\n{compared}", sent.as_deref().map_or("unknown".to_string(), hex));
            return ExitCode::FAILURE;
        }
        tally.count(&call, &compared.archive);
    }
    println!("{tally}{} words, 0 differences", tally.words());
    ExitCode::SUCCESS
}

/// Runs the call that the text tells.
fn repeat(text: &str) -> Option<ExitCode> {
    let compared = Compared::new(&Call::parse(text)?, None);
    println!("{compared}");
    Some(if compared.failure.is_none() { ExitCode::SUCCESS } else { ExitCode::FAILURE })
}

fn read_line() -> Option<String> {
    let mut line = String::new();
    std::io::stdin().read_line(&mut line).ok()?;
    Some(line)
}

/// All outcomes of a call, and what is wrong with them.
struct Compared {
    archive: Outcome,
    safe: Outcome,
    reference: Outcome,
    failure: Option<String>,
}

impl Compared {
    fn new(call: &Call, sent: Option<&[u8]>) -> Compared {
        let (archive, safe, reference) = (call.run(&ARCHIVE), call.run(&CRATE), call.run(&REFERENCE));
        let failure = if archive != reference || safe != reference {
            Some("the outcomes differ".to_string())
        } else {
            facts::broken(call, &archive, sent).map(|fact| format!("this does not hold: {fact}"))
        };
        Compared { archive, safe, reference, failure }
    }
}

impl fmt::Display for Compared {
    fn fmt(&self, f: &mut fmt::Formatter<'_>) -> fmt::Result {
        let verdict = self.failure.as_deref().unwrap_or("no difference");
        write!(f, "archive: {}\ncrate: {}\nreference: {}\n{verdict}", self.archive, self.safe, self.reference)
    }
}
