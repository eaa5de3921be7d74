//! `records STDIN STDOUT ROUND` writes the records of the program `runner`, the answers that it must give, and the take of `examples/`.
//! `tools/records` runs it, and compares the three files with those in the repository.
//!
//! A record is a call on a line: its name, numbers in decimal, bytes in hex, an f32 as its bit pattern, `-` for nothing. A lent buffer is told by
//! its length, and holds 7s before the call. The answer is a line too, or the lines of a listing or a strip, with what the lent buffers then
//! hold. A line that begins with `#` is a heading, in both files.
//!
//!     encode M T N MESSAGE ROOM         written CODEWORD
//!     hard M T N BITS ROOM              found|lost FLIPS POSITION POSITION POSITION CODEWORD
//!     soft M T N DEPTH SYMBOLS ROOM     sure|fair DISTANCE MARGIN FLIPS PLACE TRIES CODEWORD | lost TRIES CODEWORD
//!     totals                            totals WORDS SURE FAIR LOST TRIES, of the soft records since the last such record
//!     ladder EDGES                      ladder
//!     quantise EDGES KINDS LEVELS ROOM  written SYMBOLS
//!     open TAKE                         opened WORDS M T N DEPTH OFFSET LABEL
//!     word TAKE INDEX ROOM              as soft
//!     take TAKE MESSAGES MARKS          read WORDS SURE FAIR LOST TRIES MESSAGES MARKS
//!     list TAKE                         what takelist prints
//!     print TAKE ROOM                   printed WORDS SURE FAIR LOST TRIES STRIP
//!     length TAKE                       length BYTES, of the strip
//!     strip TAKE                        what the program strip prints
//!     weights M T N                     weights WEIGHT:COUNT .., of all codewords
//!
//! Or `refused NUMBER PLACE` and the buffers; for `hard` the flips and the positions, all 0, stand before the buffer.
//!
//! No answer comes from the receiver. Those in `published`, `linux` and `worked` are numbers that others have printed, and some strips are
//! written by hand; the rest is answered by the second implementation of document 01, which is held to all that is known besides.

mod call;
mod draw;
mod edges;
mod linux;
mod published;
mod refused_takes;
mod samples;
mod sheet;
mod strips;
mod take;
mod takes;
mod text;
mod words;
mod worked;

use outside::reference::{self, Code};
use sheet::Sheet;
use std::io;
use std::process::ExitCode;

fn main() -> ExitCode {
    let paths: Vec<String> = std::env::args().skip(1).collect();
    match &paths[..] {
        [stdin, stdout, round] => match write(stdin, stdout, round) {
            Ok(()) => ExitCode::SUCCESS,
            Err(error) => {
                eprintln!("a file can't be written: {error}");
                ExitCode::FAILURE
            }
        },
        _ => {
            eprintln!("usage: records STDIN STDOUT ROUND");
            ExitCode::from(2)
        }
    }
}

fn write(stdin: &str, stdout: &str, round: &str) -> io::Result<()> {
    let sheet = all();
    std::fs::write(stdin, &sheet.records)?;
    std::fs::write(stdout, &sheet.answers)?;
    std::fs::write(round, takes::round().bytes())?;
    eprint!("{sheet}");
    eprintln!("{} bytes of records, {} bytes of answers", sheet.records.len(), sheet.answers.len());
    Ok(())
}

fn all() -> Sheet {
    let mut sheet = Sheet::default();
    worked::add(&mut sheet);
    edges::add(&mut sheet);
    published::add(&mut sheet);
    linux::add(&mut sheet);
    words::add(&mut sheet);
    samples::add(&mut sheet);
    takes::add(&mut sheet);
    refused_takes::add(&mut sheet);
    strips::add(&mut sheet);
    sheet
}

/// The twelve pairs of m and t.
fn codes() -> impl Iterator<Item = (usize, usize)> {
    (5..=8).flat_map(|m| (1..=3).map(move |t| (m, t)))
}

/// The codeword that carries the message.
fn codeword(code: Code, message: &[u8]) -> Vec<u8> {
    let mut codeword = vec![0; code.n];
    reference::encode(code, message, &mut codeword).expect("a code and its message");
    codeword
}

#[cfg(test)]
mod tests {
    use std::path::Path;

    fn in_repository(file: &str) -> Vec<u8> {
        let path = Path::new(env!("CARGO_MANIFEST_DIR")).join("..").join(file);
        std::fs::read(&path).unwrap_or_else(|error| panic!("{}: {error}", path.display()))
    }

    /// The files in the repository are those that are made here; `tools/records --write` writes them.
    #[test]
    fn files_are_as_made() {
        let sheet = super::all();
        assert!(in_repository("crates/runner/stdin") == sheet.records.into_bytes(), "crates/runner/stdin differs");
        assert!(in_repository("crates/runner/stdout") == sheet.answers.into_bytes(), "crates/runner/stdout differs");
        assert!(in_repository("examples/round.take") == super::takes::round().bytes(), "examples/round.take differs");
    }
}
