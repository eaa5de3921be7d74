//! How fast the program takelist lists a take.
use crate::draw::{self, LIGHT};
use crate::row::{Column, COLUMNS};
use crate::table::{self, Line};
use outside::archive::read_take;
use outside::reference::Code;
use std::fs::{self, File};
use std::path::{Path, PathBuf};
use std::process::{self, Command};
use std::time::{Duration, Instant};
use std::{env, io};

const RUNS: usize = 20;

/// The longest take that it reads.
const BYTES: usize = 65536;

/// The program, where it is built.
pub fn program() -> Option<PathBuf> {
    Some(Path::new(env!("CARGO_MANIFEST_DIR")).join("../target/bin/takelist")).filter(|path| path.exists())
}

/// Measures a take at depth 0, of as many words as go into it. Its unit is a byte.
pub fn line(program: &Path, code: Code) -> Result<Line, String> {
    let words = (BYTES - 12) / code.n;
    let take = draw::take(code, 0, BYTES - 12 - words * code.n, &draw::received_words(code, LIGHT, words));
    let (took, listing) = list(program, &take).map_err(|error| format!("takelist: {}", error))?;
    if listing.lines().last() != Some(totals(code, words, &take).as_str()) {
        return Err(format!("takelist {}: its totals are not those of read_take", table::name(code)));
    }
    let mut times = [None; COLUMNS];
    times[Column::Receiver as usize] = Some(took.as_nanos() as f64 / BYTES as f64);
    Ok(Line { call: "takelist", code: table::name(code), case: "light noise, depth 0".to_string(), times })
}

/// The least time in which the program lists a take, and its listing.
fn list(program: &Path, take: &[u8]) -> io::Result<(Duration, String)> {
    let folder = env::temp_dir().join(format!("takelist-{}", process::id()));
    let (input, output) = (folder.join("take"), folder.join("listing"));
    fs::create_dir_all(&folder)?;
    fs::write(&input, take)?;
    let mut least = Duration::MAX;
    for _ in 0..RUNS {
        let mut command = Command::new(program);
        command.stdin(File::open(&input)?).stdout(File::create(&output)?);
        let start = Instant::now();
        command.status()?;
        least = least.min(start.elapsed());
    }
    let listing = fs::read_to_string(&output)?;
    fs::remove_dir_all(&folder)?;
    Ok((least, listing))
}

/// The last line of a listing.
fn totals(code: Code, words: usize, take: &[u8]) -> String {
    let mut messages = vec![0; words * (code.n - code.m * code.t)];
    let totals = read_take(take, &mut messages, &mut vec![0; words]).expect("a take");
    format!("{} {} {} {} {}", totals.words, totals.sure, totals.fair, totals.lost, totals.tries)
}
