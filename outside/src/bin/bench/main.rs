//! Prints one table: how long the receiver's calls take, and beside them what may be used in their place, on the same inputs. Where one
//! of these answers otherwise than the receiver, the program says so and ends with status 1. (Not compared are the textbook's tries, and
//! IT++ on words with more than t errors.) Arguments name calls: the rows of others are left out.
mod c;
mod calls;
mod draw;
mod itpp;
mod row;
mod table;
mod takelist;

use draw::{HEAVY, LIGHT, STRONG};
use outside::reference::Code;
use std::process::ExitCode;
use std::{env, fs};
use table::Line;

/// How often the whole table is measured: the least time of each cell counts, so a busy minute does no harm.
const SWEEPS: usize = 5;

const CODES: [Code; 4] = [Code::new(5, 2, 31), SHORT, Code::new(8, 2, 255), LONG];
const SHORT: Code = Code::new(6, 2, 63);
const LONG: Code = Code::new(8, 3, 255);
/// The shortest code. Its takes have the most words.
const SHORTEST: Code = Code::new(5, 1, 6);

/// The calls that have rows.
const CALLS: [&str; 7] = ["encode", "hard", "soft", "read_take", "print_take", "quantise", "takelist"];

fn main() -> ExitCode {
    if env::args().skip(1).any(|name| !CALLS.contains(&name.as_str())) {
        eprintln!("usage: bench [CALL...], where CALL is one of {}", CALLS.join(", "));
        return ExitCode::from(2);
    }
    print_setting();
    match measure() {
        Ok(lines) => {
            table::print(&lines);
            ExitCode::SUCCESS
        }
        Err(difference) => {
            eprintln!("{}", difference);
            ExitCode::FAILURE
        }
    }
}

/// Says what was measured, and how.
fn print_setting() {
    println!("{}; {}; {}, -O3; {}.", processor(), env!("BENCH_RUSTC"), env!("BENCH_CC"), env!("BENCH_ITPP"));
    println!(
        "Nanoseconds of processor time for a word (quantise: a sample; takelist: of real time for a byte of the take, its\n\
         start included): the least of up to {} rounds, in which the columns take turns (takelist: of 100 runs). In brackets: times the receiver's.\n\
         Light noise turns 0.9 percent of the bits, heavy noise 2.8 percent: 2.2 and 7.1 bits in 255.\n\
         Strong words have no wrong bits, and the reliability 15 but for 3 percent of the symbols, which have 8 to 14.\n\
         Rust: outside/src/reference.rs, made to be plain. Textbook C, C: outside/c/core.c.\n\
         C decodes as the receiver does (by other tables; it ranks by instructions of SSE2, and its quantiser makes four\n\
         comparisons where the receiver makes fifteen), checks nothing, and has its tables before the clock starts, as\n\
         Rust and IT++ have. The receiver checks its inputs and fills its tables in each call but encode. IT++'s time\n\
         includes turning the words into its order. The buffers are not cleared between calls.",
        SWEEPS * row::ROUNDS
    );
    if takelist::program().is_none() {
        println!("The program takelist is not built: its rows are left out.");
    }
    println!();
}

fn processor() -> String {
    let text = fs::read_to_string("/proc/cpuinfo").unwrap_or_default();
    let name = text.lines().find(|line| line.starts_with("model name")).and_then(|line| line.split(": ").nth(1));
    name.unwrap_or("a processor without a name").to_string()
}

/// Measures the table several times and keeps the least times.
fn measure() -> Result<Vec<Line>, String> {
    let mut lines = sweep()?;
    for _ in 1..SWEEPS {
        lines.iter_mut().zip(sweep()?).for_each(|(line, again)| line.merge(&again));
    }
    for line in lines.iter_mut().filter(|line| line.call == "takelist") {
        let rate = line.times[row::Column::Receiver as usize].map_or(0.0, |each| 1000.0 / each);
        line.case += &format!(": {:.1} MB/s", rate);
    }
    Ok(lines)
}

/// Whether the rows of a call are asked for.
fn asked(call: &str) -> bool {
    let mut names = env::args().skip(1).peekable();
    names.peek().is_none() || names.any(|name| name == call)
}

fn sweep() -> Result<Vec<Line>, String> {
    let mut lines = Vec::new();
    for code in CODES {
        if asked("encode") {
            lines.push(calls::encode(code)?);
        }
        if asked("hard") {
            for errors in [0, code.t, code.t + 1] {
                lines.push(calls::hard(code, errors)?);
            }
        }
    }
    if asked("soft") {
        for code in [SHORT, LONG] {
            for channel in [LIGHT, HEAVY] {
                for depth in [0, 3, 6] {
                    lines.push(calls::soft(code, channel, depth)?);
                }
            }
        }
    }
    if asked("read_take") {
        for (code, words) in [(SHORT, 900), (SHORT, 4000), (LONG, 200), (LONG, 2000)] {
            for channel in [LIGHT, HEAVY] {
                for depth in [0, 3, 6] {
                    lines.push(calls::read_take(code, words, channel, depth)?);
                }
            }
        }
        for (code, words) in [(SHORT, 4000), (LONG, 2000)] {
            lines.push(calls::read_take(code, words, STRONG, 0)?);
        }
    }
    // The same takes are read and printed.
    if asked("print_take") {
        for channel in [LIGHT, HEAVY] {
            lines.push(calls::read_take(SHORT, 1000, channel, 3)?);
            lines.push(calls::print_take(SHORT, 1000, channel, 3)?);
        }
    }
    if asked("quantise") {
        lines.push(calls::quantise("no blanks", false)?);
        lines.push(calls::quantise("half of them blank", true)?);
    }
    if let Some(program) = takelist::program().filter(|_| asked("takelist")) {
        for code in [SHORT, LONG, SHORTEST] {
            lines.push(takelist::line(&program, code)?);
        }
    }
    Ok(lines)
}
