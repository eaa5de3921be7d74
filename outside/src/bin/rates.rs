//! The receiver's error rates over a channel with Gaussian noise, as `docs/ERROR-RATES.md` tells. Prints a line for each point and then
//! tables of gains, tries and marks, and writes the counts to `docs/error-rates.tsv` and the tables to that page.
//!
//!     rates                 the whole, in some minutes
//!     rates --tables        the tables again, from the counts that are in the file
//!     rates --against FILE  sure words and tries of the counts in FILE beside those of the counts that are in the file; writes nothing
//!     rates --quick         few words, in some seconds; writes nothing
//!     rates --steps         compares steps of the ladder, in a minute or two; writes nothing

use outside::channel::{Channel, Limit};
use outside::error_rates::{
    codes, crossing, curve, message_length, name, nearest, read_rows, write_rows, Decoder, Row, COMPARED, DECODERS, DEEP, MARKING,
};
use outside::mark_tables;
use outside::reference::Code;
use std::{env, error::Error, fs, path::Path};

/// The codes, each with its first and its last Eb/N0. Between them a point stands every half dB.
const RANGES: [(Code, f64, f64); 4] =
    [(Code::new(6, 2, 63), 3.0, 8.0), (Code::new(6, 2, 31), 3.0, 8.5), (Code::new(8, 2, 255), 4.0, 8.0), (Code::new(8, 3, 255), 4.0, 7.5)];

const FULL: Limit = Limit { word_errors: 400, wrong_sure: 100, bits: 200_000_000 };
const QUICK: Limit = Limit { word_errors: 100, wrong_sure: 0, bits: 1_000_000 };

/// The ladder's edges are 1 to 15 times this, where the amplitude of the signal is 1: the strongest reliability begins at 0.9375. With a
/// larger step too many weak levels are alike, with a much smaller one too many strong ones. `rates --steps` shows it: words of 255 bits want
/// a somewhat smaller step and the short words a somewhat larger one, and around this one the rates of all four change little.
const STEP: f32 = 0.0625;

/// Where steps of the ladder are compared: at depth 4 and 6 the bit error rate is between 1e-5 and 2e-4 there.
const STEP_POINTS: [(Code, f64); 4] = [(RANGES[0].0, 5.0), (RANGES[1].0, 5.0), (RANGES[2].0, 6.0), (RANGES[3].0, 5.5)];

/// The code of the tables that show what the marks mean, with Eb/N0 and depths.
const MARKED: Code = RANGES[0].0;
const MARK_POINTS: [f64; 4] = [3.0, 4.0, 5.0, 6.0];
const MARK_DEPTHS: [usize; 2] = [0, 4];

/// The point of these tables where sure words are wrong most seldom: it may go on for five times as many bits.
const LONGER: (Code, f64) = (MARKED, 6.0);

/// Where the margins of fair words are looked at.
const MARGIN_POINTS: [f64; 3] = [3.0, 4.0, 5.0];
const MARGIN_DEPTH: usize = 4;

/// The bit error rate at which decoders are compared.
const TARGET: f64 = 1e-5;

/// The rate of bits that arrive wrong at which tries are compared.
const NOISE: f64 = 0.008;

/// Where counts are held against others: at these depths, at the point nearest to the target and at points so many dB noisier.
const HELD: [Decoder; 3] = [Decoder::Soft(2), Decoder::Soft(4), Decoder::Soft(6)];
const NOISIER: [f64; 3] = [0.0, 0.5, 1.5];

fn main() -> Result<(), Box<dyn Error>> {
    let docs = Path::new(concat!(env!("CARGO_MANIFEST_DIR"), "/../docs"));
    let [counts, page] = ["error-rates.tsv", "ERROR-RATES.md"].map(|name| docs.join(name));
    let arguments: Vec<String> = env::args().skip(1).collect();
    match arguments.iter().map(String::as_str).collect::<Vec<_>>()[..] {
        [] => {
            let rows = simulate(FULL)?;
            write_rows(&counts, &rows)?;
            write_page(&page, &rows)
        }
        ["--tables"] => write_page(&page, &read_rows(&counts)?),
        ["--against", file] => {
            print!("{}", against(&read_rows(Path::new(file))?, &read_rows(&counts)?));
            Ok(())
        }
        ["--quick"] => {
            print!("{}", parts(&simulate(QUICK)?, 1).join("\n"));
            Ok(())
        }
        ["--steps"] => {
            compare_steps();
            Ok(())
        }
        _ => Err("usage: rates [--tables | --against FILE | --quick | --steps]".into()),
    }
}

/// Every point of every code.
fn simulate(limit: Limit) -> Result<Vec<Row>, String> {
    let mut rows = Vec::new();
    for (code, first, last) in RANGES {
        print_head(code);
        let steps = ((last - first) * 2.0) as u32;
        for step in 0..=steps {
            let channel = Channel::new(code, first + 0.5 * f64::from(step), STEP);
            let times = if (code, channel.ebn0) == LONGER { 5 } else { 1 };
            let point = channel.measure(Limit { bits: times * limit.bits, ..limit });
            print_point(&point);
            check(&channel, &point)?;
            rows.extend(point);
        }
        println!();
    }
    Ok(rows)
}

fn print_head(code: Code) {
    println!("{}", name(code));
    println!("{:14}{:>66}{:>58}{:>38}{:>38}{:>44}", "", "bit error rate", "word error rate", "mean tries", "sure, %", "sure but wrong");
    print!("{:>5}{:>9}", "Eb/N0", "words");
    print_fields(&[&DECODERS[..1], &COMPARED].concat(), |decoder| format!("{decoder:>8}"));
    print_fields(&COMPARED, |decoder| format!("{decoder:>8}"));
    print_fields(&DEEP, |decoder| format!("{decoder:>6}"));
    print_fields(&DEEP, |decoder| format!("{decoder:>6}"));
    print_fields(&MARKING, |decoder| format!("{decoder:>6}"));
    println!();
}

fn print_point(point: &[Row]) {
    let of = |decoders: &[Decoder]| -> Vec<Row> { point.iter().filter(|row| decoders.contains(&row.decoder)).copied().collect() };
    print!("{:>5.1}{:>9}", point[0].ebn0, point[0].count.words);
    print_fields(&[&point[..1], &of(&COMPARED)].concat(), |row| format!("{:>8.1e}", row.bit_error_rate()));
    print_fields(&of(&COMPARED), |row| format!("{:>8.1e}", row.word_error_rate()));
    print_fields(&of(&DEEP), |row| format!("{:>6.2}", row.mean_tries()));
    print_fields(&of(&DEEP), |row| format!("{:>6.1}", 100.0 * row.sure_share()));
    print_fields(&of(&MARKING), |row| format!("{:>6}", row.count.wrong_sure));
    println!();
}

fn print_fields<T>(items: &[T], field: impl Fn(&T) -> String) {
    print!("  {}", items.iter().map(field).collect::<String>());
}

/// Holds a point to the two rates that are known: of the bits that arrive wrong, and of hard decoding.
fn check(channel: &Channel, point: &[Row]) -> Result<(), String> {
    let (bits, words) = (point[0].count, point[1].count);
    let sent = bits.words * message_length(channel.code) as u64;
    agree(bits.bit_errors, sent, channel.bit_error_probability())
        .and_then(|_| agree(words.word_errors, words.words, channel.hard_error_probability()))
        .map_err(|error| format!("{} at {} dB: {error}", name(channel.code), channel.ebn0))
}

/// Allows five standard deviations, or five errors where so few are due.
fn agree(errors: u64, sent: u64, probability: f64) -> Result<(), String> {
    let mean = sent as f64 * probability;
    let deviation = (mean * (1.0 - probability)).sqrt();
    if (errors as f64 - mean).abs() > 5.0 * deviation.max(1.0) {
        return Err(format!("{errors} errors where {mean:.1} are due, with a standard deviation of {deviation:.1}"));
    }
    Ok(())
}

/// Prints the tables and puts them in the page.
fn write_page(page: &Path, rows: &[Row]) -> Result<(), Box<dyn Error>> {
    let parts = parts(rows, 32);
    print!("{}", parts.join("\n"));
    write_parts(page, &parts)
}

/// The parts of the page that are written here, in their order. The margins are those of so many rounds of words.
fn parts(rows: &[Row], rounds: u64) -> [String; 5] {
    let margins = MARGIN_POINTS.map(|ebn0| (ebn0, Channel::new(MARKED, ebn0, STEP).fair_margins(MARGIN_DEPTH, rounds)));
    [
        tables(rows),
        mark_tables::short_table(rows, MARKED, &MARK_POINTS, &MARK_DEPTHS),
        mark_tables::margin_table(&margins),
        mark_tables::depth_tables(rows),
        mark_tables::code_tables(rows),
    ]
}

/// The gains and tries, in Markdown.
fn tables(rows: &[Row]) -> String {
    let gain = |code, decoder| {
        let hard = crossing(&curve(rows, code, Decoder::Hard), TARGET)?;
        let soft = crossing(&curve(rows, code, decoder), TARGET)?;
        Some(if decoder == Decoder::Hard { format!("at {hard:.2}") } else { format!("{:.2}", hard - soft) })
    };
    let near = |code, decoder| nearest(&curve(rows, code, decoder), TARGET);
    let tries = |code, decoder| near(code, decoder).map(|row| format!("{:.1} ({:.2} at {:.1})", row.saving(), row.mean_tries(), row.ebn0));
    let sure = |code, decoder| near(code, decoder).map(|row| format!("{:.1}", 100.0 * row.sure_share()));
    let saving = |code, decoder| {
        let noise = nearest(&curve(rows, code, Decoder::Absent), NOISE)?;
        let row = curve(rows, code, decoder).into_iter().find(|row| row.ebn0 == noise.ebn0)?;
        Some(if row == noise { format!("{:.2} % wrong", 100.0 * row.bit_error_rate()) } else { format!("{:.1}", row.saving()) })
    };
    [
        table("Gain over hard decoding in dB, at a bit error rate of 1e-5", rows, &COMPARED, gain),
        table(
            "How many times more 2^p is than the mean tries (and these, at Eb/N0 in dB), at the point nearest to that rate",
            rows,
            &DEEP,
            tries,
        ),
        table(
            "The same at the point where the share of bits that arrive wrong is, by its logarithm, nearest to 0.8 percent",
            rows,
            &[&DECODERS[..1], &DEEP].concat(),
            saving,
        ),
        table("Sure words in percent, at the point nearest to a bit error rate of 1e-5", rows, &DEEP, sure),
    ]
    .join("\n")
}

/// A table with a row for each code and a column for each decoder.
fn table(title: &str, rows: &[Row], decoders: &[Decoder], cell: impl Fn(Code, Decoder) -> Option<String>) -> String {
    let heads: String = decoders.iter().map(|decoder| format!(" {} |", decoder.label())).collect();
    let mut text = format!("{title}:\n\n| n, k, t |{heads}\n|---|{}\n", "---|".repeat(decoders.len()));
    for code in codes(rows) {
        let cell = |&decoder| format!(" {} |", cell(code, decoder).unwrap_or_else(|| "not reached".to_string()));
        text += &format!("| {} |{}\n", name(code), decoders.iter().map(cell).collect::<String>());
    }
    text
}

/// Sure words in percent and mean tries, by the counts before and after, in Markdown.
fn against(before: &[Row], after: &[Row]) -> String {
    let at = |rows, code, decoder, ebn0| curve(rows, code, decoder).into_iter().find(|row| row.ebn0 == ebn0);
    let cell = |code, decoder, noisier: f64| {
        let ebn0 = nearest(&curve(before, code, decoder), TARGET)?.ebn0 - noisier;
        let (before, after) = (at(before, code, decoder, ebn0)?, at(after, code, decoder, ebn0)?);
        let [sure, more] = [before, after].map(|row| 100.0 * row.sure_share());
        Some(format!("{sure:.2} to {more:.2} %, {:.2} to {:.2} ({ebn0:.1} dB)", before.mean_tries(), after.mean_tries()))
    };
    let heads: String =
        NOISIER.map(|noisier| if noisier > 0.0 { format!(" {noisier} dB noisier |") } else { " nearest |".to_string() }).concat();
    let mut text = format!("| n, k, t | depth |{heads}\n|---|---|{}\n", "---|".repeat(NOISIER.len()));
    for code in codes(after) {
        for decoder in HELD {
            let cell = |noisier| format!(" {} |", cell(code, decoder, noisier).unwrap_or_else(|| "not reached".to_string()));
            text += &format!("| {} | {decoder} |{}\n", name(code), NOISIER.map(cell).concat());
        }
    }
    text
}

/// Puts the parts in the page, each between the two lines that mark its place.
fn write_parts(page: &Path, parts: &[String]) -> Result<(), Box<dyn Error>> {
    const MARKS: [&str; 2] = ["<!-- written by rates -->\n", "<!-- end -->\n"];
    let text = fs::read_to_string(page)?;
    let places: Vec<&str> = text.split(MARKS[0]).collect();
    if places.len() != parts.len() + 1 {
        return Err(format!("the page has {} places for {} parts", places.len() - 1, parts.len()).into());
    }
    let mut written = places[0].to_string();
    for (place, part) in places[1..].iter().zip(parts) {
        let end = place.find(MARKS[1]).ok_or("a place on the page has no end")?;
        written += &format!("{}\n{part}\n{}", MARKS[0], &place[end..]);
    }
    fs::write(page, written)?;
    Ok(())
}

/// Prints bit error rates and mean tries with several steps of the ladder and the same noise.
fn compare_steps() {
    const LIMIT: Limit = Limit { word_errors: u64::MAX, wrong_sure: 0, bits: 40_000_000 };
    const STEPS: [f32; 8] = [0.025, 0.05, 0.0625, 0.075, 0.1, 0.125, 0.15, 0.2];
    println!("{:13}{:>6}{:>6}{}", "step", "Eb/N0", "depth", STEPS.map(|step| format!("{step:>15}")).concat());
    for (code, ebn0) in STEP_POINTS {
        let points = STEPS.map(|step| Channel::new(code, ebn0, step).measure(LIMIT));
        for decoder in [Decoder::Soft(2), Decoder::Soft(4), Decoder::Soft(6)] {
            let cell = |row: Row| format!("{:>9.2e}{:>6.2}", row.bit_error_rate(), row.mean_tries());
            let cells: String = points.iter().flat_map(|point| curve(point, code, decoder)).map(cell).collect();
            println!("{:13}{ebn0:>6.1}{decoder:>6}{cells}", name(code));
        }
    }
}
