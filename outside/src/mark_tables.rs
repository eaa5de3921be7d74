//! Tables of the marks: how many words are sure, fair and lost, and how many of the sure and of the fair ones are wrong.

use crate::error_rates::{codes, curve, name, Decoder, Row, DECODERS, MARKING};
use crate::reference::Code;

/// One code at some Eb/N0 and depths, in the form in which the README has it.
pub fn short_table(rows: &[Row], code: Code, ebn0s: &[f64], depths: &[usize]) -> String {
    let heads = ["depth", "sure", "fair", "lost", "wrong among sure", "wrong among fair"].map(str::to_string);
    let line = |row: Row| {
        let [sure, fair, lost] = shares(&row).map(|share| share + " %");
        let cells = vec![row.decoder.to_string(), sure, fair, lost, wrong_sure(&row), wrong_fair(&row)];
        (noise(rows, code, row.ebn0), cells)
    };
    let at_ebn0 = |&ebn0: &f64| depths.iter().filter_map(move |&depth| at(rows, code, ebn0, Decoder::Soft(depth)));
    table(NOISE_HEAD, &heads, ebn0s.iter().flat_map(at_ebn0).map(line))
}

/// For each code, at its first four whole dB, what each depth makes of the words: how many are lost, how many are wrong and yet not lost, and
/// the tries.
pub fn depth_tables(rows: &[Row]) -> String {
    let table = |code| format!("**{}**\n\n{}", name(code), depth_table(rows, code));
    codes(rows).into_iter().map(table).collect::<Vec<_>>().join("\n")
}

fn depth_table(rows: &[Row], code: Code) -> String {
    let ebn0s: Vec<f64> = whole(rows, code).take(4).collect();
    let heads: Vec<String> = ebn0s.iter().map(|&ebn0| noise(rows, code, ebn0)).collect();
    let cell = |row: Row| {
        let [lost, wrong] = [row.count.lost, row.count.wrong_sure + row.count.wrong_fair].map(|count| share(count, row.count.words));
        format!("{lost} / {wrong} / {:.2}", row.mean_tries())
    };
    let line = |decoder: Decoder| {
        let cells = ebn0s.iter().filter_map(|&ebn0| at(rows, code, ebn0, decoder)).map(cell);
        (decoder.to_string(), cells.collect())
    };
    table("depth", &heads, MARKING.map(line))
}

/// How many of the fair words are wrong, by the margin: for each Eb/N0 the margins of fair words, and whether each is wrong.
pub fn margin_table(measured: &[(f64, Vec<(i32, bool)>)]) -> String {
    const BANDS: [(i32, i32); 5] = [(-3, -1), (-6, -4), (-10, -7), (-15, -11), (i32::MIN, -16)];
    let heads: Vec<String> = measured.iter().map(|(ebn0, _)| format!("{ebn0} dB")).collect();
    let line = |(least, most): (i32, i32)| {
        let band = if least == i32::MIN { format!("{most} and below") } else { format!("{most} to {least}") };
        let cell = |(_, fair): &(f64, Vec<(i32, bool)>)| {
            let within = fair.iter().filter(|(margin, _)| (least..=most).contains(margin));
            let [wrong, of] = within.fold([0, 0], |[wrong, of], &(_, is_wrong)| [wrong + u64::from(is_wrong), of + 1]);
            let rate = if of == 0 { String::new() } else { format!(", {}", percent(wrong as f64 / of as f64)) };
            few(wrong, of) + &rate
        };
        (band, measured.iter().map(cell).collect())
    };
    table("margin", &heads, BANDS.map(line))
}

/// For each code all depths at each whole dB.
pub fn code_tables(rows: &[Row]) -> String {
    let tables = |code: Code| {
        let table = |title: &str, cell: &dyn Fn(&Row) -> String| format!("{title}:\n\n{}", matrix(rows, code, cell));
        [
            format!("**{}**\n", name(code)),
            table("Sure / fair / lost, in percent of all words", &|row| shares(row).join(" / ")),
            table("Wrong among sure words", &wrong_sure),
            table("Wrong among fair words", &wrong_fair),
        ]
        .join("\n")
    };
    codes(rows).into_iter().map(tables).collect::<Vec<_>>().join("\n")
}

/// A table with a line for each whole dB and a column for each depth.
fn matrix(rows: &[Row], code: Code, cell: &dyn Fn(&Row) -> String) -> String {
    let line = |ebn0: f64| {
        let cells = MARKING.iter().filter_map(|&decoder| at(rows, code, ebn0, decoder)).map(|row| cell(&row));
        (noise(rows, code, ebn0), cells.collect())
    };
    table(NOISE_HEAD, &MARKING.map(Decoder::label), whole(rows, code).map(line))
}

/// A table in Markdown: the heads of its first column and of the others, and its lines.
fn table(first: &str, heads: &[String], lines: impl IntoIterator<Item = (String, Vec<String>)>) -> String {
    let line = |(first, cells): (String, Vec<String>)| format!("| {first} | {} |\n", cells.join(" | "));
    let rule = format!("|{}\n", "---|".repeat(heads.len() + 1));
    line((first.to_string(), heads.to_vec())) + &rule + &lines.into_iter().map(line).collect::<String>()
}

/// Every whole dB at which the code is measured.
fn whole(rows: &[Row], code: Code) -> impl Iterator<Item = f64> {
    curve(rows, code, MARKING[0]).into_iter().map(|row| row.ebn0).filter(|ebn0| ebn0.fract() == 0.0)
}

fn at(rows: &[Row], code: Code, ebn0: f64, decoder: Decoder) -> Option<Row> {
    curve(rows, code, decoder).into_iter().find(|row| row.ebn0 == ebn0)
}

const NOISE_HEAD: &str = "Eb/N0 (bits wrong)";

/// Eb/N0, with the share of bits that arrive wrong.
fn noise(rows: &[Row], code: Code, ebn0: f64) -> String {
    at(rows, code, ebn0, DECODERS[0]).map_or(String::new(), |row| format!("{ebn0} dB ({:.2} %)", 100.0 * row.bit_error_rate()))
}

fn shares(row: &Row) -> [String; 3] {
    [row.count.sure, row.count.fair, row.count.lost].map(|count| share(count, row.count.words))
}

/// A share in percent, with two digits behind the point.
fn share(count: u64, of: u64) -> String {
    let percent = 100.0 * count as f64 / of as f64;
    match percent {
        _ if count == 0 || count == of => format!("{percent:.0}"),
        _ if percent < 0.005 => "<0.01".to_string(),
        _ if percent >= 99.995 => ">99.99".to_string(),
        _ => format!("{percent:.2}"),
    }
}

/// How many of the sure words are wrong: the rate where enough are, and else the counts.
fn wrong_sure(row: &Row) -> String {
    let one_in = |rate: f64| format!("1 in {}", grouped(two_digits(rate.recip())));
    row.wrong_sure_rate().map_or_else(|| few(row.count.wrong_sure, row.count.sure), one_in)
}

/// The same of the fair words.
fn wrong_fair(row: &Row) -> String {
    row.wrong_fair_rate().map_or_else(|| few(row.count.wrong_fair, row.count.fair), percent)
}

/// The counts alone.
fn few(wrong: u64, of: u64) -> String {
    if of == 0 {
        "-".to_string()
    } else {
        format!("{} of {}", grouped(wrong), grouped(of))
    }
}

/// A rate in percent, with two digits or three.
fn percent(rate: f64) -> String {
    match 100.0 * rate {
        percent if percent < 0.0995 => format!("{percent:.3} %"),
        percent if percent < 0.995 => format!("{percent:.2} %"),
        percent => format!("{percent:.1} %"),
    }
}

/// The nearest number with two digits that are not 0.
fn two_digits(x: f64) -> u64 {
    let unit = 10f64.powf(x.log10().floor() - 1.0).max(1.0);
    ((x / unit).round() * unit).round() as u64
}

/// A number with a comma after each third digit from its end.
fn grouped(number: u64) -> String {
    match number {
        0..=999 => number.to_string(),
        _ => format!("{},{:03}", grouped(number / 1000), number % 1000),
    }
}

#[cfg(test)]
mod tests {
    use super::*;
    use crate::error_rates::Count;

    #[test]
    fn few_wrong_words_are_told_by_their_number() {
        let cells = |wrong, of| {
            let count = Count { sure: of, wrong_sure: wrong, fair: of, wrong_fair: wrong, ..Count::default() };
            let row = Row { code: Code::new(6, 2, 63), ebn0: 4.0, decoder: Decoder::Soft(4), count };
            [wrong_sure(&row), wrong_fair(&row)]
        };
        assert_eq!(cells(0, 0), ["-"; 2]);
        assert_eq!(cells(0, 3_689_618), ["0 of 3,689,618"; 2]);
        assert_eq!(cells(9, 1_045), ["9 of 1,045"; 2]);
        assert_eq!(cells(10, 1_045), ["1 in 100", "0.96 %"]);
        assert_eq!(cells(58, 3_689_618), ["1 in 64,000", "0.002 %"]);
        assert_eq!(cells(10, 31), ["1 in 3", "32.3 %"]);
    }

    #[test]
    fn shares_are_rounded_to_all_or_none_only_where_they_are() {
        assert_eq!([0, 1, 10, 123, 1_234_567].map(|count| share(count, 1_234_567)), ["0", "<0.01", "<0.01", "0.01", "100"]);
        assert_eq!(share(1_234_566, 1_234_567), ">99.99");
        assert_eq!(share(1, 3), "33.33");
    }
}
