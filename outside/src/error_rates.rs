//! What is counted when words of a code are sent over a noisy channel and decoded, and the file of the counts.

use crate::reference::Code;
use bch_receiver::Mark;
use std::{fmt, fs, io, ops::AddAssign, path::Path, str::FromStr};
use Decoder::{Absent, Hard, Soft};

/// What becomes of the received word.
#[derive(Clone, Copy, Debug, PartialEq, Eq)]
pub enum Decoder {
    /// Nothing: its hard bits are taken as they are.
    Absent,
    /// The hard stage decodes its hard bits.
    Hard,
    /// The soft stage decodes it at this depth.
    Soft(usize),
}

pub const DECODERS: [Decoder; 9] = [Absent, Hard, Soft(0), Soft(1), Soft(2), Soft(3), Soft(4), Soft(5), Soft(6)];
/// The soft stage at depth 1 to 6: at depth 0 it finds what the hard stage finds, and marks it.
pub const DEEP: [Decoder; 6] = [Soft(1), Soft(2), Soft(3), Soft(4), Soft(5), Soft(6)];
/// The hard stage, and the soft one where it finds more.
pub const COMPARED: [Decoder; 7] = [Hard, Soft(1), Soft(2), Soft(3), Soft(4), Soft(5), Soft(6)];
/// The soft stage at all depths.
pub const MARKING: [Decoder; 7] = [Soft(0), Soft(1), Soft(2), Soft(3), Soft(4), Soft(5), Soft(6)];

impl Decoder {
    /// Its name in a heading.
    pub fn label(self) -> String {
        match self {
            Absent => "undecoded".to_string(),
            Hard => "hard".to_string(),
            Soft(depth) => format!("depth {depth}"),
        }
    }
}

impl fmt::Display for Decoder {
    fn fmt(&self, f: &mut fmt::Formatter<'_>) -> fmt::Result {
        match self {
            Absent => f.pad("none"),
            Hard => f.pad("hard"),
            Soft(depth) => depth.fmt(f),
        }
    }
}

impl FromStr for Decoder {
    type Err = String;
    fn from_str(name: &str) -> Result<Decoder, String> {
        DECODERS.into_iter().find(|decoder| decoder.to_string() == name).ok_or_else(|| format!("no decoder: {name}"))
    }
}

/// What one decoder made of the words of a point. An error is a wrong bit of the message; a word is wrong that has one, or is lost.
/// `wrong_sure` and `wrong_fair` count those of the sure and of the fair words that are wrong.
#[derive(Clone, Copy, Debug, Default, PartialEq, Eq)]
pub struct Count {
    pub words: u64,
    pub word_errors: u64,
    pub bit_errors: u64,
    pub sure: u64,
    pub tries: u64,
    pub wrong_sure: u64,
    pub fair: u64,
    pub wrong_fair: u64,
    pub lost: u64,
}

impl Count {
    /// The count of one word. Only the soft stage marks a word that is not lost.
    pub fn of_word(mark: Option<Mark>, bit_errors: u64, tries: u64) -> Count {
        let marked = |with| mark == Some(with);
        let wrong = bit_errors > 0;
        Count {
            words: 1,
            word_errors: u64::from(marked(Mark::Lost) || wrong),
            bit_errors,
            sure: u64::from(marked(Mark::Sure)),
            tries,
            wrong_sure: u64::from(marked(Mark::Sure) && wrong),
            fair: u64::from(marked(Mark::Fair)),
            wrong_fair: u64::from(marked(Mark::Fair) && wrong),
            lost: u64::from(marked(Mark::Lost)),
        }
    }
}

impl AddAssign for Count {
    fn add_assign(&mut self, other: Count) {
        self.words += other.words;
        self.word_errors += other.word_errors;
        self.bit_errors += other.bit_errors;
        self.sure += other.sure;
        self.tries += other.tries;
        self.wrong_sure += other.wrong_sure;
        self.fair += other.fair;
        self.wrong_fair += other.wrong_fair;
        self.lost += other.lost;
    }
}

/// The count of one decoder at one point: a code, and Eb/N0 in dB.
#[derive(Clone, Copy, Debug, PartialEq)]
pub struct Row {
    pub code: Code,
    pub ebn0: f64,
    pub decoder: Decoder,
    pub count: Count,
}

impl Row {
    pub fn word_error_rate(&self) -> f64 {
        self.count.word_errors as f64 / self.count.words as f64
    }

    pub fn bit_error_rate(&self) -> f64 {
        self.count.bit_errors as f64 / (self.count.words as f64 * message_length(self.code) as f64)
    }

    pub fn mean_tries(&self) -> f64 {
        self.count.tries as f64 / self.count.words as f64
    }

    /// How many times more tries it would take without the rule that ends the search.
    pub fn saving(&self) -> f64 {
        let all = match self.decoder {
            Soft(depth) => 1u32 << depth,
            _ => 1,
        };
        f64::from(all) / self.mean_tries()
    }

    pub fn sure_share(&self) -> f64 {
        self.count.sure as f64 / self.count.words as f64
    }

    /// How many of the sure words are wrong, where enough were.
    pub fn wrong_sure_rate(&self) -> Option<f64> {
        let Count { sure, wrong_sure, .. } = self.count;
        (wrong_sure >= ENOUGH).then(|| wrong_sure as f64 / sure as f64)
    }

    /// How many of the fair words are wrong, where enough were.
    pub fn wrong_fair_rate(&self) -> Option<f64> {
        let Count { fair, wrong_fair, .. } = self.count;
        (wrong_fair >= ENOUGH).then(|| wrong_fair as f64 / fair as f64)
    }

    /// Whether enough words were wrong for the rates to mean something.
    pub fn is_measured(&self) -> bool {
        self.count.word_errors >= ENOUGH
    }
}

/// So many wrong words are enough for a rate to mean something.
pub const ENOUGH: u64 = 10;

pub fn message_length(code: Code) -> usize {
    code.message_length().expect("a code has a message")
}

/// A code as it is usually written.
pub fn name(code: Code) -> String {
    format!("({}, {}, {})", code.n, message_length(code), code.t)
}

/// The codes of the rows, in order.
pub fn codes(rows: &[Row]) -> Vec<Code> {
    let mut codes: Vec<Code> = rows.iter().map(|row| row.code).collect();
    codes.dedup();
    codes
}

/// The rows of one curve, by rising Eb/N0.
pub fn curve(rows: &[Row], code: Code, decoder: Decoder) -> Vec<Row> {
    rows.iter().filter(|row| row.code == code && row.decoder == decoder).copied().collect()
}

/// The measured row of a curve whose bit error rate is nearest to this one, by the logarithms.
pub fn nearest(curve: &[Row], rate: f64) -> Option<Row> {
    let off = |row: &Row| (row.bit_error_rate() / rate).log10().abs();
    curve.iter().filter(|row| row.is_measured()).min_by(|a, b| off(a).total_cmp(&off(b))).copied()
}

/// Where a curve falls through a bit error rate, with the rate's logarithm linear in Eb/N0 between two points.
pub fn crossing(curve: &[Row], rate: f64) -> Option<f64> {
    curve.windows(2).filter(|pair| pair.iter().all(Row::is_measured)).find_map(|pair| {
        let [above, below] = [0, 1].map(|i| (pair[i].bit_error_rate() / rate).log10());
        let within = above >= 0.0 && below < 0.0;
        within.then(|| pair[0].ebn0 + (pair[1].ebn0 - pair[0].ebn0) * above / (above - below))
    })
}

const HEAD: &str = "m\tt\tn\tEb/N0\tdecoder\twords\tword errors\tbit errors\tsure\ttries\twrong sure\tfair\twrong fair\tlost";

impl fmt::Display for Row {
    fn fmt(&self, f: &mut fmt::Formatter<'_>) -> fmt::Result {
        let Row { code, ebn0, decoder, count } = self;
        write!(f, "{}\t{}\t{}\t{ebn0:.1}\t{decoder}", code.m, code.t, code.n)?;
        write!(f, "\t{}\t{}\t{}\t{}\t{}", count.words, count.word_errors, count.bit_errors, count.sure, count.tries)?;
        write!(f, "\t{}\t{}\t{}\t{}", count.wrong_sure, count.fair, count.wrong_fair, count.lost)
    }
}

impl FromStr for Row {
    type Err = String;
    fn from_str(line: &str) -> Result<Row, String> {
        let mut fields = line.split('\t');
        let row = Row {
            code: Code::new(next(&mut fields)?, next(&mut fields)?, next(&mut fields)?),
            ebn0: next(&mut fields)?,
            decoder: next(&mut fields)?,
            count: Count {
                words: next(&mut fields)?,
                word_errors: next(&mut fields)?,
                bit_errors: next(&mut fields)?,
                sure: next(&mut fields)?,
                tries: next(&mut fields)?,
                wrong_sure: next(&mut fields)?,
                fair: next(&mut fields)?,
                wrong_fair: next(&mut fields)?,
                lost: next(&mut fields)?,
            },
        };
        fields.next().map_or(Ok(row), |field| Err(format!("a field too many: {field}")))
    }
}

fn next<'a, T: FromStr>(fields: &mut impl Iterator<Item = &'a str>) -> Result<T, String> {
    let field = fields.next().ok_or("a field too few")?;
    field.parse().map_err(|_| format!("not as told by the head: {field}"))
}

pub fn write_rows(path: &Path, rows: &[Row]) -> io::Result<()> {
    let lines: String = rows.iter().map(|row| format!("{row}\n")).collect();
    fs::write(path, format!("{HEAD}\n{lines}"))
}

pub fn read_rows(path: &Path) -> Result<Vec<Row>, String> {
    let text = fs::read_to_string(path).map_err(|error| format!("{}: {error}", path.display()))?;
    text.lines().skip(1).map(str::parse).collect()
}

#[cfg(test)]
mod tests {
    use super::*;

    fn row(ebn0: f64, bit_errors: u64) -> Row {
        let marks = Count { sure: 5, tries: 6, wrong_sure: 1, fair: 4, wrong_fair: 2, lost: 3, ..Count::default() };
        let count = Count { words: 1_000_000, word_errors: bit_errors, bit_errors, ..marks };
        Row { code: Code::new(5, 1, 6), ebn0, decoder: Soft(3), count }
    }

    #[test]
    fn rows_are_read_as_written() {
        let written = row(3.5, 7);
        assert_eq!(written.to_string().parse(), Ok(written));
        assert!("5\t1\t6\t3.5\t3\t1\t1\t1\t5\t6\t0\t0\t0\t0".parse::<Row>().is_ok());
        assert!("5\t1\t6\t3.5\t3\t1\t1\t1\t5\t6\t0\t0\t0".parse::<Row>().is_err());
        assert!("5\t1\t6\t3.5\tsoft\t1\t1\t1\t5\t6\t0\t0\t0\t0".parse::<Row>().is_err());
        assert!("5\t1\t6\t3.5\t3\t1\t1\t1\t5\t6\t0\t0\t0\t0\t7".parse::<Row>().is_err());
    }

    #[test]
    fn words_are_counted_by_mark() {
        let right = Count { words: 1, tries: 4, ..Count::default() };
        let wrong = Count { word_errors: 1, bit_errors: 2, ..right };
        let of = |mark, bit_errors| Count::of_word(mark, bit_errors, 4);
        assert_eq!(of(Some(Mark::Sure), 0), Count { sure: 1, ..right });
        assert_eq!(of(Some(Mark::Sure), 2), Count { sure: 1, wrong_sure: 1, ..wrong });
        assert_eq!(of(Some(Mark::Fair), 0), Count { fair: 1, ..right });
        assert_eq!(of(Some(Mark::Fair), 2), Count { fair: 1, wrong_fair: 1, ..wrong });
        assert_eq!(of(Some(Mark::Lost), 2), Count { lost: 1, ..wrong });
        assert_eq!(of(Some(Mark::Lost), 0), Count { lost: 1, bit_errors: 0, ..wrong }, "wrong parity bits alone can lose a word");
        assert_eq!((of(None, 0), of(None, 2)), (right, wrong));
    }

    #[test]
    fn crossings() {
        let curve = [row(3.0, 100_000), row(4.0, 1000), row(5.0, 9)];
        let at = |rate| crossing(&curve, rate);
        assert!((at(1e-2).unwrap() - 3.5).abs() < 1e-9);
        assert!((at(2e-3).unwrap() - 3.849_485).abs() < 1e-6);
        assert_eq!(at(1e-4), None, "nine words are too few");
        assert_eq!(at(0.5), None);
    }
}
