//! The table: its lines, and its text, which is Markdown too.
use crate::row::{lesser, Column, Row, Times, COLUMNS};
use outside::reference::Code;

const NAMES: [&str; COLUMNS] = ["receiver", "Rust", "textbook C", "C", "IT++"];

/// A line, with the nanoseconds of each column.
pub struct Line {
    pub call: &'static str,
    pub code: String,
    pub case: String,
    pub times: Times,
}

impl Line {
    /// Measures a row, whose passes are so many units each.
    pub fn measure<A: Clone + PartialEq>(
        call: &'static str,
        code: String,
        case: String,
        units: usize,
        row: Row<'_, A>,
    ) -> Result<Line, String> {
        match row.measure() {
            Ok(times) => Ok(Line { call, code, case, times: times.map(|time| Some(time? / units as f64)) }),
            Err(column) => Err(format!("{} {}, {}: {} answers otherwise than the receiver", call, code, case, NAMES[column as usize])),
        }
    }

    /// Keeps the lesser of two times of each column.
    pub fn merge(&mut self, other: &Line) {
        for (time, other) in self.times.iter_mut().zip(other.times) {
            *time = lesser(*time, other);
        }
    }

    /// The text of each cell: a time, and in brackets how many times the receiver's.
    fn cells(&self) -> Vec<String> {
        let ours = self.times[Column::Receiver as usize];
        let theirs = self.times[1..].iter().map(|&time| match time.zip(ours) {
            Some((time, ours)) => format!("{} ({})", short(time), short(time / ours)),
            None => "-".to_string(),
        });
        let names = [self.call.to_string(), self.code.clone(), self.case.clone()];
        names.into_iter().chain(ours.map(short)).chain(theirs).collect()
    }
}

/// n, k and t.
pub fn name(code: Code) -> String {
    format!("{}, {}, {}", code.n, code.n - code.m * code.t, code.t)
}

/// A number with as many decimals as matter.
fn short(number: f64) -> String {
    let decimals = match number {
        _ if number < 9.995 => 2,
        _ if number < 99.95 => 1,
        _ => 0,
    };
    format!("{:.*}", decimals, number)
}

pub fn print(lines: &[Line]) {
    let head: Vec<String> = ["call", "n, k, t", "case"].iter().chain(&NAMES).map(|name| name.to_string()).collect();
    let rows: Vec<Vec<String>> = lines.iter().map(Line::cells).collect();
    let widths: Vec<usize> = (0..head.len()).map(|i| rows.iter().map(|row| row[i].len()).max().unwrap_or(0).max(head[i].len())).collect();
    print_row(&head, &widths);
    let rule: Vec<String> = widths.iter().enumerate().map(|(i, &width)| "-".repeat(width + 1) + if i < 3 { "-" } else { ":" }).collect();
    println!("|{}|", rule.join("|"));
    rows.iter().for_each(|row| print_row(row, &widths));
}

/// Prints cells: the three names to the left, the times to the right.
fn print_row(cells: &[String], widths: &[usize]) {
    let padded = cells.iter().zip(widths).enumerate().map(|(i, (cell, &width))| match i {
        0..=2 => format!("{:<1$}", cell, width),
        _ => format!("{:>1$}", cell, width),
    });
    println!("| {} |", padded.collect::<Vec<String>>().join(" | "));
}
