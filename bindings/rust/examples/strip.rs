//! Prints the results of the take that is named on a strip. The totals go to standard error.
//!
//!     cargo run --example strip ../../examples/round.take
use bch_receiver::Strip;
use std::{env, error::Error, fs};

fn main() -> Result<(), Box<dyn Error>> {
    let path = env::args_os().nth(1).ok_or("usage: strip FILE   (a take)")?;
    let strip = Strip::print(&fs::read(path)?)?;
    print!("{strip}");
    let totals = strip.totals();
    eprintln!("{} words: {} sure, {} fair, {} lost; {} tries", totals.words, totals.sure, totals.fair, totals.lost, totals.tries);
    Ok(())
}
