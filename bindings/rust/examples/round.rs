//! Reads the take that is named and prints a line for each of its words: index, mark and message bits, a hyphen where it is lost. The last
//! line has the totals.
//!
//!     cargo run --example round ../../examples/round.take
use bch_receiver::Take;
use std::{env, error::Error, fs};

fn main() -> Result<(), Box<dyn Error>> {
    let path = env::args_os().nth(1).ok_or("usage: round FILE   (a take)")?;
    let take = Take::read(&fs::read(path)?)?;
    for (i, (mark, message)) in take.words().enumerate() {
        let bits = message.map_or("-".to_string(), |message| message.iter().map(u8::to_string).collect());
        println!("{i} {mark} {bits}");
    }
    let totals = take.totals();
    println!("{} words: {} sure, {} fair, {} lost; {} tries", totals.words, totals.sure, totals.fair, totals.lost, totals.tries);
    Ok(())
}
