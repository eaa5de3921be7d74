//! Numbers, bytes and answers as records and their answers have them.

use outside::reference::{Code, Found, Refusal, Totals};

/// Two digits for each byte, and a hyphen where there are none.
pub fn hex(bytes: &[u8]) -> String {
    match bytes {
        [] => "-".to_string(),
        _ => bytes.iter().map(|byte| format!("{byte:02x}")).collect(),
    }
}

/// Eight digits for each float's bit pattern, and a hyphen where there are none.
pub fn hex_floats(floats: &[f32]) -> String {
    hex(&floats.iter().flat_map(|float| float.to_bits().to_be_bytes()).collect::<Vec<u8>>())
}

pub fn name(code: Code) -> String {
    format!("{} {} {}", code.m, code.t, code.n)
}

pub fn refused(refusal: Refusal) -> String {
    format!("refused {} {}", refusal.number, refusal.place)
}

/// How many positions are flipped, and the three places.
pub fn flips(count: usize, positions: [usize; 3]) -> String {
    let [first, second, third] = positions;
    format!("{count} {first} {second} {third}")
}

pub fn found(found: Found) -> String {
    format!("{} {} {} {} {}", found.distance, found.margin, found.flips, found.place, found.tries)
}

pub fn totals(totals: Totals) -> String {
    format!("{} {} {} {} {}", totals.words, totals.sure, totals.fair, totals.lost, totals.tries)
}
