//! A call: its record, and the answer that the second implementation gives.

use crate::text::{flips, found, hex, hex_floats, name, refused, totals};
use outside::reference::{self, Code, Hard, Refusal, Soft};

/// What every byte of a lent buffer is before the call.
pub const UNTOUCHED: u8 = 7;

/// A call with all that it is handed. Lent buffers are told by their lengths.
#[derive(Clone, Copy)]
pub enum Call<'a> {
    Encode { code: Code, message: &'a [u8], room: usize },
    Hard { code: Code, bits: &'a [u8], room: usize },
    Soft { code: Code, depth: usize, symbols: &'a [u8], room: usize },
    Ladder { edges: &'a [f32] },
    Quantise { edges: &'a [f32], kinds: &'a [u8], levels: &'a [f32], room: usize },
    Open { take: &'a [u8] },
    Word { take: &'a [u8], index: usize, room: usize },
    Take { take: &'a [u8], messages: usize, marks: usize },
    List { take: &'a [u8] },
    Print { take: &'a [u8], room: usize },
    Length { take: &'a [u8] },
    Strip { take: &'a [u8] },
}

impl Call<'_> {
    /// The line that asks for the call.
    pub fn record(&self) -> String {
        match *self {
            Call::Encode { code, message, room } => format!("encode {} {} {room}", name(code), hex(message)),
            Call::Hard { code, bits, room } => format!("hard {} {} {room}", name(code), hex(bits)),
            Call::Soft { code, depth, symbols, room } => format!("soft {} {depth} {} {room}", name(code), hex(symbols)),
            Call::Ladder { edges } => format!("ladder {}", hex_floats(edges)),
            Call::Quantise { edges, kinds, levels, room } => {
                format!("quantise {} {} {} {room}", hex_floats(edges), hex(kinds), hex_floats(levels))
            }
            Call::Open { take } => format!("open {}", hex(take)),
            Call::Word { take, index, room } => format!("word {} {index} {room}", hex(take)),
            Call::Take { take, messages, marks } => format!("take {} {messages} {marks}", hex(take)),
            Call::List { take } => format!("list {}", hex(take)),
            Call::Print { take, room } => format!("print {} {room}", hex(take)),
            Call::Length { take } => format!("length {}", hex(take)),
            Call::Strip { take } => format!("strip {}", hex(take)),
        }
    }

    /// The line that answers it, or the lines of a listing or a strip, by the second implementation.
    pub fn answer(&self) -> String {
        match *self {
            Call::Encode { code, message, room } => encode(code, message, room),
            Call::Hard { code, bits, room } => hard(code, bits, room),
            Call::Soft { code, depth, symbols, room } => soft(room, |codeword| reference::decode_soft(code, depth, symbols, codeword)),
            Call::Ladder { edges } => reference::check_ladder(edges).map_or_else(refused, |()| "ladder".to_string()),
            Call::Quantise { edges, kinds, levels, room } => quantise(edges, kinds, levels, room),
            Call::Open { take } => open(take).unwrap_or_else(refused),
            Call::Word { take, index, room } => word(take, index, room),
            Call::Take { take, messages, marks } => read(take, messages, marks),
            Call::List { take } => reference::listing(take).trim_end().to_string(),
            Call::Print { take, room } => print(take, room),
            Call::Length { take } => reference::strip_length(take).map_or_else(refused, |length| format!("length {length}")),
            Call::Strip { take } => reference::strip(take).trim_end().to_string(),
        }
    }
}

fn encode(code: Code, message: &[u8], room: usize) -> String {
    let mut codeword = vec![UNTOUCHED; room];
    let answer = match reference::encode(code, message, &mut codeword) {
        Ok(()) => "written".to_string(),
        Err(refusal) => refused(refusal),
    };
    format!("{answer} {}", hex(&codeword))
}

fn hard(code: Code, bits: &[u8], room: usize) -> String {
    let mut codeword = vec![UNTOUCHED; room];
    let answer = match reference::decode_hard(code, bits, &mut codeword) {
        Ok(Hard::Found { flips: count, positions }) => format!("found {}", flips(count, positions)),
        Ok(Hard::Lost) => format!("lost {}", flips(0, [0; 3])),
        Err(refusal) => format!("{} {}", refused(refusal), flips(0, [0; 3])),
    };
    format!("{answer} {}", hex(&codeword))
}

/// The soft stage's answer, of a word by itself or in a take.
fn soft(room: usize, decode: impl Fn(&mut [u8]) -> Result<Soft, Refusal>) -> String {
    let mut codeword = vec![UNTOUCHED; room];
    let answer = match decode(&mut codeword) {
        Ok(Soft::Sure(sure)) => format!("sure {}", found(sure)),
        Ok(Soft::Fair(fair)) => format!("fair {}", found(fair)),
        Ok(Soft::Lost { tries }) => format!("lost {tries}"),
        Err(refusal) => refused(refusal),
    };
    format!("{answer} {}", hex(&codeword))
}

fn quantise(edges: &[f32], kinds: &[u8], levels: &[f32], room: usize) -> String {
    let mut symbols = vec![UNTOUCHED; room];
    let answer = match reference::quantise(edges, kinds, levels, &mut symbols) {
        Ok(()) => "written".to_string(),
        Err(refusal) => refused(refusal),
    };
    format!("{answer} {}", hex(&symbols))
}

fn open(take: &[u8]) -> Result<String, Refusal> {
    let header = reference::open_take(take)?;
    let layout = reference::layout(take)?;
    Ok(format!("opened {} {} {} {} {}", header.words, name(header.code), header.depth, layout.offset, layout.label))
}

/// The take is opened first.
fn word(take: &[u8], index: usize, room: usize) -> String {
    soft(room, |codeword| reference::open_take(take).and_then(|_| reference::decode_word(take, index, codeword)))
}

fn read(take: &[u8], messages: usize, marks: usize) -> String {
    let (mut messages, mut marks) = (vec![UNTOUCHED; messages], vec![UNTOUCHED; marks]);
    let answer = match reference::read_take(take, &mut messages, &mut marks) {
        Ok(sums) => format!("read {}", totals(sums)),
        Err(refusal) => refused(refusal),
    };
    format!("{answer} {} {}", hex(&messages), hex(&marks))
}

fn print(take: &[u8], room: usize) -> String {
    let mut strip = vec![UNTOUCHED; room];
    let answer = match reference::print_take(take, &mut strip) {
        Ok(sums) => format!("printed {}", totals(sums)),
        Err(refusal) => refused(refusal),
    };
    format!("{answer} {}", hex(&strip))
}

#[cfg(test)]
mod tests {
    use super::*;

    const E: Code = Code::new(5, 1, 6);
    const TAKE: [u8; 24] = [2, 0, 5, 1, 6, 0, 0, 0, 12, 0, 0, 0, 0x11, 5, 5, 5, 5, 5, 0x11, 0x11, 5, 5, 5, 5];

    fn lines(call: Call) -> (String, String) {
        (call.record(), call.answer())
    }

    fn pair(record: &str, answer: &str) -> (String, String) {
        (record.to_string(), answer.to_string())
    }

    #[test]
    fn words() {
        assert_eq!(lines(Call::Encode { code: E, message: &[1], room: 6 }), pair("encode 5 1 6 01 6", "written 010001000001"));
        assert_eq!(lines(Call::Encode { code: E, message: &[], room: 2 }), pair("encode 5 1 6 - 2", "refused 6 0 0707"));
        assert_eq!(
            lines(Call::Hard { code: E, bits: &[1, 0, 1, 0, 0, 0], room: 6 }),
            pair("hard 5 1 6 010001000000 6", "found 1 5 0 0 010001000001")
        );
        assert_eq!(lines(Call::Hard { code: E, bits: &[0; 6], room: 0 }), pair("hard 5 1 6 000000000000 0", "refused 7 0 0 0 0 0 -"));
        assert_eq!(
            lines(Call::Soft { code: E, depth: 4, symbols: &[25, 1, 2, 1, 1, 2], room: 6 }),
            pair("soft 5 1 6 4 190102010102 6", "fair 4 -3 2 8 16 010001000001")
        );
    }

    #[test]
    fn samples() {
        let edges: Vec<f32> = (1..=15u8).map(f32::from).collect();
        let text = "3f800000400000004040000040800000\
                    40a0000040c0000040e0000041000000\
                    41100000412000004130000041400000\
                    415000004160000041700000";
        assert_eq!(lines(Call::Ladder { edges: &edges }), (format!("ladder {text}"), "ladder".to_string()));
        assert_eq!(lines(Call::Ladder { edges: &[] }), pair("ladder -", "refused 5 0"));
        assert_eq!(
            lines(Call::Quantise { edges: &edges, kinds: &[1, 0], levels: &[-2.5, f32::NAN], room: 2 }),
            (format!("quantise {text} 0100 c02000007fc00000 2"), "written 1200".to_string())
        );
    }

    #[test]
    fn takes() {
        let text = "02000501060000000c000000110505050505111105050505";
        assert_eq!(lines(Call::Open { take: &TAKE }), (format!("open {text}"), "opened 2 5 1 6 0 12 0".to_string()));
        assert_eq!(lines(Call::Word { take: &TAKE, index: 1, room: 6 }), (format!("word {text} 1 6"), "lost 1 070707070707".to_string()));
        assert_eq!(lines(Call::Word { take: &[], index: 1, room: 6 }), pair("word - 1 6", "refused 12 0 070707070707"));
        assert_eq!(
            lines(Call::Take { take: &TAKE, messages: 2, marks: 2 }),
            (format!("take {text} 2 2"), "read 2 1 0 1 2 0000 0200".to_string())
        );
        assert_eq!(Call::List { take: &TAKE }.answer(), "0 sure 1 9 1 0\n1 lost 0 0 1 -\n2 1 0 1 2");
    }

    #[test]
    fn strips() {
        let (take, text) = ([0, 0, 5, 1, 6, 0, 0, 0, 12, 0, 0, 0], "00000501060000000c000000");
        let heading = "494e444558204d41524b2044495354204d4152474e2054520a";
        assert_eq!(lines(Call::Print { take: &take, room: 25 }), (format!("print {text} 25"), format!("printed 0 0 0 0 0 {heading}")));
        assert_eq!(lines(Call::Print { take: &take, room: 2 }), (format!("print {text} 2"), "refused 7 0 0707".to_string()));
        assert_eq!(lines(Call::Print { take: &[], room: 0 }), pair("print - 0", "refused 12 0 -"));
        assert_eq!(lines(Call::Length { take: &take }), (format!("length {text}"), "length 25".to_string()));
        assert_eq!(lines(Call::Length { take: &[] }), pair("length -", "refused 12 0"));
        assert_eq!(lines(Call::Strip { take: &take }), (format!("strip {text}"), "INDEX MARK DIST MARGN TR".to_string()));
        assert_eq!(lines(Call::Strip { take: &[] }), pair("strip -", "refused 12 0"));
    }
}
