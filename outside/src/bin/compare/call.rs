//! A call with all that it is handed: as text, and as run by the archive, the crate or the reference.

use crate::safe;
use outside::archive;
use outside::reference::{self, Code, Hard, Header, Refusal, Soft, Totals};
use std::fmt;

/// A call's name and inputs.
pub enum Request {
    Encode { code: Code, message: Vec<u8> },
    DecodeHard { code: Code, bits: Vec<u8> },
    DecodeSoft { code: Code, depth: usize, symbols: Vec<u8> },
    CheckLadder { edges: Vec<f32> },
    Quantise { edges: Vec<f32>, kinds: Vec<u8>, levels: Vec<f32> },
    OpenTake { take: Vec<u8> },
    ReadTake { take: Vec<u8> },
    StripLength { take: Vec<u8> },
    PrintTake { take: Vec<u8> },
}

/// The names of the calls, by `Request::index`.
pub const NAMES: [&str; 9] =
    ["encode", "decode_hard", "decode_soft", "check_ladder", "quantise", "open_take", "read_take", "strip_length", "print_take"];

impl Request {
    pub fn index(&self) -> usize {
        match self {
            Request::Encode { .. } => 0,
            Request::DecodeHard { .. } => 1,
            Request::DecodeSoft { .. } => 2,
            Request::CheckLadder { .. } => 3,
            Request::Quantise { .. } => 4,
            Request::OpenTake { .. } => 5,
            Request::ReadTake { .. } => 6,
            Request::StripLength { .. } => 7,
            Request::PrintTake { .. } => 8,
        }
    }

    /// How many buffers are lent to it.
    fn buffer_count(&self) -> usize {
        match self {
            Request::CheckLadder { .. } | Request::OpenTake { .. } | Request::StripLength { .. } => 0,
            Request::ReadTake { .. } => 2,
            _ => 1,
        }
    }
}

/// A request, and the bytes that the lent buffers hold before it.
pub struct Call {
    pub request: Request,
    pub buffers: Vec<Vec<u8>>,
}

type Answered<T> = Result<T, Refusal>;

/// One implementation of the calls.
pub struct Side {
    encode: fn(Code, &[u8], &mut [u8]) -> Answered<()>,
    decode_hard: fn(Code, &[u8], &mut [u8]) -> Answered<Hard>,
    decode_soft: fn(Code, usize, &[u8], &mut [u8]) -> Answered<Soft>,
    check_ladder: fn(&[f32]) -> Answered<()>,
    quantise: fn(&[f32], &[u8], &[f32], &mut [u8]) -> Answered<()>,
    open_take: fn(&[u8]) -> Answered<Header>,
    read_take: fn(&[u8], &mut [u8], &mut [u8]) -> Answered<Totals>,
    strip_length: fn(&[u8]) -> Answered<usize>,
    print_take: fn(&[u8], &mut [u8]) -> Answered<Totals>,
}

pub const ARCHIVE: Side = Side {
    encode: archive::encode,
    decode_hard: archive::decode_hard,
    decode_soft: archive::decode_soft,
    check_ladder: archive::check_ladder,
    quantise: archive::quantise,
    open_take: archive::open_take,
    read_take: archive::read_take,
    strip_length: archive::strip_length,
    print_take: archive::print_take,
};

pub const CRATE: Side = Side {
    encode: safe::encode,
    decode_hard: safe::decode_hard,
    decode_soft: safe::decode_soft,
    check_ladder: safe::check_ladder,
    quantise: safe::quantise,
    open_take: safe::open_take,
    read_take: safe::read_take,
    strip_length: safe::strip_length,
    print_take: safe::print_take,
};

pub const REFERENCE: Side = Side {
    encode: reference::encode,
    decode_hard: reference::decode_hard,
    decode_soft: reference::decode_soft,
    check_ladder: reference::check_ladder,
    quantise: reference::quantise,
    open_take: reference::open_take,
    read_take: reference::read_take,
    strip_length: reference::strip_length,
    print_take: reference::print_take,
};

#[derive(Debug, PartialEq)]
pub enum Answer {
    Done,
    Hard(Hard),
    Soft(Soft),
    Opened(Header),
    Read(Totals),
    Length(usize),
    Printed(Totals),
}

/// A buffer with some bytes beside it that no call may write.
#[derive(PartialEq)]
pub struct Lent {
    bytes: Vec<u8>,
}

impl Lent {
    const BESIDE: [u8; 16] = [0x5a; 16];

    fn new(content: &[u8]) -> Lent {
        Lent { bytes: [&Lent::BESIDE[..], content, &Lent::BESIDE[..]].concat() }
    }

    fn lend(&mut self) -> &mut [u8] {
        let end = self.bytes.len() - Lent::BESIDE.len();
        &mut self.bytes[Lent::BESIDE.len()..end]
    }

    pub fn content(&self) -> &[u8] {
        &self.bytes[Lent::BESIDE.len()..self.bytes.len() - Lent::BESIDE.len()]
    }

    pub fn beside_is_kept(&self) -> bool {
        self.bytes.starts_with(&Lent::BESIDE) && self.bytes.ends_with(&Lent::BESIDE)
    }
}

/// What a call answered and left in the buffers.
#[derive(PartialEq)]
pub struct Outcome {
    pub answer: Answered<Answer>,
    pub lent: Vec<Lent>,
}

impl Call {
    pub fn run(&self, side: &Side) -> Outcome {
        let mut lent: Vec<Lent> = self.buffers.iter().map(|content| Lent::new(content)).collect();
        let mut buffers = lent.iter_mut().map(Lent::lend);
        let mut buffer = || buffers.next().expect("a call has its buffers");
        let answer = match &self.request {
            Request::Encode { code, message } => (side.encode)(*code, message, buffer()).map(|()| Answer::Done),
            Request::DecodeHard { code, bits } => (side.decode_hard)(*code, bits, buffer()).map(Answer::Hard),
            Request::DecodeSoft { code, depth, symbols } => (side.decode_soft)(*code, *depth, symbols, buffer()).map(Answer::Soft),
            Request::CheckLadder { edges } => (side.check_ladder)(edges).map(|()| Answer::Done),
            Request::Quantise { edges, kinds, levels } => (side.quantise)(edges, kinds, levels, buffer()).map(|()| Answer::Done),
            Request::OpenTake { take } => (side.open_take)(take).map(Answer::Opened),
            Request::ReadTake { take } => (side.read_take)(take, buffer(), buffer()).map(Answer::Read),
            Request::StripLength { take } => (side.strip_length)(take).map(Answer::Length),
            Request::PrintTake { take } => (side.print_take)(take, buffer()).map(Answer::Printed),
        };
        Outcome { answer, lent }
    }

    /// The call that the text tells, as `Display` writes it.
    pub fn parse(text: &str) -> Option<Call> {
        let mut fields = text.split_whitespace();
        let request = match fields.next()? {
            "encode" => Request::Encode { code: code(&mut fields)?, message: bytes(fields.next()?)? },
            "decode_hard" => Request::DecodeHard { code: code(&mut fields)?, bits: bytes(fields.next()?)? },
            "decode_soft" => {
                Request::DecodeSoft { code: code(&mut fields)?, depth: fields.next()?.parse().ok()?, symbols: bytes(fields.next()?)? }
            }
            "check_ladder" => Request::CheckLadder { edges: floats(fields.next()?)? },
            "quantise" => {
                Request::Quantise { edges: floats(fields.next()?)?, kinds: bytes(fields.next()?)?, levels: floats(fields.next()?)? }
            }
            "open_take" => Request::OpenTake { take: bytes(fields.next()?)? },
            "read_take" => Request::ReadTake { take: bytes(fields.next()?)? },
            "strip_length" => Request::StripLength { take: bytes(fields.next()?)? },
            "print_take" => Request::PrintTake { take: bytes(fields.next()?)? },
            _ => return None,
        };
        let buffers: Vec<Vec<u8>> = fields.map(bytes).collect::<Option<_>>()?;
        Some(Call { request, buffers }).filter(|call| call.buffers.len() == call.request.buffer_count())
    }
}

/// The text of a call: its name, then its numbers, inputs and buffers in order; bytes in hex, a float as its four bytes, highest first, and
/// a hyphen where there are none.
impl fmt::Display for Call {
    fn fmt(&self, f: &mut fmt::Formatter<'_>) -> fmt::Result {
        write!(f, "{}", NAMES[self.request.index()])?;
        match &self.request {
            Request::Encode { code, message: input } | Request::DecodeHard { code, bits: input } => {
                write!(f, " {} {} {} {}", code.m, code.t, code.n, hex(input))?
            }
            Request::DecodeSoft { code, depth, symbols } => write!(f, " {} {} {} {depth} {}", code.m, code.t, code.n, hex(symbols))?,
            Request::CheckLadder { edges } => write!(f, " {}", hex_floats(edges))?,
            Request::Quantise { edges, kinds, levels } => write!(f, " {} {} {}", hex_floats(edges), hex(kinds), hex_floats(levels))?,
            Request::OpenTake { take } | Request::ReadTake { take } => write!(f, " {}", hex(take))?,
            Request::StripLength { take } | Request::PrintTake { take } => write!(f, " {}", hex(take))?,
        }
        self.buffers.iter().try_for_each(|content| write!(f, " {}", hex(content)))
    }
}

impl fmt::Display for Outcome {
    fn fmt(&self, f: &mut fmt::Formatter<'_>) -> fmt::Result {
        write!(f, "{:?}", self.answer)?;
        self.lent.iter().try_for_each(|lent| write!(f, ", buffer {}", hex(lent.content())))
    }
}

pub fn hex(bytes: &[u8]) -> String {
    match bytes {
        [] => "-".to_string(),
        _ => bytes.iter().map(|byte| format!("{byte:02x}")).collect(),
    }
}

fn hex_floats(floats: &[f32]) -> String {
    hex(&floats.iter().flat_map(|float| float.to_bits().to_be_bytes()).collect::<Vec<u8>>())
}

fn bytes(text: &str) -> Option<Vec<u8>> {
    match text {
        "-" => Some(Vec::new()),
        _ => text.as_bytes().chunks(2).map(byte).collect(),
    }
}

/// The byte of two hex digits.
fn byte(digits: &[u8]) -> Option<u8> {
    match digits {
        [high, low] => Some((16 * char::from(*high).to_digit(16)? + char::from(*low).to_digit(16)?) as u8),
        _ => None,
    }
}

fn floats(text: &str) -> Option<Vec<f32>> {
    bytes(text)?.chunks(4).map(|four| Some(f32::from_bits(u32::from_be_bytes(four.try_into().ok()?)))).collect()
}

fn code<'a>(fields: &mut impl Iterator<Item = &'a str>) -> Option<Code> {
    let mut number = || fields.next()?.parse().ok();
    Some(Code::new(number()?, number()?, number()?))
}

#[cfg(test)]
mod tests {
    use super::Call;
    use crate::drawn;
    use outside::draw::Draw;

    /// A call's text tells the same call.
    #[test]
    fn text_and_back() {
        let mut draw = Draw::new(1);
        for _ in 0..2000 {
            let text = drawn::call(&mut draw).call.to_string();
            assert_eq!(Call::parse(&text).expect("a call").to_string(), text);
        }
    }

    #[test]
    fn texts_of_no_call() {
        for text in [
            "",
            "encoded",
            "open_take",
            "open_take 0",
            "open_take 0g",
            "open_take 00 00",
            "print_take 00",
            "check_ladder 00",
            "encode 5 1 6 01",
        ] {
            assert!(Call::parse(text).is_none(), "{text}");
        }
    }
}
