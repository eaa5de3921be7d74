//! The rows: each call of the receiver, made by all that can make it.
use crate::c::{self, Decoder};
use crate::draw::{self, Channel};
use crate::itpp::Itpp;
use crate::row::{each, Column, Results, Row};
use crate::table::{name, Line};
use outside::archive;
use outside::reference::{self, Code, Found, Hard, Reference, Refusal, Soft, Totals};

/// How many different words a call on one word goes through, so that the processor does not learn one by heart.
const WORDS: usize = 512;

/// How many samples a call of the quantiser gets.
const SAMPLES: usize = 255;

fn reference(code: Code) -> Reference {
    Reference::new(code).expect("a code")
}

fn message_length(code: Code) -> usize {
    code.message_length().expect("a code")
}

pub fn encode(code: Code) -> Result<Line, String> {
    let messages = &draw::messages(code, WORDS);
    let reference = reference(code);
    let c = Decoder::closed_form(code);
    let mut row = Row::new(WORDS, code.n);
    row.add(Column::Receiver, each(|i, codeword| archive::encode(code, messages.at(i), codeword)));
    row.add(Column::Rust, each(|i, codeword| reference.encode(messages.at(i), codeword)));
    row.add(
        Column::C,
        each(|i, codeword| {
            c.encode(messages.at(i), codeword);
            Ok(())
        }),
    );
    if let Some(itpp) = Itpp::new(code) {
        let pass = move |results: &mut Results<()>| itpp.encode(&messages.all, &mut results.bytes);
        row.add_like(Column::Itpp, |ours, theirs| ours.bytes == theirs.bytes, pass);
    }
    Line::measure("encode", name(code), format!("{} messages", WORDS), WORDS, row)
}

pub fn hard(code: Code, errors: usize) -> Result<Line, String> {
    let words = &draw::wrong_words(code, errors, WORDS);
    let reference = reference(code);
    let (textbook, c) = (Decoder::textbook(code), Decoder::closed_form(code));
    let mut row = Row::new(WORDS, code.n);
    row.add(Column::Receiver, each(|i, codeword| archive::decode_hard(code, words.at(i), codeword)));
    row.add(Column::Rust, each(|i, codeword| reference.decode_hard(words.at(i), codeword)));
    row.add(Column::Textbook, each(|i, codeword| Ok(textbook.hard(words.at(i), codeword))));
    row.add(Column::C, each(|i, codeword| Ok(c.hard(words.at(i), codeword))));
    if let Some(itpp) = Itpp::new(code) {
        let pass = move |results: &mut Results<Hard>| {
            let (messages, rest) = results.bytes.split_at_mut(WORDS * message_length(code));
            itpp.decode(&words.all, messages, &mut rest[..WORDS]);
        };
        // Beyond t errors a decoder may answer what it likes.
        row.add_like(Column::Itpp, move |ours, theirs| errors > code.t || same_messages(code, ours, theirs), pass);
    }
    let lost = |&i: &usize| archive::decode_hard(code, words.at(i), &mut vec![0; code.n]) == Ok(Hard::Lost);
    let case = format!("{} errors, {} of {} lost", errors, (0..WORDS).filter(lost).count(), WORDS);
    Line::measure("hard", name(code), case, WORDS, row)
}

/// Whether the messages in the receiver's codewords are those that IT++ wrote, with a 1 for each word behind them.
fn same_messages(code: Code, ours: &Results<Hard>, theirs: &Results<Hard>) -> bool {
    let k = message_length(code);
    let (messages, rest) = theirs.bytes.split_at(WORDS * k);
    let mut pairs = ours.bytes.chunks_exact(code.n).zip(messages.chunks_exact(k));
    pairs.all(|(codeword, message)| codeword.ends_with(message)) && rest[..WORDS].iter().all(|&decoded| decoded == 1)
}

pub fn soft(code: Code, channel: Channel, depth: usize) -> Result<Line, String> {
    let words = &draw::received_words(code, channel, WORDS);
    let reference = reference(code);
    let (textbook, c) = (Decoder::textbook(code), Decoder::closed_form(code));
    let mut row = Row::new(WORDS, code.n);
    row.add(Column::Receiver, each(|i, codeword| archive::decode_soft(code, depth, words.at(i), codeword)));
    row.add(Column::Rust, each(|i, codeword| reference.decode_soft(depth, words.at(i), codeword)));
    let pass = each(|i, codeword| Ok(textbook.soft(depth, words.at(i), codeword)));
    row.add_like(Column::Textbook, same_but_tries(soft_without_tries), pass);
    row.add(Column::C, each(|i, codeword| Ok(c.soft(depth, words.at(i), codeword))));
    Line::measure("soft", name(code), format!("{}, depth {}", channel.name, depth), WORDS, row)
}

/// The textbook makes all tries, and otherwise gives what the receiver gives.
fn same_but_tries<A: Copy + PartialEq>(without_tries: fn(A) -> A) -> impl Fn(&Results<A>, &Results<A>) -> bool {
    move |ours, theirs| {
        let mut pairs = ours.answers.iter().zip(&theirs.answers);
        ours.bytes == theirs.bytes && pairs.all(|(ours, theirs)| ours.map(without_tries) == theirs.map(without_tries))
    }
}

pub fn soft_without_tries(answer: Soft) -> Soft {
    match answer {
        Soft::Lost { .. } => Soft::Lost { tries: 0 },
        Soft::Fair(found) => Soft::Fair(Found { tries: 0, ..found }),
        Soft::Sure(found) => Soft::Sure(Found { tries: 0, ..found }),
    }
}

pub fn read_take(code: Code, words: usize, channel: Channel, depth: usize) -> Result<Line, String> {
    let take = &draw::take(code, depth, 0, &draw::received_words(code, channel, words));
    let symbols = &take[12..];
    let (textbook, c) = (Decoder::textbook(code), Decoder::closed_form(code));
    let mut row = Row::new(1, words * (message_length(code) + 1));
    row.add(Column::Receiver, reading(words, |messages, marks| archive::read_take(take, messages, marks)));
    row.add(Column::Rust, reading(words, |messages, marks| reference::read_take(take, messages, marks)));
    let pass = reading(words, |messages, marks| Ok(textbook.read_words(depth, symbols, messages, marks)));
    row.add_like(Column::Textbook, same_but_tries(|totals| Totals { tries: 0, ..totals }), pass);
    row.add(Column::C, reading(words, |messages, marks| Ok(c.read_words(depth, symbols, messages, marks))));
    let case = format!("{} words, {}, depth {}", words, channel.name, depth);
    Line::measure("read_take", name(code), case, words, row)
}

/// A pass of one call, which writes the messages and marks of so many words.
fn reading(words: usize, read: impl Fn(&mut [u8], &mut [u8]) -> Result<Totals, Refusal>) -> impl Fn(&mut Results<Totals>) {
    move |results| {
        let end = results.bytes.len() - words;
        let (messages, marks) = results.bytes.split_at_mut(end);
        results.answers[0] = read(messages, marks);
    }
}

/// Nothing prints a take but the receiver and the reference.
pub fn print_take(code: Code, words: usize, channel: Channel, depth: usize) -> Result<Line, String> {
    let take = &draw::take(code, depth, 0, &draw::received_words(code, channel, words));
    let mut row = Row::new(1, reference::strip_length(take).expect("a take"));
    row.add(Column::Receiver, each(|_, strip| archive::print_take(take, strip)));
    row.add(Column::Rust, each(|_, strip| reference::print_take(take, strip)));
    let case = format!("{} words, {}, depth {}", words, channel.name, depth);
    Line::measure("print_take", name(code), case, words, row)
}

pub fn quantise(case: &str, blanks: bool) -> Result<Line, String> {
    let edges = &[1.0, 2.0, 3.0, 4.0, 5.0, 6.0, 7.0, 8.0, 9.0, 10.0, 11.0, 12.0, 13.0, 14.0, 15.0];
    let (kinds, levels) = (draw::kinds(blanks, SAMPLES, WORDS), draw::levels(SAMPLES, WORDS));
    let mut row = Row::new(WORDS, SAMPLES);
    row.add(Column::Receiver, each(|i, symbols| archive::quantise(edges, kinds.at(i), levels.at(i), symbols)));
    row.add(Column::Rust, each(|i, symbols| reference::quantise(edges, kinds.at(i), levels.at(i), symbols)));
    row.add(
        Column::C,
        each(|i, symbols| {
            c::quantise(edges, kinds.at(i), levels.at(i), symbols);
            Ok(())
        }),
    );
    Line::measure("quantise", "-".to_string(), format!("{} samples, {}", SAMPLES, case), WORDS * SAMPLES, row)
}
