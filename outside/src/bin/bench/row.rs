//! A row of the table: the same calls made in several ways, which are compared and then timed in turn.
use crate::c::clock;
use outside::reference::Refusal;
use std::time::Duration;

/// How often each way is timed, and how long at least; a way that has used up the budget is timed no more.
pub const ROUNDS: usize = 8;
const ROUND: Duration = Duration::from_millis(3);
const BUDGET: Duration = Duration::from_millis(150);

/// Who makes the calls: the table's columns.
#[derive(Clone, Copy)]
pub enum Column {
    Receiver,
    Rust,
    Textbook,
    C,
    Itpp,
}

pub const COLUMNS: usize = 5;

/// A time for each column.
pub type Times = [Option<f64>; COLUMNS];

/// What the calls of a row answer and write, one behind the other.
#[derive(Clone, PartialEq)]
pub struct Results<A> {
    pub answers: Vec<Result<A, Refusal>>,
    pub bytes: Vec<u8>,
}

/// Makes all calls of a row.
type Pass<'a, A> = Box<dyn Fn(&mut Results<A>) + 'a>;

/// Whether the receiver's results and others agree.
type Agreement<'a, A> = Box<dyn Fn(&Results<A>, &Results<A>) -> bool + 'a>;

/// A way of making the calls of a row.
struct Way<'a, A> {
    column: Column,
    pass: Pass<'a, A>,
    agrees: Agreement<'a, A>,
    results: Results<A>,
    passes: u32,
    spent: Duration,
}

impl<A> Way<'_, A> {
    /// Makes the passes.
    fn time(&mut self) -> Duration {
        let start = clock();
        for _ in 0..self.passes {
            (self.pass)(&mut self.results);
        }
        clock() - start
    }

    /// Finds how many passes fill a round.
    fn prepare(&mut self) {
        while self.time() < ROUND {
            self.passes *= 2;
        }
    }

    /// The nanoseconds of a pass in one more round, within the budget.
    fn round(&mut self) -> Option<f64> {
        if self.spent >= BUDGET {
            return None;
        }
        let took = self.time();
        self.spent += took;
        Some(took.as_nanos() as f64 / f64::from(self.passes))
    }
}

/// The ways of making so many calls, each of which writes so many bytes. The first is the receiver's.
pub struct Row<'a, A> {
    calls: usize,
    size: usize,
    ways: Vec<Way<'a, A>>,
}

impl<'a, A: Clone + PartialEq> Row<'a, A> {
    pub fn new(calls: usize, size: usize) -> Row<'a, A> {
        Row { calls, size, ways: Vec::new() }
    }

    /// Adds a way that gives what the receiver gives.
    pub fn add(&mut self, column: Column, pass: impl Fn(&mut Results<A>) + 'a) {
        self.add_like(column, |ours, theirs| ours == theirs, pass);
    }

    /// Adds a way, and how its results agree with the receiver's.
    pub fn add_like(
        &mut self,
        column: Column,
        agrees: impl Fn(&Results<A>, &Results<A>) -> bool + 'a,
        pass: impl Fn(&mut Results<A>) + 'a,
    ) {
        let none = Refusal { number: 0, place: 0 };
        let results = Results { answers: vec![Err(none); self.calls], bytes: vec![0xff; self.calls * self.size] };
        let (pass, agrees) = (Box::new(pass), Box::new(agrees));
        self.ways.push(Way { column, pass, agrees, results, passes: 1, spent: Duration::ZERO });
    }

    /// The least nanoseconds that a pass takes in each column, or the column that does not agree with the receiver.
    pub fn measure(mut self) -> Result<Times, Column> {
        self.ways.iter_mut().for_each(Way::prepare);
        let ours = &self.ways[0].results;
        if let Some(way) = self.ways.iter().find(|way| !(way.agrees)(ours, &way.results)) {
            return Err(way.column);
        }
        let mut least = [None; COLUMNS];
        for _ in 0..ROUNDS {
            for way in &mut self.ways {
                let time = &mut least[way.column as usize];
                *time = lesser(*time, way.round());
            }
        }
        Ok(least)
    }
}

/// The lesser of two times, where there are two.
pub fn lesser(a: Option<f64>, b: Option<f64>) -> Option<f64> {
    a.zip(b).map(|(a, b)| a.min(b)).or(a).or(b)
}

/// A pass that makes one call for each item, by its index and where it writes.
pub fn each<A>(call: impl Fn(usize, &mut [u8]) -> Result<A, Refusal>) -> impl Fn(&mut Results<A>) {
    move |results| {
        let size = results.bytes.len() / results.answers.len();
        for (i, (answer, bytes)) in results.answers.iter_mut().zip(results.bytes.chunks_exact_mut(size)).enumerate() {
            *answer = call(i, bytes);
        }
    }
}
