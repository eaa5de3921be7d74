//! What document 01's calls take and answer, as types. Those of the crate `bch_receiver` look alike, but are other types.

/// A code, by its name. Any numbers may stand here; a call refuses those that name no code.
#[derive(Clone, Copy, Debug, PartialEq, Eq)]
pub struct Code {
    pub m: usize,
    pub t: usize,
    pub n: usize,
}

impl Code {
    pub const fn new(m: usize, t: usize, n: usize) -> Code {
        Code { m, t, n }
    }

    /// The message length k = n - m t, where that is above 0.
    pub fn message_length(self) -> Option<usize> {
        self.n.checked_sub(self.m.checked_mul(self.t)?).filter(|&k| k > 0)
    }
}

/// Why a call refused.
#[derive(Clone, Copy, Debug, PartialEq, Eq)]
pub struct Refusal {
    pub number: u8,
    pub place: usize,
}

/// What the hard stage answers. The flipped positions stand in rising order; unused places are 0.
#[derive(Clone, Copy, Debug, PartialEq, Eq)]
pub enum Hard {
    Lost,
    Found { flips: usize, positions: [usize; 3] },
}

/// The numbers of a codeword that the soft stage found: L, the margin, q, j and the tries.
#[derive(Clone, Copy, Debug, PartialEq, Eq)]
pub struct Found {
    pub distance: usize,
    pub margin: i32,
    pub flips: usize,
    pub place: usize,
    pub tries: usize,
}

/// What the soft stage answers.
#[derive(Clone, Copy, Debug, PartialEq, Eq)]
pub enum Soft {
    Lost { tries: usize },
    Fair(Found),
    Sure(Found),
}

/// What the header of a take says of its words.
#[derive(Clone, Copy, Debug, PartialEq, Eq)]
pub struct Header {
    pub words: usize,
    pub code: Code,
    pub depth: usize,
}

/// What the words of a take add up to.
#[derive(Clone, Copy, Debug, Default, PartialEq, Eq)]
pub struct Totals {
    pub words: usize,
    pub sure: usize,
    pub fair: usize,
    pub lost: usize,
    pub tries: usize,
}
