//! Codes, and the encoder.
use crate::raw;
use crate::refusal::{answered, Refusal, RefusalKind};

/// A code. Its name is m, t and n; no value of this type names none, so that [`encode`], [`decode_hard`](crate::decode_hard) and
/// [`decode_soft`](crate::decode_soft) never refuse with 1, 2 or 3.
#[derive(Clone, Copy, Debug, PartialEq, Eq, Hash)]
pub struct Code {
    m: usize,
    t: usize,
    n: usize,
}

impl Code {
    /// The code of this name: a field of 2^m elements, t flips that are repaired, and n bits.
    ///
    /// Refuses with the first of 1, 2, 3 that applies: where m is outside 5 to 8, t outside 1 to 3, n outside m t + 1 to 2^m - 1.
    ///
    /// ```
    /// use bch_receiver::{Code, RefusalKind};
    ///
    /// # fn main() -> Result<(), bch_receiver::Refusal> {
    /// let code = Code::new(6, 2, 63)?;
    /// assert_eq!((code.parity_length(), code.message_length()), (12, 51));
    /// assert_eq!(Code::new(6, 2, 64).unwrap_err().kind(), RefusalKind::N);
    /// # Ok(())
    /// # }
    /// ```
    pub fn new(m: usize, t: usize, n: usize) -> Result<Code, Refusal> {
        let code = Code { m, t, n };
        // The archive is asked, so that the rule stands once, in what is proved. Its encoder looks at m, t and n first, and of a code it
        // refuses a message without bits with 6, since every code has k > 0: it comes no further.
        match encode(code, &[], &mut []) {
            Err(refusal) if refusal.kind() != RefusalKind::InputLength => Err(refusal),
            _ => Ok(code),
        }
    }

    /// The code that the archive tells.
    pub(crate) const fn told(m: usize, t: usize, n: usize) -> Code {
        Code { m, t, n }
    }

    /// The field has 2^m elements.
    pub const fn m(self) -> usize {
        self.m
    }

    /// So many flips are repaired.
    pub const fn t(self) -> usize {
        self.t
    }

    /// The length of a codeword.
    pub const fn n(self) -> usize {
        self.n
    }

    /// How many parity bits a codeword has: m t.
    pub const fn parity_length(self) -> usize {
        self.m * self.t
    }

    /// How many message bits a codeword carries: k = n - m t, at least 1.
    pub const fn message_length(self) -> usize {
        self.n - self.parity_length()
    }
}

/// Writes the codeword that carries a message of k bits: parity at positions 0 to m t - 1, the message behind it.
///
/// Refuses with the first of 6, 7, 8 that applies.
///
/// ```
/// use bch_receiver::{encode, Code, RefusalKind};
///
/// # fn main() -> Result<(), bch_receiver::Refusal> {
/// let code = Code::new(5, 1, 6)?;
/// let mut codeword = [0; 6];
/// encode(code, &[1], &mut codeword)?;
/// assert_eq!(codeword, [1, 0, 1, 0, 0, 1]);
/// assert_eq!(encode(code, &[2], &mut codeword).unwrap_err().kind(), RefusalKind::Bit);
/// # Ok(())
/// # }
/// ```
pub fn encode(code: Code, message: &[u8], codeword: &mut [u8]) -> Result<(), Refusal> {
    let Code { m, t, n } = code;
    let (written, room) = (codeword.as_mut_ptr(), codeword.len());
    // Safety: pointers and lengths are those of slices, and one that is lent to be written overlaps no other.
    let number = unsafe { raw::receiver_encode_packed(m, t, n, message.as_ptr(), message.len(), written, room) };
    answered(number).map(|_| ())
}
