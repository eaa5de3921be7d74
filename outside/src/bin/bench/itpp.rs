//! The BCH codes of IT++ (cpp/itpp.h).
use outside::reference::Code;

/// A code, as IT++ has it.
#[repr(C)]
struct Bch {
    _private: [u8; 0],
}

extern "C" {
    fn itpp_new_code(n: u32, t: u32) -> *mut Bch;
    fn itpp_free_code(bch: *mut Bch);
    fn itpp_encode(bch: *mut Bch, words: usize, messages: *const u8, codewords: *mut u8);
    fn itpp_decode(bch: *mut Bch, words: usize, bits: *const u8, messages: *mut u8, decoded: *mut u8);
}

/// A code of IT++.
pub struct Itpp {
    code: Code,
    bch: *mut Bch,
}

impl Itpp {
    /// A code of full length, where IT++ is installed.
    pub fn new(code: Code) -> Option<Itpp> {
        assert!(code.n + 1 == 1 << code.m);
        // Safety: two numbers are handed over.
        let bch = unsafe { itpp_new_code(code.n as u32, code.t as u32) };
        if bch.is_null() {
            return None;
        }
        Some(Itpp { code, bch })
    }

    /// Encodes as many messages as the codewords have room for.
    pub fn encode(&self, messages: &[u8], codewords: &mut [u8]) {
        let words = codewords.len() / self.code.n;
        self.check(words, messages, codewords);
        // Safety: the lengths are those of so many words, as also below.
        unsafe { itpp_encode(self.bch, words, messages.as_ptr(), codewords.as_mut_ptr()) }
    }

    /// Writes the messages of the words, and a byte for each word: 1 where it was decoded.
    pub fn decode(&self, bits: &[u8], messages: &mut [u8], decoded: &mut [u8]) {
        self.check(decoded.len(), messages, bits);
        unsafe { itpp_decode(self.bch, decoded.len(), bits.as_ptr(), messages.as_mut_ptr(), decoded.as_mut_ptr()) }
    }

    fn check(&self, words: usize, messages: &[u8], codewords: &[u8]) {
        let parity = self.code.m * self.code.t;
        assert!(codewords.len() == words * self.code.n && messages.len() + words * parity == codewords.len());
    }
}

impl Drop for Itpp {
    fn drop(&mut self) {
        // Safety: the code is this struct's alone.
        unsafe { itpp_free_code(self.bch) }
    }
}
