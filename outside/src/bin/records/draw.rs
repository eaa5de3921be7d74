//! A 32-bit xorshift, by which words, samples and takes are drawn.

#[derive(Clone, Copy)]
pub struct Xorshift(pub u32);

impl Xorshift {
    pub fn next(&mut self) -> usize {
        self.0 ^= self.0 << 13;
        self.0 ^= self.0 >> 17;
        self.0 ^= self.0 << 5;
        self.0 as usize
    }

    /// A number from 0 to n - 1, of the bits from the ninth on.
    pub fn below(&mut self, n: usize) -> usize {
        self.next() / 256 % n
    }

    pub fn bits(&mut self, count: usize) -> Vec<u8> {
        (0..count).map(|_| (self.next() % 2) as u8).collect()
    }

    /// Any bytes.
    pub fn bytes(&mut self, count: usize) -> Vec<u8> {
        (0..count).map(|_| self.below(256) as u8).collect()
    }
}
