//! Pseudo-random draws that a seed repeats, the same on every machine: floats are made by sums, products, quotients and square roots alone,
//! which are exact in their last digit everywhere.

use std::f64::consts::LN_2;

/// The generator splitmix64.
pub struct Draw {
    state: u64,
    spare: Option<f64>,
}

impl Draw {
    pub fn new(seed: u64) -> Draw {
        Draw { state: seed, spare: None }
    }

    /// Any 64 bits.
    pub fn number(&mut self) -> u64 {
        self.state = self.state.wrapping_add(0x9e37_79b9_7f4a_7c15);
        let z = (self.state ^ self.state >> 30).wrapping_mul(0xbf58_476d_1ce4_e5b9);
        let z = (z ^ z >> 27).wrapping_mul(0x94d0_49bb_1331_11eb);
        z ^ z >> 31
    }

    /// A number from 0 to n - 1. There must be one.
    pub fn below(&mut self, n: usize) -> usize {
        assert!(n > 0, "no number is below 0");
        ((u128::from(self.number()) * n as u128) >> 64) as usize
    }

    /// True once in so many times.
    pub fn once_in(&mut self, times: usize) -> bool {
        self.below(times) == 0
    }

    /// One of these.
    pub fn pick<T: Copy>(&mut self, these: &[T]) -> T {
        these[self.below(these.len())]
    }

    /// 0 or 1.
    pub fn bit(&mut self) -> u8 {
        (self.number() >> 63) as u8
    }

    /// Fills the slice with bits, one in each byte.
    pub fn bits(&mut self, bits: &mut [u8]) {
        for chunk in bits.chunks_mut(64) {
            let number = self.number();
            chunk.iter_mut().enumerate().for_each(|(i, bit)| *bit = (number >> i & 1) as u8);
        }
    }

    /// Fills the slice with any bytes.
    pub fn bytes(&mut self, bytes: &mut [u8]) {
        for chunk in bytes.chunks_mut(8) {
            let number = self.number().to_le_bytes();
            chunk.copy_from_slice(&number[..chunk.len()]);
        }
    }

    /// A number from 0 up to, but without, 1.
    pub fn uniform(&mut self) -> f64 {
        (self.number() >> 11) as f64 / (1u64 << 53) as f64
    }

    /// A number of the normal distribution of mean 0 and variance 1 (Marsaglia's polar method, which makes two at a time).
    pub fn gauss(&mut self) -> f64 {
        if let Some(spare) = self.spare.take() {
            return spare;
        }
        loop {
            let x = 2.0 * self.uniform() - 1.0;
            let y = 2.0 * self.uniform() - 1.0;
            let square = x * x + y * y;
            if square > 0.0 && square < 1.0 {
                let scale = (2.0 * minus_ln(square) / square).sqrt();
                self.spare = Some(y * scale);
                return x * scale;
            }
        }
    }
}

/// -ln x for a normal number x between 0 and 1. With x = f / 2^e and f from 1/2 to 1 it is e ln 2 + 2 artanh((1 - f) / (1 + f)).
fn minus_ln(x: f64) -> f64 {
    const TERMS: i32 = 16;
    let halvings = 1022 - (x.to_bits() >> 52) as i32;
    let fraction = f64::from_bits(x.to_bits() & (u64::MAX >> 12) | 1022 << 52);
    let y = (1.0 - fraction) / (1.0 + fraction);
    let series = (0..TERMS).rev().fold(0.0, |sum, i| sum * y * y + 1.0 / f64::from(2 * i + 1));
    f64::from(halvings) * LN_2 + 2.0 * y * series
}

#[cfg(test)]
mod tests {
    use super::{minus_ln, Draw};

    /// The published first numbers of splitmix64 from the seed 1234567.
    #[test]
    fn published_numbers() {
        let mut draw = Draw::new(1234567);
        assert_eq!([draw.number(), draw.number(), draw.number()], [6457827717110365317, 3203168211198807973, 9817491932198370423]);
    }

    #[test]
    fn moments() {
        let mut draw = Draw::new(1);
        let count = 100_000;
        let gauss: Vec<f64> = (0..count).map(|_| draw.gauss()).collect();
        let mean = gauss.iter().sum::<f64>() / count as f64;
        let variance = gauss.iter().map(|x| x * x).sum::<f64>() / count as f64;
        assert!(mean.abs() < 0.02 && (variance - 1.0).abs() < 0.02, "mean {mean}, variance {variance}");
        let uniform = (0..count).map(|_| draw.uniform()).sum::<f64>() / count as f64;
        assert!((uniform - 0.5).abs() < 0.01, "mean {uniform}");
        let ones = (0..count).filter(|_| draw.bit() == 1).count();
        assert!(ones.abs_diff(count / 2) < count / 100, "{ones} ones");
    }

    #[test]
    fn below_reaches_all() {
        let mut draw = Draw::new(1);
        let mut seen = [false; 7];
        (0..1000).for_each(|_| seen[draw.below(7)] = true);
        assert_eq!(seen, [true; 7]);
    }

    #[test]
    fn logarithm() {
        for x in [1e-300, 1e-9, 0.1, 0.25, 0.3, 0.5, 0.7, 0.999_999, 1.0 - f64::EPSILON / 2.0] {
            let (got, right) = (minus_ln(x), -x.ln());
            assert!((got - right).abs() <= 1e-14 * right.max(1.0), "{x}: {got}, not {right}");
        }
    }

    #[test]
    fn normal_distribution() {
        // Moments 1 to 4 and the tail beyond 3, each with its standard deviation over the draws.
        const DRAWS: usize = 1_000_000;
        let mut draw = Draw::new(1);
        let mut sums = [0.0; 5];
        for _ in 0..DRAWS {
            let x = draw.gauss();
            for (power, sum) in sums[..4].iter_mut().enumerate() {
                *sum += x.powi(power as i32 + 1);
            }
            sums[4] += f64::from(u8::from(x.abs() > 3.0));
        }
        let right = [0.0, 1.0, 0.0, 3.0, 0.002_699_796];
        let deviations = [1.0, 2.0f64.sqrt(), 15.0f64.sqrt(), 96.0f64.sqrt(), 0.002_699_796f64.sqrt()];
        for i in 0..5 {
            let off = (sums[i] / DRAWS as f64 - right[i]) / deviations[i] * (DRAWS as f64).sqrt();
            assert!(off.abs() < 5.0, "number {i} is off by {off} standard deviations");
        }
    }
}
