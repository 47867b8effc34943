//! Drawn numbers: a 64-bit generator (splitmix64) and ways to choose by it.

use crate::Draw;

pub struct Dice(u64);

impl Dice {
    pub fn seeded(seed: u64) -> Dice {
        Dice(seed)
    }

    fn roll(&mut self) -> u64 {
        self.0 = self.0.wrapping_add(0x9E37_79B9_7F4A_7C15);
        let x = (self.0 ^ (self.0 >> 30)).wrapping_mul(0xBF58_476D_1CE4_E5B9);
        let y = (x ^ (x >> 27)).wrapping_mul(0x94D0_49BB_1331_11EB);
        y ^ (y >> 31)
    }

    pub fn below(&mut self, n: u64) -> u64 {
        self.roll() % n
    }

    pub fn one_in(&mut self, n: u64) -> bool {
        self.below(n) == 0
    }

    /// A byte below n, which is at most 256.
    pub fn small(&mut self, n: u64) -> u8 {
        self.below(n) as u8
    }

    /// A cue number below n, which is at most 65536.
    pub fn number(&mut self, n: u64) -> u16 {
        self.below(n) as u16
    }

    pub fn byte(&mut self) -> u8 {
        self.small(256)
    }

    /// A draw of a call; one in four is at an end of its range.
    pub fn draw(&mut self) -> Draw {
        match self.one_in(4) {
            true => self.pick(&[0, 1, 65534, 65535]),
            false => self.below(65536) as Draw,
        }
    }

    pub fn bytes(&mut self, count: usize) -> Vec<u8> {
        (0..count).map(|_| self.byte()).collect()
    }

    /// One of some.
    pub fn pick<T: Copy>(&mut self, some: &[T]) -> T {
        some[self.below(some.len() as u64) as usize]
    }

    /// One of some, each as often as its weight says.
    pub fn weighted<T: Copy>(&mut self, some: &[(u64, T)]) -> T {
        let mut left = self.below(some.iter().map(|(weight, _)| weight).sum());
        for &(weight, one) in some {
            if left < weight {
                return one;
            }
            left -= weight;
        }
        unreachable!("what is drawn is below the sum of the weights")
    }

    /// A host that is none of these.
    pub fn host_but(&mut self, none_of: &[u8]) -> u8 {
        let others: Vec<u8> = (0..8).filter(|host| !none_of.contains(host)).collect();
        self.pick(&others)
    }
}
