//! The digest of an answer, by which two implementations are compared.

/// The digest of whole numbers: it starts at 1, and each x takes d to (d × 48,271 + x mod p)
/// mod p with the prime p = 2^31 − 1, x mod p from 0 to p − 1 also for x below zero.
#[derive(Clone, Copy, Debug, PartialEq, Eq)]
pub struct Digest(u64);

const P: u64 = 2_147_483_647;

impl Digest {
    pub fn new() -> Self {
        Digest(1)
    }

    pub fn with(self, x: i64) -> Self {
        Digest((self.0 * 48_271 + x.rem_euclid(P as i64) as u64) % P)
    }

    pub fn with_all<T: Copy + Into<i64>>(self, list: &[T]) -> Self {
        list.iter().fold(self, |digest, &x| digest.with(x.into()))
    }

    pub fn value(self) -> u64 {
        self.0
    }
}

impl Default for Digest {
    fn default() -> Self {
        Self::new()
    }
}
