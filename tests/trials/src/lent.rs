//! Bytes lent for writing.

use trials::chance::Chance;

/// Bytes that are lent, and some on either side of them; all are full of other bytes before, none of them zero.
pub struct Lent {
    before: Vec<u8>,
    bytes: Vec<u8>,
}

const BESIDE: usize = 24;

impl Lent {
    pub fn new(length: usize, chance: &mut Chance) -> Lent {
        let before: Vec<u8> = (0..length + 2 * BESIDE).map(|_| chance.from(1, 255) as u8).collect();
        let bytes = before.clone();
        Lent { before, bytes }
    }

    fn end(&self) -> usize {
        self.bytes.len() - BESIDE
    }

    /// The part that is lent.
    pub fn part(&mut self) -> &mut [u8] {
        let end = self.end();
        &mut self.bytes[BESIDE..end]
    }

    /// Whether nothing was written beside that part.
    pub fn beside_kept(&self) -> bool {
        let beside = |all: &[u8]| (all[..BESIDE].to_vec(), all[self.end()..].to_vec());
        beside(&self.bytes) == beside(&self.before)
    }
}
