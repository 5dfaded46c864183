//! Records as numbers, whatever they are, in either edition.

use crate::editions::{Edition, THIS};

#[derive(Clone, Copy, Debug)]
pub struct Entry {
    pub kind: u8,
    pub mark: u8,
    pub zeros: [u8; 2],
    pub start: u64,
    pub duration: u64,
    pub first: u32,
    pub second: u32,
}

/// The number in these bytes.
fn number(b: &[u8]) -> u64 {
    b.iter().rev().fold(0, |x, &byte| x << 8 | byte as u64)
}

impl Entry {
    pub fn of(b: &[u8]) -> Entry {
        Entry::of_in(&THIS, b)
    }

    /// The record in an edition's bytes.
    pub fn of_in(edition: &Edition, b: &[u8]) -> Entry {
        let (counts, magnitudes) = b[4..].split_at(2 * edition.count);
        let (start, duration) = counts.split_at(edition.count);
        let (first, second) = magnitudes.split_at(4);
        let [start, duration, first, second] = [start, duration, first, second].map(number);
        let [first, second] = [first, second].map(|x| x as u32);
        Entry { kind: b[0], mark: b[1], zeros: [b[2], b[3]], start, duration, first, second }
    }

    pub fn bytes(&self) -> Vec<u8> {
        self.bytes_in(&THIS)
    }

    /// The record in an edition, in which its numbers must fit.
    pub fn bytes_in(&self, edition: &Edition) -> Vec<u8> {
        let counts = [self.start, self.duration];
        assert!(edition.count == 8 || counts.iter().all(|&x| x >> 32 == 0), "{self:?}");
        let mut b = vec![self.kind, self.mark, self.zeros[0], self.zeros[1]];
        counts.iter().for_each(|x| b.extend(&x.to_le_bytes()[..edition.count]));
        [self.first, self.second].iter().for_each(|x| b.extend(x.to_le_bytes()));
        b
    }

    pub fn has_bad_kind(&self) -> bool {
        self.kind == 0 || self.kind > 4
    }
}
