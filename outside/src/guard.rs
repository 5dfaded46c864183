//! Buffers with guard bytes on both sides, at even and odd addresses.

const GUARD: usize = 64;

pub struct Guarded {
    bytes: Vec<u8>,
    start: usize,
    length: usize,
}

fn guard_byte(j: usize) -> u8 {
    (j as u8).wrapping_mul(37) ^ 0xa5
}

impl Guarded {
    /// A buffer that holds `inner`, with guard bytes around it.
    pub fn new(inner: &[u8]) -> Guarded {
        let length = inner.len();
        // The address hangs on the bytes, so that a case is the same when it is run again.
        let start = GUARD + inner.iter().map(|&x| x as usize).sum::<usize>() % 16;
        let mut bytes: Vec<u8> = (0..start + length + GUARD).map(guard_byte).collect();
        bytes[start..start + length].copy_from_slice(inner);
        Guarded { bytes, start, length }
    }

    /// A buffer of this length, filled with a pattern.
    pub fn filled(length: usize, fill: u8) -> Guarded {
        let inner: Vec<u8> = (0..length).map(|j| (j as u8).wrapping_mul(29) ^ fill).collect();
        Guarded::new(&inner)
    }

    pub fn get(&self) -> &[u8] {
        &self.bytes[self.start..self.start + self.length]
    }

    pub fn get_mut(&mut self) -> &mut [u8] {
        &mut self.bytes[self.start..self.start + self.length]
    }

    /// Whether the guard bytes are as they were.
    pub fn holds(&self) -> bool {
        let inner = self.start..self.start + self.length;
        let mut places = self.bytes.iter().enumerate();
        places.all(|(j, &x)| inner.contains(&j) || x == guard_byte(j))
    }
}
