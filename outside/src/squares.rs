//! Sums of squares and the root.

/// A sample as it comes: low byte first, two's complement.
pub type Sample = [u8; 2];

/// What samples of one half-cycle give: the sum of their squares, and whether one is clipped.
#[derive(Clone, Copy, Debug, PartialEq, Eq)]
pub struct Part {
    pub sum: u64,
    pub clipped: bool,
}

impl Part {
    pub const NONE: Part = Part { sum: 0, clipped: false };

    /// With further samples, at most 256.
    pub fn with(self, samples: &[Sample]) -> Part {
        Part { sum: self.sum + energy(samples), clipped: self.clipped | has_clipped(samples) }
    }
}

/// The sum of squares of at most 256 samples. The upper and the lower halves of the squares are
/// added apart, in 32 bits each, so that the loop runs in lanes of that width.
fn energy(samples: &[Sample]) -> u64 {
    debug_assert!(samples.len() <= 256);
    let (mut upper, mut lower) = (0u32, 0u32);
    for &x in samples {
        let x = i16::from_le_bytes(x) as i32;
        let square = (x * x) as u32;
        upper += square >> 16;
        lower += square & 0xffff;
    }
    ((upper as u64) << 16) + lower as u64
}

/// Whether one of the samples is −32768 or 32767. One more, wrapped, these are the two least numbers,
/// so that the least of all tells.
fn has_clipped(samples: &[Sample]) -> bool {
    let next = |x: &Sample| i16::from_le_bytes(*x).wrapping_add(1);
    samples.iter().map(next).fold(0, i16::min) <= -32_767
}

/// The roots of the numbers below 256.
const ROOTS: [u8; 256] = {
    let mut roots = [0; 256];
    let mut n: usize = 0;
    while n < 256 {
        roots[n] = n.isqrt() as u8;
        n += 1;
    }
    roots
};

/// The greatest whole number whose square is at most n: `near` where it is that one; else below 256
/// from the table, and from there on twice the root of the quarter, or one more.
pub fn root(n: u64, near: u64) -> u64 {
    if near * near <= n && n < (near + 1) * (near + 1) {
        return near;
    }
    if n < 256 {
        return ROOTS[n as usize] as u64;
    }
    let even = 2 * root(n / 4, near / 2);
    let odd = even + 1;
    if odd * odd <= n {
        odd
    } else {
        even
    }
}
