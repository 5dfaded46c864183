//! The logger's settings.

/// Settings with all limits worked out, so that values can be compared directly.
#[derive(Clone, Copy)]
pub struct Limits {
    pub raw: [u32; 9],
    pub m: usize,
    pub n: usize,
    /// Calm means that no N × r is further from A than this: outside and inside a change.
    pub calm: u32,
    pub calm_back: u32,
    /// A dip stands below the first and ends from the second on; an interruption likewise.
    pub dip: (u32, u32),
    pub interruption: (u32, u32),
    /// A swell stands above the first and ends up to the second.
    pub swell: (u32, u32),
}

impl Limits {
    /// From the 36 settings bytes, or the refusal 1 to 6.
    pub fn new(bytes: &[u8]) -> Result<Limits, u32> {
        let (fours, rest) = bytes.as_chunks::<4>();
        if fours.len() != 9 || !rest.is_empty() {
            return Err(1);
        }
        let mut raw = [0u32; 9];
        for (x, four) in raw.iter_mut().zip(fours) {
            *x = u32::from_le_bytes(*four);
        }
        let [m, f, u, t, h, i, d, w, g] = raw;
        if !(8..=256).contains(&m) {
            return Err(2);
        }
        if f != 50 && f != 60 {
            return Err(3);
        }
        if !(16..=524_288).contains(&u) {
            return Err(4);
        }
        if !(50..=600).contains(&t) || h >= t {
            return Err(5);
        }
        // With each at most 20,000 the sums below cannot wrap.
        let small = i <= 20_000 && d <= 20_000 && w <= 20_000 && g <= 20_000;
        if !small || i < 1 || i + g > d || d + 2 * g >= w {
            return Err(6);
        }
        let n = if f == 50 { 100 } else { 120 };
        // Whole numbers x with 10,000 × x at most, or at least, level × U.
        let most = |level: u32| (level as u64 * u as u64 / 10_000) as u32;
        let least = |level: u32| (level as u64 * u as u64).div_ceil(10_000) as u32;
        let far = |t: u32| (t as u64 * n as u64 * u as u64 / 10_000) as u32;
        Ok(Limits {
            raw,
            m: m as usize,
            n,
            calm: far(t),
            calm_back: far(t - h),
            dip: (least(d), least(d + g)),
            interruption: (least(i), least(i + g)),
            swell: (most(w), most(w - g)),
        })
    }
}
