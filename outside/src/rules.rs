//! The refusals 1 to 6 and 8 to 11, read off the paper one sentence at a time.

/// Highest value that a half-cycle pair can give, in sixteenths of a count.
pub const TOP: i64 = 524_288;
/// Bytes in an image.
pub const IMAGE: usize = 788;
/// Bytes in a record.
pub const RECORD: usize = 28;
/// V's end.
pub const END: i128 = 9_223_372_036_854_775_807;

/// The nine settings, and N.
#[derive(Clone, Copy, Debug, PartialEq, Eq)]
pub struct Settings {
    pub m: i64,
    pub f: i64,
    pub u: i64,
    pub t: i64,
    pub h: i64,
    pub i: i64,
    pub d: i64,
    pub w: i64,
    pub g: i64,
    pub n: i64,
}

/// The settings that the paper calls Q.
pub const Q: Settings =
    Settings { m: 8, f: 50, u: 1600, t: 300, h: 150, i: 500, d: 9000, w: 11_000, g: 200, n: 100 };

/// The unsigned 4-byte number at `at`.
pub fn four(bytes: &[u8], at: usize) -> i64 {
    (0..4).map(|j| (bytes[at + j] as i64) << (8 * j)).sum()
}

/// The unsigned 8-byte number at `at`.
pub fn eight(bytes: &[u8], at: usize) -> i128 {
    (0..8).map(|j| (bytes[at + j] as i128) << (8 * j)).sum()
}

/// Settings from bytes, or the lowest number of 1 to 6 that applies.
pub fn settings(bytes: &[u8]) -> Result<Settings, u32> {
    if bytes.len() != 36 {
        return Err(1);
    }
    let x: Vec<i64> = (0..9).map(|j| four(bytes, 4 * j)).collect();
    let (m, f, u, t, h, i, d, w, g) = (x[0], x[1], x[2], x[3], x[4], x[5], x[6], x[7], x[8]);
    if !(8..=256).contains(&m) {
        return Err(2);
    }
    if f != 50 && f != 60 {
        return Err(3);
    }
    if !(16..=524_288).contains(&u) {
        return Err(4);
    }
    if !(50..=600).contains(&t) || h >= t {
        return Err(5);
    }
    let in_range = [i, d, w, g].iter().all(|&x| x <= 20_000);
    if !in_range || i < 1 || i + g > d || d + 2 * g >= w {
        return Err(6);
    }
    let n = if f == 50 { 100 } else { 120 };
    Ok(Settings { m, f, u, t, h, i, d, w, g, n })
}

/// The settings' 36 bytes.
pub fn settings_bytes(s: &Settings) -> Vec<u8> {
    [s.m, s.f, s.u, s.t, s.h, s.i, s.d, s.w, s.g]
        .iter()
        .flat_map(|&x| (x as u32).to_le_bytes())
        .collect()
}

/// The table of contents, 32 bytes.
pub fn table() -> Vec<u8> {
    let mut bytes = Vec::new();
    for (code, offset, length) in [(1u32, 32u16, 36u16), (2, 68, 32), (3, 100, 608), (4, 708, 80)] {
        bytes.extend(code.to_le_bytes());
        bytes.extend(offset.to_le_bytes());
        bytes.extend(length.to_le_bytes());
    }
    bytes
}

/// Restore's answer to any bytes: 0 accepted, else 8 to 11.
pub fn restore(bytes: &[u8]) -> u32 {
    if bytes.len() != IMAGE {
        return 8;
    }
    if bytes[..32] != table()[..] {
        return 9;
    }
    let Ok(s) = settings(&bytes[32..68]) else {
        return 10;
    };
    if bodies_hold(&s, bytes) {
        0
    } else {
        11
    }
}

/// Whether a mark is 0 or 1, and 0 where it is unused.
fn mark_holds(mark: i64, used: bool) -> bool {
    mark == 0 || (mark == 1 && used)
}

/// Every rule listed under 11.
fn bodies_hold(s: &Settings, bytes: &[u8]) -> bool {
    // Body 2.
    let count = four(bytes, 68);
    let sum = eight(bytes, 72);
    let last = eight(bytes, 80);
    let whole = four(bytes, 88);
    let v = eight(bytes, 100);
    let gatherer = count < s.m
        && sum <= (count as i128) << 30
        && last <= (s.m as i128) << 30
        && (whole == 1 || (whole == 0 && last == 0 && v == 0))
        && mark_holds(four(bytes, 92), count > 0)
        && mark_holds(four(bytes, 96), whole == 1);

    // Body 3.
    let n = s.n as i128;
    let used = v.min(n);
    let places = (0..120).all(|j| {
        let r = four(bytes, 108 + 4 * j);
        let mark = bytes[588 + j] as i64;
        let in_use = (j as i128) < used;
        r <= TOP && (in_use || r == 0) && mark_holds(mark, in_use)
    });

    // Body 4, the phase.
    let phase = four(bytes, 708);
    let k = eight(bytes, 712);
    let before = four(bytes, 720);
    let greatest = four(bytes, 724);
    let stand = eight(bytes, 728);
    let phase_in_range = (0..=3).contains(&phase) && (phase == 0) == (v < n);
    let change = if phase == 3 {
        n < k
            && k <= v
            && before <= s.n * TOP
            && greatest <= s.n * TOP
            && (v >= k + n || greatest == 0)
            && (stand == 0 || (k <= stand && stand <= v))
    } else {
        k == 0 && before == 0 && greatest == 0 && stand == 0
    };
    let change_mark = mark_holds(four(bytes, 784), phase == 3 && v >= k + n);

    // Body 4, the standing events.
    let events = (0..3).all(|e| {
        let start = eight(bytes, 736 + 12 * e);
        let magnitude = four(bytes, 744 + 12 * e);
        let mark = four(bytes, 772 + 4 * e);
        start <= v
            && magnitude <= TOP
            && (start != 0 || magnitude == 0)
            && mark_holds(mark, start != 0)
    });

    v <= END && gatherer && places && phase_in_range && change && change_mark && events
}
