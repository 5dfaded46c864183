//! The earlier edition, whose images and records the converter takes and gives: V, k, the first stand
//! and every start and duration take 4 bytes. What is refused of its images is read off the paper one
//! sentence at a time, apart from this edition's rules; only the settings are common to both.

use crate::rules::{eight, four, settings};

/// Bytes in an image.
pub const IMAGE: usize = 764;
/// Bytes in a record.
pub const RECORD: usize = 20;
/// V's end: no number of 4 bytes is above it.
pub const END: i128 = 4_294_967_295;

/// The table of contents, 32 bytes: code, offset and length of each body.
pub fn table() -> Vec<u8> {
    let entries = [[1, 32, 36], [2, 68, 32], [3, 100, 604], [4, 704, 60]];
    entries.iter().flat_map(|&[code, offset, length]| table_entry(code, offset, length)).collect()
}

fn table_entry(code: u32, offset: u32, length: u32) -> [u8; 8] {
    let [c0, c1, c2, c3] = code.to_le_bytes();
    let [o0, o1, ..] = offset.to_le_bytes();
    let [l0, l1, ..] = length.to_le_bytes();
    [c0, c1, c2, c3, o0, o1, l0, l1]
}

/// Restore's answer to any bytes: 0 accepted, else 8 to 11.
pub fn restore(bytes: &[u8]) -> u32 {
    if bytes.len() != IMAGE {
        8
    } else if bytes[..32] != table() {
        9
    } else if settings(&bytes[32..68]).is_err() {
        10
    } else if !(gatherer_good(bytes) && values_good(bytes) && events_good(bytes)) {
        11
    } else {
        0
    }
}

/// M.
fn samples(b: &[u8]) -> i64 {
    four(b, 32)
}

/// N.
fn window(b: &[u8]) -> i64 {
    if four(b, 36) == 50 {
        100
    } else {
        120
    }
}

fn v(b: &[u8]) -> i64 {
    four(b, 100)
}

fn phase(b: &[u8]) -> i64 {
    four(b, 704)
}

/// Body 2.
fn gatherer_good(b: &[u8]) -> bool {
    let (count, whole) = (four(b, 68), four(b, 88));
    let (mark, last_mark) = (four(b, 92), four(b, 96));
    let nothing_last = b[80..88] == [0; 8] && v(b) == 0 && last_mark == 0;
    count < samples(b)
        && eight(b, 72) <= count as i128 * (1 << 30)
        && eight(b, 80) <= samples(b) as i128 * (1 << 30)
        && (whole == 0 || whole == 1)
        && (whole == 1 || nothing_last)
        && (mark == 0 || mark == 1)
        && (count > 0 || mark == 0)
        && (last_mark == 0 || last_mark == 1)
}

/// Body 3.
fn values_good(b: &[u8]) -> bool {
    let used = v(b).min(window(b)) as usize;
    let values: Vec<i64> = (0..120).map(|j| four(b, 104 + 4 * j)).collect();
    let marks = &b[584..704];
    values.iter().all(|&r| r <= 524_288)
        && marks.iter().all(|&mark| mark <= 1)
        && values[used..].iter().all(|&r| r == 0)
        && marks[used..].iter().all(|&mark| mark == 0)
}

/// Body 4.
fn events_good(b: &[u8]) -> bool {
    let phase_good = phase(b) <= 3 && (phase(b) == 0) == (v(b) < window(b));
    let carried_good = if phase(b) == 3 {
        change_good(b)
    } else {
        // The four numbers of a change, and its mark.
        b[708..724] == [0; 16] && b[760..764] == [0; 4]
    };
    phase_good && carried_good && [0, 1, 2].iter().all(|&e| event_good(b, 724 + 8 * e, 748 + 4 * e))
}

/// What a change carries, in phase 3.
fn change_good(b: &[u8]) -> bool {
    let [first, second, third, fourth] = [708, 712, 716, 720].map(|at| four(b, at));
    let mark = four(b, 760);
    let most = window(b) * 524_288;
    let early = v(b) < first + window(b);
    window(b) < first
        && first <= v(b)
        && second <= most
        && third <= most
        && (!early || (third == 0 && mark == 0))
        && (fourth == 0 || (first..=v(b)).contains(&fourth))
        && (mark == 0 || mark == 1)
}

/// The dip, the swell or the interruption: its start and magnitude, and its mark.
fn event_good(b: &[u8], at: usize, mark_at: usize) -> bool {
    let (start, magnitude, mark) = (four(b, at), four(b, at + 4), four(b, mark_at));
    if start == 0 {
        magnitude == 0 && mark == 0
    } else {
        start <= v(b) && magnitude <= 524_288 && (mark == 0 || mark == 1)
    }
}
