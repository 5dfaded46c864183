//! The count of a day, which network contracts cap: read off the paper one sentence at a time.

use crate::rules::{self, eight, four, Settings, RECORD};

/// Bytes of a reply.
pub const REPLY: usize = 32;

/// What is told of a day.
#[derive(Clone, Copy, Debug, PartialEq, Eq)]
pub struct Counted {
    /// Changes with a second magnitude of 3 % of U or more, and with a first one above 5 %.
    pub by_second: u64,
    pub by_first: u64,
    /// Whether each count is over the cap.
    pub by_second_over: bool,
    pub by_first_over: bool,
}

/// Half-cycles in a day.
pub fn day_length(s: &Settings) -> i128 {
    86_400 * s.n as i128
}

/// The day of a record's start. Value 0 lies z half-cycles after midnight.
fn day_of(s: &Settings, z: u64, record: &[u8]) -> i128 {
    (z as i128 + eight(record, 4)) / day_length(s)
}

/// Whether the first magnitude is above 5 % of U. It is in N-ths of a sixteenth, U in sixteenths.
fn first_counts(s: &Settings, record: &[u8]) -> bool {
    100 * four(record, 20) as i128 > (5 * s.n * s.u) as i128
}

/// Whether the second magnitude is at least 3 % of U.
fn second_counts(s: &Settings, record: &[u8]) -> bool {
    100 * four(record, 24) as i128 >= (3 * s.n * s.u) as i128
}

/// The counts of a day, above 35 kV or not: start's refusals 1 to 6, then 15, 16, 17.
pub fn count(
    settings: &[u8],
    records: &[u8],
    z: u64,
    above: bool,
    day: u64,
) -> Result<Counted, u32> {
    let s = rules::settings(settings)?;
    if z as i128 >= day_length(&s) {
        return Err(15);
    }
    if records.len() % RECORD != 0 {
        return Err(16);
    }
    let records = || records.chunks_exact(RECORD);
    if !records().all(|x| (1..=4).contains(&x[0])) {
        return Err(17);
    }
    let of_day = || records().filter(|x| x[0] == 4 && day_of(&s, z, x) == day as i128);
    let by_second = of_day().filter(|x| second_counts(&s, x)).count() as u64;
    let by_first = of_day().filter(|x| first_counts(&s, x)).count() as u64;
    let cap = if above { 12 } else { 24 };
    Ok(Counted {
        by_second,
        by_first,
        by_second_over: by_second > cap,
        by_first_over: by_first > cap,
    })
}

/// The call as a host in C makes it: then 13 for the reply; else 0 and four numbers in the reply.
pub fn count_day(
    settings: &[u8],
    records: &[u8],
    z: u64,
    above: u32,
    day: u64,
    reply: &mut [u8],
) -> u32 {
    let x = match count(settings, records, z, above != 0, day) {
        Ok(x) => x,
        Err(number) => return number,
    };
    if reply.len() < REPLY {
        return 13;
    }
    let told = [x.by_second, x.by_first, x.by_second_over as u64, x.by_first_over as u64];
    reply[..REPLY].copy_from_slice(&told.map(u64::to_le_bytes).concat());
    0
}
