//! What the event program of three phases writes, once by the engineer and once by the logger; and
//! the recording that it is run on in the gate.

use super::engineer::Engineer;
use super::logger::Logger;
use super::{waves, Looked, CHANNELS};
use crate::program::{split, Text};
use crate::rng::Rng;
use crate::rules::{settings_bytes, Settings, RECORD};
use crate::squares::Sample;

/// The samples of whole triples.
pub fn triples(bytes: &[u8]) -> &[Sample] {
    let samples = bytes.as_chunks::<2>().0;
    &samples[..samples.len() / CHANNELS * CHANNELS]
}

/// Samples as numbers.
pub fn numbers(samples: &[Sample]) -> Vec<i16> {
    samples.iter().map(|&x| i16::from_le_bytes(x)).collect()
}

/// What is left of an input: the bytes of its records, with their marks, and what a look tells; or the
/// refusal.
pub type Left = Result<(Vec<u8>, Looked), u32>;

/// The text of it.
pub fn text(left: &Left) -> Text {
    match left {
        Ok((records, looked)) => {
            let v = looked.channels[0].v;
            Text::of("event_log_three", records, v, looked.phase, looked.stand)
        }
        Err(number) => Text::refused(*number),
    }
}

pub fn left_by_engineer(input: &[u8]) -> Left {
    let (settings, rest) = split(input);
    let mut engineer = Engineer::start(settings)?;
    let (_, records) = engineer.feed(&numbers(triples(rest)), usize::MAX)?;
    Ok((records, engineer.look()))
}

pub fn left_by_logger(input: &[u8]) -> Left {
    let (settings, rest) = split(input);
    let mut logger = Logger::start(settings)?;
    let mut left = triples(rest);
    let mut records = Vec::new();
    let mut room = [0; 3 * RECORD];
    loop {
        let fed = logger.feed(left, &mut room)?;
        records.extend(&room[..RECORD * fed.written as usize]);
        left = &left[fed.taken as usize..];
        if fed.why != 1 {
            return Ok((records, logger.look()));
        }
    }
}

pub fn by_engineer(input: &[u8]) -> Text {
    text(&left_by_engineer(input))
}

pub fn by_logger(input: &[u8]) -> Text {
    text(&left_by_logger(input))
}

/// Settings under which each kind of record can be marked: U is 25,000 counts.
pub(super) const HIGH: Settings = Settings {
    m: 8,
    f: 50,
    u: 400_000,
    t: 300,
    h: 150,
    i: 7000,
    d: 9000,
    w: 11_000,
    g: 200,
    n: 100,
};

/// The recording in crates/event_log_three: a change that begins in a and ends in c; a dip that goes
/// from channel to channel, with a swell in c and an interruption while all are down in it; a swell
/// with clipped samples; both hide a change. Then a long dip in b that hides a change in a and the one
/// out of it; a random recording, a dip that does not end, and five bytes of a triple.
pub fn recording() -> Vec<u8> {
    let mut triples = Vec::new();
    // For so many half-cycles, counts of the three channels.
    let steps = [
        (120, [25_000, 25_000, 25_000]),
        (7, [24_000, 25_000, 25_000]),
        (112, [24_000, 25_000, 26_000]),
        (3, [20_000, 25_000, 26_000]),
        (3, [22_900, 19_000, 26_000]),
        (4, [25_000, 22_600, 28_000]),
        (2, [17_000, 16_000, 20_000]),
        (3, [17_000, 16_000, 15_000]),
        (2, [17_600, 16_000, 15_000]),
        (3, [18_200, 16_000, 15_000]),
        (115, [25_000, 25_000, 25_000]),
        (4, [32_767, 25_000, 25_000]),
        (115, [25_000, 25_000, 25_000]),
        (120, [25_000, 22_000, 25_000]),
        (110, [24_000, 22_000, 25_000]),
        (110, [25_000, 25_000, 25_000]),
    ];
    for (halves, counts) in steps {
        for _ in 0..8 * halves {
            triples.extend(counts);
        }
    }
    triples.extend(waves::recording(&mut Rng::new(3), &HIGH, 900));
    triples.extend([25_000, 9000, 25_000].repeat(21));
    let mut bytes = settings_bytes(&HIGH);
    bytes.extend(crate::waves::bytes(&triples));
    bytes.extend([1, 2, 3, 4, 5]);
    bytes
}
