//! What the event program writes, once by the engineer and once by the logger; and the recording
//! that it is run on in the gate.

use crate::engineer::{Engineer, Looked};
use crate::logger::Logger;
use crate::rng::Rng;
use crate::rules::{eight, four, settings_bytes, Q, RECORD};
use crate::waves;

const KINDS: [&str; 4] = ["dip", "swell", "interruption", "rvc"];

/// What the program writes to standard output and to standard error.
#[derive(Clone, Debug, PartialEq, Eq)]
pub struct Text {
    pub printed: String,
    pub told: String,
}

impl Text {
    /// A line for each record, then V; and what has not ended, which has no record.
    pub fn of(program: &str, records: &[u8], v: u64, phase: u64, stand: [bool; 3]) -> Text {
        let mut printed = String::from("kind start halves first second\n");
        for x in records.chunks_exact(RECORD) {
            let (start, duration) = (eight(x, 4), eight(x, 12));
            let (first, second) = (four(x, 20), four(x, 24));
            let kind = KINDS[x[0] as usize - 1];
            printed += &format!("{kind} {start} {duration} {first} {second}\n");
        }
        printed += &format!("values {v}\n");
        let [dip, swell, interruption] = stand;
        let stand = [dip, swell, interruption, phase == 3];
        let lines = KINDS.iter().zip(stand).filter(|x| x.1);
        let told = lines.map(|x| format!("{program}: not ended: {}\n", x.0)).collect();
        Text { printed, told }
    }

    fn of_one(records: &[u8], looked: Looked) -> Text {
        Text::of("event_log", records, looked.v, looked.phase, looked.stand)
    }

    pub fn refused(number: u32) -> Text {
        Text { printed: format!("refused {number}\n"), told: String::new() }
    }
}

/// The settings and what follows them.
pub fn split(input: &[u8]) -> (&[u8], &[u8]) {
    input.split_at(input.len().min(36))
}

pub fn by_engineer(input: &[u8]) -> Text {
    let (settings, samples) = split(input);
    let mut engineer = match Engineer::start(settings) {
        Ok(engineer) => engineer,
        Err(number) => return Text::refused(number),
    };
    let block: Vec<i16> =
        samples.as_chunks::<2>().0.iter().map(|&x| i16::from_le_bytes(x)).collect();
    let (_, records) = engineer.feed(&block, usize::MAX);
    Text::of_one(&records, engineer.look())
}

pub fn by_logger(input: &[u8]) -> Text {
    let (settings, samples) = split(input);
    let mut logger = match Logger::start(settings) {
        Ok(logger) => logger,
        Err(number) => return Text::refused(number),
    };
    let mut left = samples.as_chunks::<2>().0;
    let mut records = Vec::new();
    let mut room = [0; 4 * RECORD];
    loop {
        let fed = logger.feed(left, &mut room);
        records.extend(&room[..RECORD * fed.written as usize]);
        left = &left[fed.taken as usize..];
        if fed.why != 1 {
            return Text::of_one(&records, logger.look());
        }
    }
}

/// The recording in crates/event_log: under Q, a change, a swell, a dip with an interruption in it, a
/// change that a dip hides; a long dip that hides the change into it and the one out of it; then a
/// random wave, a dip that does not end, and an odd last byte.
pub fn recording() -> Vec<u8> {
    let mut samples = Vec::new();
    let steps = [(150, 100), (110, 96), (20, 115), (110, 98), (9, 60), (4, 2), (3, 70), (120, 100)];
    let long_dip = [(130, 88), (110, 100)];
    for (halves, count) in steps.into_iter().chain(long_dip) {
        samples.extend(vec![count; 8 * halves]);
    }
    samples.extend(waves::wave(&mut Rng::new(1), &Q, 1500));
    samples.extend([40; 37]);
    let mut bytes = settings_bytes(&Q);
    bytes.extend(waves::bytes(&samples));
    bytes.push(1);
    bytes
}
