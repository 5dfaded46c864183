//! One feed through the engineer, the logger and every host (with the feature, the proved library
//! too), which must agree in every byte; and before it a trial of the same block.

// No test uses all of it.
#![allow(dead_code)]

use outside::engineer::{Engineer, Fed, Looked};
use outside::hosts::hosts;
use outside::logger::Logger;
use outside::rules::IMAGE;
use outside::waves;

/// The settings called Q: M, F, U, T, H, I, D, W, G.
pub const Q: [u32; 9] = [8, 50, 1600, 300, 150, 500, 9000, 11_000, 200];

pub fn bytes(settings: [u32; 9]) -> Vec<u8> {
    settings.iter().flat_map(|x| x.to_le_bytes()).collect()
}

/// What all of them leave of a feed.
pub struct Left {
    pub fed: Fed,
    pub records: Vec<u8>,
    pub image: Vec<u8>,
    pub looked: Looked,
}

/// Feeds all samples, from the start on.
pub fn feed(settings: [u32; 9], samples: &[i16], room: usize) -> Left {
    let mut engineer = Engineer::start(&bytes(settings)).unwrap();
    let mut logger = Logger::start(&bytes(settings)).unwrap();
    let (fed, records) = engineer.feed(samples, room);
    let (mut scratch, mut buffer) = (vec![0; room], vec![0; room]);
    let block = waves::bytes(samples);
    assert_eq!(logger.trial(block.as_chunks::<2>().0, &mut scratch), fed);
    assert_eq!(logger.feed(block.as_chunks::<2>().0, &mut buffer), fed);
    assert_eq!(buffer[..records.len()], records[..]);
    assert_eq!(scratch, buffer);
    assert_eq!(logger.look(), engineer.look());
    let mut image = [0; IMAGE];
    logger.save(&mut image).unwrap();
    assert_eq!(image[..], engineer.image()[..]);
    for host in hosts() {
        let (mut fresh, mut image, mut reply) = ([0; IMAGE], [0; IMAGE], [0; 24]);
        let (mut scratch, mut buffer, mut told) = (vec![0; room], vec![0; room], [0; 24]);
        assert_eq!((host.begin)(&bytes(settings), &mut fresh), 0);
        assert_eq!((host.trial)(&fresh, &block, &mut scratch, &mut told), 0);
        assert_eq!((host.advance)(&fresh, &block, &mut image, &mut buffer, &mut reply), 0);
        assert_eq!(image[..], engineer.image()[..], "{}", host.name);
        assert_eq!(buffer[..records.len()], records[..], "{}", host.name);
        assert_eq!((scratch, told), (buffer, reply), "{}", host.name);
        let told = [fed.taken, fed.written, fed.why].map(u64::to_le_bytes).concat();
        assert_eq!(reply[..], told[..], "{}", host.name);
    }
    Left { fed, records, image: engineer.image(), looked: engineer.look() }
}

/// A record's kind (with its mark in the second byte), start, duration and magnitudes.
pub fn numbers(record: &[u8]) -> [u64; 5] {
    let four = |at: usize| u32::from_le_bytes(record[at..at + 4].try_into().unwrap()) as u64;
    let eight = |at: usize| u64::from_le_bytes(record[at..at + 8].try_into().unwrap());
    [four(0), eight(4), eight(12), four(20), four(24)]
}

/// The event program refuses settings that are too short, and those that break one rule, with its
/// number.
pub fn refuses_settings(program: impl Fn(&[u8]) -> String, input: &[u8]) {
    assert_eq!(program(&input[..35]), "refused 1\n");
    for (at, number) in [(0, 2), (4, 3), (8, 4), (12, 5), (20, 6)] {
        let mut bad = input.to_vec();
        bad[at..at + 4].fill(255);
        assert_eq!(program(&bad), format!("refused {number}\n"));
    }
}
