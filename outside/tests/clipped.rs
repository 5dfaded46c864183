//! Clipped samples: what they mark, and what not, byte for byte.

mod common;

use common::{bytes, feed, numbers, Left};
use outside::editions::THIS;
use outside::hosts::hosts;
use outside::images::Fields;
use outside::logger::Logger;
use outside::pairs::pairs;
use outside::rules::{self, IMAGE, RECORD};
use outside::waves;

/// Q with U 400000, which is 25000 counts.
const HIGH: [u32; 9] = [8, 50, 400_000, 300, 150, 500, 9000, 11_000, 200];

/// All parts in a row: how many samples, and the count of each.
fn samples(parts: &[(usize, i16)]) -> Vec<i16> {
    parts.iter().flat_map(|&(samples, count)| vec![count; samples]).collect()
}

/// A dip whose first sample is this one.
fn dip(first: i16) -> Left {
    let samples = samples(&[(24, 25_000), (1, first), (7, 15_000), (8, 15_000), (24, 25_000)]);
    feed(HIGH, &samples, 2000)
}

#[test]
fn a_clipped_dip() {
    let eight = [3, 0, 0, 0, 0, 0, 0, 0];
    let record = [&[1, 1, 0, 0][..], &eight, &eight, &[0x29, 0x12, 4, 0], &[0; 4]].concat();
    assert_eq!(dip(32_767).records, record);
    assert_eq!(numbers(&record), [257, 3, 3, 266_793, 0]);
    assert_eq!(numbers(&dip(-32_768).records), [257, 3, 3, 266_795, 0]);
}

#[test]
fn a_dip_that_is_just_not_clipped() {
    assert_eq!(numbers(&dip(-32_767).records), [1, 3, 3, 266_793, 0]);
    assert_eq!(numbers(&dip(32_766).records)[..3], [1, 3, 3]);
}

#[test]
fn the_marks_of_an_image() {
    let parts = [(24, 25_000), (1, 32_767), (15, 15_000), (8, 25_000), (3, 25_000), (1, 32_767)];
    let left = feed(HIGH, &samples(&parts), 2000);
    assert_eq!((left.fed.taken, left.fed.written, left.fed.why), (52, 0, 0));
    let image = left.image;
    assert_eq!(image.len(), 788);
    let four = |at: usize| u32::from_le_bytes(image[at..at + 4].try_into().unwrap());
    // The table.
    let table = [1, 36 << 16 | 32, 2, 32 << 16 | 68, 3, 608 << 16 | 100, 4, 80 << 16 | 708];
    assert_eq!(std::array::from_fn(|j| four(4 * j)), table);
    // The half in progress, marked, and the last half, not.
    let sum = 3 * 25_000u64.pow(2) + 32_767u64.pow(2);
    assert_eq!(four(68), 4);
    assert_eq!(image[72..80], sum.to_le_bytes());
    assert_eq!(image[80..88], 5_000_000_000u64.to_le_bytes());
    assert_eq!([88, 92, 96].map(four), [1, 1, 0]);
    // The values.
    assert_eq!([100, 104].map(four), [5, 0]);
    let values = [400_000, 400_000, 349_826, 266_793, 329_848];
    assert_eq!([108, 112, 116, 120, 124].map(four), values);
    assert!(image[128..588].iter().all(|&x| x == 0));
    assert_eq!(image[588..593], [0, 0, 1, 1, 0]);
    assert!(image[593..708].iter().all(|&x| x == 0));
    // Phase 0, and the dip.
    assert!(image[708..736].iter().all(|&x| x == 0));
    assert_eq!([736, 740, 744].map(four), [3, 0, 266_793]);
    assert!(image[748..772].iter().all(|&x| x == 0));
    assert_eq!([772, 776, 780, 784].map(four), [1, 0, 0, 0]);
}

/// Half-cycles of −32767 and seven samples of a count; −32767 has the place `at`, and is 32767 in the
/// half-cycle `clipped`, counted from 1, which gives the same values.
fn flipped(parts: &[(usize, i16)], at: usize, clipped: usize) -> Vec<i16> {
    let counts = parts.iter().flat_map(|&(halves, count)| vec![count; halves]);
    let mut list = Vec::new();
    for (j, count) in counts.enumerate() {
        let mut half = [count; 8];
        half[at] = if j + 1 == clipped { 32_767 } else { -32_767 };
        list.extend(half);
    }
    list
}

/// One clipped sample in each half-cycle in turn: it marks exactly the records that have one of its
/// two values in their first magnitude. Value i is made of half-cycles i and i + 1.
fn marked_exactly_within(settings: [u32; 9], parts: &[(usize, i16)], expected: &[[u64; 3]]) {
    let plain = feed(settings, &flipped(parts, 0, 0), 2000).records;
    let list: Vec<[u64; 5]> = plain.chunks_exact(RECORD).map(numbers).collect();
    let heads: Vec<&[u64]> = list.iter().map(|x| &x[..3]).collect();
    assert_eq!(heads, expected);
    let count: usize = parts.iter().map(|x| x.0).sum();
    for half in 1..=count {
        for at in [0, 3, 7] {
            let mut marked = plain.clone();
            for (record, [kind, start, duration, ..]) in marked.chunks_exact_mut(RECORD).zip(&list)
            {
                // b - 1, or m - N.
                let last = if *kind == 4 { start + duration } else { start + duration - 1 };
                record[1] = (*start..=last + 1).contains(&(half as u64)) as u8;
            }
            let left = feed(settings, &flipped(parts, at, half), 2000);
            assert_eq!(left.records, marked, "half-cycle {half}, sample {at}");
        }
    }
}

#[test]
fn a_dip_is_marked_from_its_start_to_before_its_end() {
    marked_exactly_within(HIGH, &[(4, 25_000), (3, 10_000), (4, 25_000)], &[[1, 4, 4]]);
    // One value only.
    marked_exactly_within(HIGH, &[(4, 25_000), (2, 18_600), (4, 25_000)], &[[1, 5, 1]]);
}

#[test]
fn a_swell_is_marked_from_its_start_to_before_its_end() {
    marked_exactly_within(HIGH, &[(4, 25_000), (3, 31_000), (4, 25_000)], &[[2, 4, 4]]);
}

#[test]
fn an_interruption_in_a_dip_is_marked_by_itself() {
    let mut settings = HIGH;
    settings[5] = 5000;
    let parts = [(4, 25_000), (4, 0), (3, 25_000)];
    marked_exactly_within(settings, &parts, &[[3, 5, 3], [1, 4, 5]]);
}

/// A change since 151, due at 252: values 151 and 152 count, and 150 and 153 do not.
#[test]
fn a_change_is_marked_from_k_to_m_less_n() {
    marked_exactly_within(HIGH, &[(150, 25_000), (104, 23_500)], &[[4, 151, 1]]);
}

/// A change that lasts: its mark in the image comes with the clipped value's leaving the window.
#[test]
fn the_mark_of_a_change_follows_v_less_n() {
    let parts = [(150, 25_000), (60, 23_500), (90, 25_000)];
    for clipped in [150, 151, 180, 199] {
        let all = flipped(&parts, 0, clipped);
        for v in [151, 200, 250, 251, 252, 279, 280, 281, 298, 299] {
            let left = feed(HIGH, &all[..8 * (v + 1)], 2000);
            let x = Fields::of(&left.image);
            assert_eq!((x.v as usize, x.phase, x.change[0]), (v, 3, 151), "value {v}");
            // The first clipped value from 151 on.
            let first = (clipped - 1).max(151);
            let counts = first <= clipped && first + 100 <= v;
            assert_eq!(x.event_marks, [0, 0, 0, counts as u32], "half-cycle {clipped}, value {v}");
        }
    }
}

/// A clipped sample that is not taken, because its record does not fit, marks nothing.
#[test]
fn a_clipped_sample_that_is_not_taken() {
    let mut all = samples(&[(24, 25_000), (16, 15_000), (24, 25_000)]);
    all[55] = 32_767;
    let left = feed(HIGH, &all, 0);
    assert_eq!((left.fed.taken, left.fed.why), (55, 1));
    let x = Fields::of(&left.image);
    assert_eq!((x.count, x.half_marks), (7, [0, 0]));
    // The one before it is taken.
    all[54] = 32_767;
    let x = Fields::of(&feed(HIGH, &all, 0).image);
    assert_eq!((x.count, x.half_marks), (7, [1, 0]));
}

/// An image with marks that no recording gives: they go on as they are held.
#[test]
fn marks_go_on_as_held() {
    let mut x = Fields::fresh(rules::settings(&bytes(HIGH)).unwrap());
    x.whole = 1;
    x.last = 5_000_000_000;
    x.v = 299;
    x.places[..100].fill(400_000);
    x.phase = 3;
    x.change = [190, 40_000_000, 7, 0];
    x.events = [250, 300_000, 0, 0, 260, 5];
    x.event_marks = [1, 0, 0, 1];
    for host in hosts() {
        let (mut image, mut records, mut reply) = ([0; IMAGE], [0; 3 * RECORD], [0; 24]);
        let block = waves::bytes(&[25_000; 8]);
        let given = x.bytes();
        assert_eq!((host.advance)(&given, &block, &mut image, &mut records, &mut reply), 0);
        let list: Vec<[u64; 5]> = records.chunks_exact(RECORD).map(numbers).collect();
        let expected = [[257, 250, 50, 300_000, 0], [3, 260, 40, 5, 0], [260, 190, 10, 7, 0]];
        assert_eq!(list, expected, "{}", host.name);
        assert_eq!(Fields::of(&image).event_marks, [0; 4]);
    }
}

/// Each rule of 11 by itself, and the nearest image that keeps it.
#[test]
fn every_rule_of_the_bodies() {
    for settings in [HIGH, [256, 60, 16, 50, 49, 1, 1, 2, 0]] {
        for pair in pairs(&THIS, rules::settings(&bytes(settings)).unwrap()) {
            for (image, number) in [(pair.broken.bytes(), 11), (pair.accepted.bytes(), 0)] {
                assert_eq!(rules::restore(&image), number, "{}", pair.rule);
                assert_eq!(Logger::from_image(&image).err().unwrap_or(0), number, "{}", pair.rule);
                for host in hosts() {
                    let (mut new, mut reply) = ([0; IMAGE], [0; 24]);
                    let given = (host.advance)(&image, &[], &mut new, &mut [], &mut reply);
                    assert_eq!(given, number, "{}: {}", host.name, pair.rule);
                }
            }
        }
    }
}
