//! The count of a day: the paper's readings and every limit from both sides, on the outside reading
//! and, with the feature, the proved library.

mod common;

use common::{bytes, feed, Q};
use outside::day_hosts::counters;

/// Q at 60 Hz.
const SIXTY: [u32; 9] = [8, 60, 1600, 300, 150, 500, 9000, 11_000, 200];
/// Half-cycles in a day at 50 and at 60 Hz.
const DAY: u64 = 8_640_000;
const DAY_60: u64 = 10_368_000;
/// A magnitude that is enough.
const ENOUGH: u32 = 1_000_000;

/// The settings with another U.
fn with_u(mut settings: [u32; 9], u: u32) -> [u32; 9] {
    settings[2] = u;
    settings
}

/// A record that lasts one half-cycle.
fn record(kind: u8, start: u64, first: u32, second: u32) -> Vec<u8> {
    let counts = [start, 1].map(u64::to_le_bytes).concat();
    let magnitudes = [first, second].map(u32::to_le_bytes).concat();
    [vec![kind, 0, 0, 0], counts, magnitudes].concat()
}

/// A change that counts by both magnitudes.
fn change(start: u64) -> Vec<u8> {
    record(4, start, ENOUGH, ENOUGH)
}

/// What every implementation tells with a reply of this length, or its number; it changes no other
/// byte of the reply.
fn call(
    settings: &[u8],
    records: &[u8],
    z: u64,
    above: u32,
    day: u64,
    length: usize,
) -> Result<[u64; 4], u32> {
    let mut agreed = None;
    for counter in counters() {
        let mut reply = vec![0x5a; length];
        let number = (counter.count_day)(settings, records, z, above, day, &mut reply);
        let used = if number == 0 { 32 } else { 0 };
        assert!(reply[used..].iter().all(|&x| x == 0x5a), "{}", counter.name);
        let eight = |at: usize| u64::from_le_bytes(reply[at..at + 8].try_into().unwrap());
        let told = if number == 0 { Ok([0, 8, 16, 24].map(eight)) } else { Err(number) };
        assert_eq!(*agreed.get_or_insert(told), told, "{}", counter.name);
    }
    agreed.unwrap()
}

/// The two counts, of second and of first magnitudes, up to 35 kV.
fn counts(settings: [u32; 9], records: &[u8], z: u64, day: u64) -> [u64; 2] {
    let told = call(&bytes(settings), records, z, 0, day, 40).unwrap();
    [told[0], told[1]]
}

/// The number that it is refused with, or 0.
fn number(settings: [u32; 9], records: &[u8], z: u64) -> u32 {
    call(&bytes(settings), records, z, 0, 0, 40).err().unwrap_or(0)
}

#[test]
fn three_and_five_percent() {
    let list = |first, second| record(4, 0, first, second);
    assert_eq!(counts(Q, &list(8000, 4800), 0, 0), [1, 0]);
    assert_eq!(counts(Q, &list(8001, 4799), 0, 0), [0, 1]);
    assert_eq!(counts(Q, &list(8001, 4800), 0, 0), [1, 1]);
    assert_eq!(counts(Q, &list(8000, 4799), 0, 0), [0, 0]);
}

/// The least second and the least first magnitude that count; one less does not.
fn least(settings: [u32; 9], second: u32, first: u32) {
    assert_eq!(counts(settings, &record(4, 0, first - 1, second), 0, 0), [1, 0]);
    assert_eq!(counts(settings, &record(4, 0, first, second - 1), 0, 0), [0, 1]);
}

#[test]
fn percentages_are_not_rounded() {
    least(SIXTY, 5760, 9601);
    // 48.3 and 80.5 sixteenths.
    least(with_u(Q, 1610), 4830, 8051);
    least(with_u(SIXTY, 1610), 5796, 9661);
    // 5763.6 N-ths: 5763 are not enough.
    least(with_u(SIXTY, 1601), 5764, 9607);
    least(with_u(SIXTY, 17), 62, 103);
    least(with_u(Q, 16), 48, 81);
    least(with_u(Q, 524_288), 1_572_864, 2_621_441);
    least(with_u(SIXTY, 524_288), 1_887_437, 3_145_729);
}

/// Also where a hundred times as much passes 4 bytes.
#[test]
fn the_greatest_magnitudes() {
    for x in [42_949_672, 42_949_673, 52_428_800, 62_914_560, 1 << 31, u32::MAX] {
        assert_eq!(counts(Q, &record(4, 0, x, 0), 0, 0), [0, 1], "{x}");
        assert_eq!(counts(Q, &record(4, 0, 0, x), 0, 0), [1, 0], "{x}");
    }
}

/// The start is on this day, and on neither of the days beside it.
fn on_day(settings: [u32; 9], z: u64, start: u64, day: u64) {
    for asked in [day.wrapping_sub(1), day, day + 1] {
        let expected = if asked == day { [1, 1] } else { [0, 0] };
        assert_eq!(counts(settings, &change(start), z, asked), expected, "{start} on {asked}");
    }
}

#[test]
fn the_ends_of_a_day() {
    on_day(Q, 0, 0, 0);
    on_day(Q, 0, 8_639_999, 0);
    on_day(Q, 0, 8_640_000, 1);
    on_day(Q, 0, 17_279_999, 1);
    on_day(Q, 0, 17_280_000, 2);
    on_day(SIXTY, 0, 10_367_999, 0);
    on_day(SIXTY, 0, 10_368_000, 1);
}

#[test]
fn value_0_lies_z_after_midnight() {
    on_day(Q, 1, 8_639_998, 0);
    on_day(Q, 1, 8_639_999, 1);
    on_day(Q, DAY - 1, 0, 0);
    on_day(Q, DAY - 1, 1, 1);
    on_day(Q, DAY - 1, 8_640_000, 1);
    on_day(Q, DAY - 1, 8_640_001, 2);
    on_day(SIXTY, DAY_60 - 1, 0, 0);
    on_day(SIXTY, DAY_60 - 1, 1, 1);
    on_day(SIXTY, DAY, 1_727_999, 0);
    on_day(SIXTY, DAY, 1_728_000, 1);
}

/// z + start passes 4 bytes, and so does the start.
#[test]
fn beyond_four_bytes() {
    let last = u32::MAX as u64;
    on_day(Q, 0, last, 497);
    on_day(Q, DAY - 1, last, 498);
    on_day(Q, 1, last, 497);
    on_day(SIXTY, DAY_60 - 1, last, 415);
    assert_eq!(counts(Q, &change(last), 1, 0), [0, 0]);
    // The days before and after 498 midnights.
    on_day(Q, 0, 4_302_719_999, 497);
    on_day(Q, 0, 4_302_720_000, 498);
    on_day(Q, 1, 4_302_719_999, 498);
    // 8 + 2^32 is on day 497, not on day 0.
    on_day(Q, 0, (1 << 32) + 8, 497);
    assert_eq!(counts(Q, &change((1 << 32) + 8), 0, 0), [0, 0]);
}

/// 2^64 is 2,135,039,823,346 days of 50 Hz and 111,616 half-cycles; z + start passes 8 bytes.
#[test]
fn the_last_starts() {
    on_day(Q, 0, u64::MAX >> 1, 1_067_519_911_673);
    on_day(Q, 0, u64::MAX, 2_135_039_823_346);
    on_day(Q, 1, u64::MAX, 2_135_039_823_346);
    on_day(Q, DAY - 111_616, u64::MAX, 2_135_039_823_346);
    on_day(Q, DAY - 111_615, u64::MAX, 2_135_039_823_347);
    on_day(Q, DAY - 1, u64::MAX, 2_135_039_823_347);
    on_day(SIXTY, DAY_60 - 1, u64::MAX, 1_779_199_852_789);
    for z in [0, 1, DAY - 1] {
        assert_eq!(counts(Q, &change(u64::MAX), z, 0), [0, 0]);
    }
}

#[test]
fn its_end_does_not_matter() {
    for duration in [0, 1, 8_640_000, u32::MAX as u64, u64::MAX] {
        let mut list = change(8_639_999);
        list[12..20].copy_from_slice(&duration.to_le_bytes());
        assert_eq!(counts(Q, &list, 0, 0), [1, 1]);
        assert_eq!(counts(Q, &list, 0, 1), [0, 0]);
    }
}

/// No day of so high a number has one of these starts, whatever is cut or wraps.
#[test]
fn the_highest_days() {
    let list = [change(0), change(8_640_000), change(u32::MAX as u64), change(u64::MAX)].concat();
    for day in [499, 1 << 32, (1 << 32) + 1, 1 << 55, (1 << 55) + 1, 1 << 63, u64::MAX] {
        for z in [0, 1, DAY - 1] {
            assert_eq!(counts(Q, &list, z, day), [0, 0], "{day}");
            assert_eq!(counts(SIXTY, &list, z, day), [0, 0], "{day}");
        }
    }
}

#[test]
fn over_is_above_the_cap() {
    let list = |seconds: usize, firsts: usize| {
        [record(4, 0, 0, ENOUGH).repeat(seconds), record(4, 0, ENOUGH, 0).repeat(firsts)].concat()
    };
    for (above, cap) in [(0, 24), (1, 12), (2, 12), (256, 12), (1 << 31, 12), (u32::MAX, 12)] {
        for (seconds, firsts) in [(cap, cap), (cap + 1, cap), (cap, cap + 1), (cap + 1, cap + 1)] {
            let told = call(&bytes(Q), &list(seconds, firsts), 0, above, 0, 32);
            let over = [seconds > cap, firsts > cap].map(u64::from);
            assert_eq!(told, Ok([seconds as u64, firsts as u64, over[0], over[1]]), "{above}");
        }
    }
    assert_eq!(call(&bytes(Q), &list(300, 260), 0, 0, 0, 32), Ok([300, 260, 1, 1]));
}

#[test]
fn what_is_passed_over() {
    assert_eq!(call(&bytes(Q), &[], 0, 1, 0, 32), Ok([0; 4]));
    for kind in 1..=3 {
        let list = [record(kind, 0, ENOUGH, ENOUGH), change(0)].concat();
        assert_eq!(counts(Q, &list, 0, 0), [1, 1]);
    }
}

/// Neither the mark nor the two bytes behind it are looked at.
#[test]
fn what_is_not_tested() {
    for at in 1..=3 {
        for x in [1, 2, 255] {
            let mut list = change(0);
            list[at] = x;
            assert_eq!(counts(Q, &list, 0, 0), [1, 1]);
        }
    }
}

#[test]
fn fifteen() {
    for z in [DAY, DAY + 1, 2 * DAY, 1 << 32, 1 << 63, u64::MAX] {
        assert_eq!(number(Q, &change(0), z), 15, "{z}");
    }
    for z in [DAY_60, 1 << 32, u64::MAX] {
        assert_eq!(number(SIXTY, &change(0), z), 15, "{z}");
    }
    assert_eq!(number(Q, &change(0), DAY - 1), 0);
    assert_eq!(number(SIXTY, &change(0), DAY_60 - 1), 0);
}

#[test]
fn sixteen() {
    let list = change(0).repeat(3);
    for length in 0..=84 {
        let expected = if length % 28 == 0 { 0 } else { 16 };
        assert_eq!(number(Q, &list[..length], 0), expected, "{length}");
    }
    // A bad kind in what is no whole record.
    assert_eq!(number(Q, &[&list[..], &[0]].concat(), 0), 16);
    assert_eq!(number(Q, &[255], 0), 16);
}

#[test]
fn seventeen() {
    for kind in 0..=255 {
        let expected = if (1..=4).contains(&kind) { 0 } else { 17 };
        for start in [0, 8_640_000] {
            let bad = record(kind, start, 0, 0);
            assert_eq!(number(Q, &bad, 0), expected, "{kind}");
            for list in [[bad.clone(), change(0)], [change(0), bad.clone()]] {
                assert_eq!(number(Q, &list.concat(), 0), expected, "{kind}");
            }
        }
    }
}

#[test]
fn thirteen() {
    for length in 0..=40 {
        let told = call(&bytes(Q), &change(0), 0, 0, 0, length);
        let expected = if length < 32 { Err(13) } else { Ok([1, 1, 0, 0]) };
        assert_eq!(told, expected, "{length}");
    }
}

/// All that can be refused, and then one thing less at a time, from the first on.
#[test]
fn in_that_order() {
    let bad = [record(9, 0, 0, 0), vec![9]].concat();
    let refused = |settings: &[u8], z, list: &[u8], length| {
        call(settings, list, z, 0, 0, length).err().unwrap_or(0)
    };
    let good = bytes(Q);
    assert_eq!(refused(&good[..35], u64::MAX, &bad, 31), 1);
    assert_eq!(refused(&[&good[..], &[0]].concat(), u64::MAX, &bad, 31), 1);
    for (at, expected) in [(0, 2), (4, 3), (8, 4), (12, 5), (20, 6)] {
        let mut settings = good.clone();
        settings[at..at + 4].fill(255);
        assert_eq!(refused(&settings, u64::MAX, &bad, 31), expected);
        assert_eq!(refused(&settings, 0, &bad, 31), expected);
        assert_eq!(refused(&settings, 0, &bad[..28], 31), expected);
        assert_eq!(refused(&settings, 0, &change(0), 31), expected);
        assert_eq!(refused(&settings, 0, &change(0), 32), expected);
    }
    for z in [DAY, u64::MAX] {
        assert_eq!(refused(&good, z, &bad, 31), 15);
        assert_eq!(refused(&good, z, &bad[..28], 31), 15);
        assert_eq!(refused(&good, z, &change(0), 31), 15);
    }
    assert_eq!(refused(&good, DAY - 1, &bad, 31), 16);
    assert_eq!(refused(&good, DAY - 1, &change(0)[..27], 31), 16);
    assert_eq!(refused(&good, DAY - 1, &bad[..28], 31), 17);
    assert_eq!(refused(&good, DAY - 1, &change(0), 31), 13);
    assert_eq!(refused(&good, DAY - 1, &change(0), 32), 0);
}

/// 150 half-cycles of 100, then 103 of 96: the change has the magnitudes 6368 and 6368.
#[test]
fn a_recorded_change() {
    let samples = [vec![100; 8 * 150], vec![96; 8 * 103]].concat();
    let records = feed(Q, &samples, 2000).records;
    assert_eq!(records.len(), 28);
    assert_eq!(counts(Q, &records, 0, 0), [1, 0]);
    // It starts at 151.
    assert_eq!(counts(Q, &records, DAY - 152, 0), [1, 0]);
    assert_eq!(counts(Q, &records, DAY - 151, 0), [0, 0]);
    assert_eq!(counts(Q, &records, DAY - 151, 1), [1, 0]);
}
