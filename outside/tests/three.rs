//! Three phases: bench readings, worked examples, and random recordings and lists of calls. Each feed
//! goes through the engineer and the logger.

mod common;

use common::{bytes, numbers, refuses_settings, Q};
use outside::engineer::{self, Fed};
use outside::rng::Rng;
use outside::rules::{settings_bytes, RECORD};
use outside::three::engineer::Engineer;
use outside::three::lists::{self, Tally};
use outside::three::logger::Logger;
use outside::three::{cases, program, Looked};
use outside::{three, waves};

/// Q with U 400000, which is 25000 counts.
const HIGH: [u32; 9] = [8, 50, 400_000, 300, 150, 500, 9000, 11_000, 200];

/// Half-cycles of 8 samples of one channel: how many, and the count of each sample.
type Halves<'a> = &'a [(usize, i16)];

fn samples(list: Halves) -> Vec<i16> {
    list.iter().flat_map(|&(halves, count)| vec![count; 8 * halves]).collect()
}

/// The three channels' samples in turn.
fn triples(channels: [Halves; 3]) -> Vec<i16> {
    let [a, b, c] = channels.map(samples);
    assert!(a.len() == b.len() && b.len() == c.len());
    (0..a.len()).flat_map(|j| [a[j], b[j], c[j]]).collect()
}

/// Feeds all samples from the start on, through the engineer and the logger.
fn feed(settings: [u32; 9], samples: &[i16], room: usize) -> (Fed, Vec<[u64; 5]>, Looked) {
    let mut engineer = Engineer::start(&bytes(settings)).unwrap();
    let mut logger = Logger::start(&bytes(settings)).unwrap();
    let (fed, records) = engineer.feed(samples, room).unwrap();
    let mut buffer = vec![7; room];
    let block = waves::bytes(samples);
    assert_eq!(logger.feed(block.as_chunks::<2>().0, &mut buffer), Ok(fed));
    assert_eq!(buffer[..records.len()], records[..]);
    assert!(buffer[records.len()..].iter().all(|&x| x == 7));
    assert_eq!(logger.look(), engineer.look());
    let list = records.chunks_exact(RECORD).map(numbers).collect();
    (fed, list, engineer.look())
}

fn records(settings: [u32; 9], channels: [Halves; 3]) -> Vec<[u64; 5]> {
    feed(settings, &triples(channels), 2000).1
}

const A_DIP_AND_A_SWELL: [Halves; 3] =
    [&[(8, 100)], &[(3, 100), (2, 50), (3, 100)], &[(4, 100), (2, 112), (2, 100)]];

#[test]
fn a_dip_in_one_channel_and_a_swell_in_another() {
    let (fed, records, looked) = feed(Q, &triples(A_DIP_AND_A_SWELL), 2000);
    assert_eq!(fed, Fed { taken: 192, written: 2, why: 0 });
    assert_eq!(records, [[1, 3, 3, 800, 0], [2, 5, 1, 1792, 0]]);
    assert_eq!(looked.channels.map(|x| (x.v, x.r, x.a)), [(7, 1600, 0); 3]);
}

#[test]
fn a_change_that_begins_in_one_channel_and_ends_in_another() {
    let channels: [Halves; 3] =
        [&[(150, 100), (110, 96)], &[(260, 100)], &[(156, 100), (104, 104)]];
    assert_eq!(records(Q, channels), [[4, 151, 7, 6400, 6400]]);
    // Due at value 258.
    let all = triples(channels);
    let (_, records, looked) = feed(Q, &all[..24 * 259], 2000);
    assert_eq!((records.len(), looked.phase), (1, 2));
    let (_, records, looked) = feed(Q, &all[..24 * 259 - 3], 2000);
    assert_eq!((records.len(), looked.phase), (0, 3));
}

/// What is due at one value is written whole or not at all, and triples are told in samples.
#[test]
fn record_room() {
    let all = triples(A_DIP_AND_A_SWELL);
    // The dip and the swell both end with value 6, which the last triple of half-cycle 7 makes.
    for room in [0, RECORD - 1, RECORD, 2 * RECORD - 1] {
        assert_eq!(feed(Q, &all, room).0, Fed { taken: 165, written: 0, why: 1 });
    }
    assert_eq!(feed(Q, &all, 2 * RECORD).0, Fed { taken: 192, written: 2, why: 0 });
    assert_eq!(feed(Q, &[], 0).0, Fed { taken: 0, written: 0, why: 0 });
}

#[test]
fn a_block_that_is_not_of_triples() {
    let mut engineer = Engineer::start(&bytes(Q)).unwrap();
    let mut logger = Logger::start(&bytes(Q)).unwrap();
    let all = triples(A_DIP_AND_A_SWELL);
    let block = waves::bytes(&all);
    let block = block.as_chunks::<2>().0;
    engineer.feed(&all[..144], 0).unwrap();
    logger.feed(&block[..144], &mut []).unwrap();
    let looked = engineer.look();
    for length in [1, 2, 4, 5, 47] {
        let mut room = [7; 3 * RECORD];
        assert_eq!(engineer.feed(&all[144..144 + length], 3 * RECORD), Err(14));
        assert_eq!(logger.feed(&block[144..144 + length], &mut room), Err(14));
        assert_eq!(room, [7; 3 * RECORD]);
        assert_eq!((engineer.look(), logger.look()), (looked, looked));
    }
    // It goes on as if they had not been.
    let (fed, _) = engineer.feed(&all[144..], 3 * RECORD).unwrap();
    assert_eq!(fed, Fed { taken: 48, written: 2, why: 0 });
    assert_eq!(logger.feed(&block[144..], &mut [0; 3 * RECORD]), Ok(fed));
}

#[test]
fn a_dip_that_goes_from_channel_to_channel() {
    // b is down at values 3 to 7, a at 7 to 9 and not back at D + G before 11, c at 9 to 13.
    let a: Halves = &[(6, 100), (4, 80), (8, 100)];
    let b: Halves = &[(3, 100), (4, 60), (11, 100)];
    let c: Halves = &[(9, 100), (4, 70), (5, 100)];
    assert_eq!(records(Q, [a, b, c]), [[1, 3, 11, 960, 0]]);
    // With one value, 10, at which all are back, there are two.
    let a: Halves = &[(6, 100), (3, 80), (9, 100)];
    let c: Halves = &[(11, 100), (4, 70), (3, 100)];
    assert_eq!(records(Q, [a, b, c]), [[1, 3, 7, 960, 0], [1, 11, 5, 1120, 0]]);
}

/// A channel between D and D + G holds the joint dip, also where its own dip has ended before.
#[test]
fn a_dip_is_not_the_union_of_the_channels_own() {
    let a: Halves = &[(3, 100), (8, 80), (9, 100)];
    // Down, at D + G, between; its own dip ends at D + G.
    let b: Halves = &[(3, 100), (2, 80), (3, 92), (6, 91), (6, 92)];
    let c: Halves = &[(20, 100)];
    // a is back at value 12. The last value of b below D + G is 14, of 91 and 92 counts: 1464.
    assert_eq!(records(Q, [a, b, c]), [[1, 4, 11, 1280, 0]]);
    let alone: Halves = &[(3, 100), (2, 80), (3, 92), (12, 91)];
    let (_, list, looked) = feed(Q, &triples([a, alone, c]), 2000);
    assert_eq!((list.len(), looked.stand), (0, [true, false, false]));
}

#[test]
fn an_interruption_while_all_are_down() {
    // I is 80 and I + G is 112 sixteenths: 5 and 7 counts.
    let a: Halves = &[(3, 100), (12, 4), (5, 100)];
    let b: Halves = &[(5, 100), (6, 3), (9, 100)];
    let c: Halves = &[(7, 100), (12, 2), (1, 100)];
    // All below from value 8 on; b, whose last low half-cycle is 11, is back at value 11.
    assert_eq!(records(Q, [a, b, c]), [[3, 8, 3, 32, 0]]);
    // One at I, or below I + G, leaves it as it is.
    let b: Halves = &[(5, 100), (6, 5), (9, 100)];
    assert_eq!(records(Q, [a, b, c]), [[0; 5]; 0]);
    let b: Halves = &[(5, 100), (4, 3), (4, 6), (7, 7)];
    assert_eq!(records(Q, [a, b, c])[0], [3, 8, 6, 32, 0]);
}

/// Each own interruption stands, and the joint one does not, until all are below I at one value.
#[test]
fn an_interruption_is_not_the_meet_of_the_channels_own() {
    let a: Halves = &[(3, 100), (20, 4), (2, 100)];
    let b: Halves = &[(3, 100), (3, 4), (6, 6), (11, 4), (2, 100)];
    let c: Halves = &[(7, 100), (16, 4), (2, 100)];
    assert_eq!(records(Q, [a, b, c])[0], [3, 13, 10, 64, 0]);
}

/// Each channel was steady at some time, and never all at one time: phase 1, and no change.
#[test]
fn a_signal_that_was_never_true_jointly() {
    let a: Halves = &[(101, 100), (120, 96)];
    let b: Halves = &[(50, 90), (171, 100)];
    let c: Halves = &[(221, 100)];
    let all = triples([a, b, c]);
    // a is steady at 100 and 101, and again from 203 on; b from 150 on.
    for (v, phase) in
        [(99, 0), (100, 1), (101, 1), (149, 1), (150, 1), (202, 1), (203, 2), (220, 2)]
    {
        let (_, records, looked) = feed(Q, &all[..24 * (v + 1)], 2000);
        assert_eq!((looked.channels[2].v as usize, looked.phase), (v, phase));
        assert_eq!(records, [[0; 5]; 0]);
    }
}

#[test]
fn magnitudes_of_two_channels() {
    let a: Halves = &[(150, 100), (2, 95), (108, 100)];
    let b: Halves = &[(260, 100)];
    let c: Halves = &[(150, 100), (110, 104)];
    assert_eq!(records(Q, [a, b, c]), [[4, 151, 1, 7960, 6368]]);
}

#[test]
fn what_drops_a_change() {
    let a: Halves = &[(150, 100), (110, 88)];
    let c: Halves = &[(260, 100)];
    // The own dip of a begins at value 151 and drops the change, which begins at 150.
    assert_eq!(records(Q, [a, c, c]), [[0; 5]; 0]);
    // Where b has been down from value 1 on, the joint dip stands at 149, and drops it.
    let b: Halves = &[(260, 85)];
    assert_eq!(records(Q, [a, b, c]), [[0; 5]; 0]);
    // A swell in another channel drops a change of a that makes no dip.
    let a: Halves = &[(150, 100), (110, 93)];
    assert_eq!(records(Q, [a, c, c]), [[4, 150, 1, 11_200, 11_200]]);
    let b: Halves = &[(150, 100), (1, 130), (109, 100)];
    assert_eq!(records(Q, [a, b, c]), [[2, 150, 2, 1855, 0]]);
}

/// A change in a from value 124 to value 225, and what b and c do before it.
#[test]
fn joint_events_before_a_change() {
    let a: Halves = &[(124, 100), (103, 93)];
    let c: Halves = &[(227, 100)];
    let change = [4, 124, 1, 11_200, 11_200];
    assert_eq!(records(Q, [a, c, c]), [change]);
    // A dip in b that ended at 123 drops nothing; one that ends at 124, and one that goes on, do.
    let b: Halves = &[(120, 91), (2, 89), (105, 92)];
    assert_eq!(records(Q, [a, b, c]), [[1, 121, 2, 1424, 0], change]);
    let b: Halves = &[(121, 91), (2, 89), (104, 92)];
    assert_eq!(records(Q, [a, b, c]), [[1, 122, 2, 1424, 0]]);
    let b: Halves = &[(122, 91), (2, 89), (103, 91)];
    assert_eq!(records(Q, [a, b, c]), [[0; 5]; 0]);
    // The same for a swell; W is 1760 and W − G is 1728.
    let b: Halves = &[(120, 109), (2, 111), (105, 108)];
    assert_eq!(records(Q, [a, b, c]), [[2, 121, 2, 1776, 0], change]);
    let b: Halves = &[(121, 109), (2, 111), (104, 108)];
    assert_eq!(records(Q, [a, b, c]), [[2, 122, 2, 1776, 0]]);
}

/// No channel's own dip or swell stands at k − 1: b, between the limits, holds the joint one, which c
/// began. Without c nothing stands.
#[test]
fn a_joint_event_before_a_change_that_is_no_channels_own() {
    let a: Halves = &[(124, 100), (103, 93)];
    for (between, beyond, stand) in
        [(91, 80, [true, false, false]), (109, 120, [false, true, false])]
    {
        let b: Halves = &[(227, between)];
        let c: Halves = &[(5, 100), (2, beyond), (220, 100)];
        let (_, list, looked) = feed(Q, &triples([a, b, c]), 2000);
        assert_eq!((list.len(), looked.phase, looked.stand), (0, 2, stand));
        let c: Halves = &[(227, 100)];
        assert_eq!(records(Q, [a, b, c]), [[4, 124, 1, 11_200, 11_200]]);
    }
}

/// With I = D and G = 0: a dip, an interruption and a change that end with one value.
#[test]
fn three_records_at_one_value() {
    let mut s = Q;
    (s[5], s[6], s[8]) = (9000, 9000, 0);
    // The change begins at 151. Value 250 is the first below D, after m − N; value 252, of 89 and 91
    // counts, is 1440, and the first not below it.
    let each: Halves = &[(150, 90), (2, 94), (98, 90), (2, 89), (3, 91)];
    let all = triples([each; 3]);
    let (fed, list, looked) = feed(s, &all, 3 * RECORD);
    assert_eq!(fed, Fed { taken: all.len() as u64, written: 3, why: 0 });
    let expected = [[1, 250, 2, 1424, 0], [3, 250, 2, 1424, 0], [4, 151, 1, 6368, 56]];
    assert_eq!(list, expected);
    assert_eq!((looked.phase, looked.stand), (2, [false; 3]));
    for room in [0, RECORD, 2 * RECORD, 3 * RECORD - 1] {
        let (fed, _, looked) = feed(s, &all, room);
        assert_eq!(fed, Fed { taken: 24 * 253 - 3, written: 0, why: 1 });
        assert_eq!((looked.phase, looked.stand), (3, [true, false, true]));
    }
}

/// A clipped sample in one channel marks exactly the records of whose values it is a part.
#[test]
fn marks_of_one_channel() {
    for c in 0..3 {
        for clipped in 1..=10 {
            // Half-cycle j has 25,000 or 15,000 counts, and one sample of −32767 or 32767.
            let mut all = Vec::new();
            for half in 1..=10 {
                let count = if half == 4 || half == 5 { 15_000 } else { 25_000 };
                let mut own = [[count; 3]; 8];
                own[2] = [-32_767; 3];
                if half == clipped {
                    own[2][c] = 32_767;
                }
                all.extend(own.concat());
            }
            let (_, list, _) = feed(HIGH, &all, 2000);
            // The dip has values 3 to 5, which are half-cycles 3 to 6.
            let mark = (3..=6).contains(&clipped) as u64;
            assert_eq!(list.len(), 1);
            assert_eq!(list[0][..3], [1 | mark << 8, 3, 3], "half-cycle {clipped} of {c}");
        }
    }
}

/// The same for a change: from k to m − N of any channel.
#[test]
fn marks_of_a_change() {
    for c in 0..3 {
        for clipped in [149, 150, 151, 152, 157, 158, 159, 160, 200, 258] {
            let mut all = Vec::new();
            for half in 1..=260 {
                let a = if half <= 150 { 25_000 } else { 24_000 };
                let last = if half <= 156 { 25_000 } else { 26_000 };
                let mut own = [[a, 25_000, last]; 8];
                own[5] = [-32_767; 3];
                if half == clipped {
                    own[5][c] = 32_767;
                }
                all.extend(own.concat());
            }
            let (_, list, _) = feed(HIGH, &all, 2000);
            assert_eq!(list.len(), 1);
            let [kind, start, duration, ..] = list[0];
            let counts = (start..=start + duration + 1).contains(&clipped);
            assert_eq!(kind, 4 | (counts as u64) << 8, "half-cycle {clipped} of {c}");
            assert_eq!(start, 151);
        }
    }
}

/// Three equal channels give the records and the readings of one.
#[test]
fn three_equal_channels() {
    for number in 0..400 {
        let mut rng = Rng::of_case(11, number);
        let s = three::waves::settings(&mut rng);
        let halves = if s.m > 40 { 60 } else { rng.range(0, 4 * s.n) };
        let one = outside::clips::wave(&mut rng, &s, halves);
        let bytes = settings_bytes(&s);
        let mut single = engineer::Engineer::start(&bytes).unwrap();
        let mut three = Engineer::start(&bytes).unwrap();
        let room = RECORD * rng.range(0, 30) as usize;
        let (fed, records) = single.feed(&one, room);
        let (fed_three, records_three) = three.feed(&three::waves::equal(&one), room).unwrap();
        assert_eq!(records_three, records);
        assert_eq!(fed_three, Fed { taken: 3 * fed.taken, ..fed });
        let (looked, looked_three) = (single.look(), three.look());
        assert_eq!(looked_three.phase, looked.phase);
        assert_eq!(looked_three.stand, looked.stand);
        for x in looked_three.channels {
            assert_eq!((x.v, x.r, x.a), (looked.v, looked.r, looked.a));
        }
    }
}

/// What is due does not hang on later samples: the engineer's feed, tried for each number of triples
/// on its own, is the same.
#[test]
fn the_greatest_number_of_triples() {
    let a: Halves = &[(3, 100), (2, 50), (3, 100), (1, 2), (3, 100), (2, 120), (3, 100)];
    let b: Halves = &[(4, 100), (2, 60), (3, 112), (8, 100)];
    let c: Halves = &[(17, 100)];
    let all = triples([a, b, c]);
    for room in 0..5 {
        let fits = |n: &usize| {
            let mut engineer = Engineer::start(&bytes(Q)).unwrap();
            engineer.feed(&all[..3 * n], usize::MAX).unwrap();
            engineer.due().len() <= RECORD * room
        };
        let greatest = (0..=all.len() / 3).filter(fits).max().unwrap();
        let mut engineer = Engineer::start(&bytes(Q)).unwrap();
        let (fed, _) = engineer.feed(&all, RECORD * room).unwrap();
        assert_eq!(fed.taken as usize, 3 * greatest);
    }
}

#[test]
fn the_event_program() {
    let mut input = bytes(Q);
    input.extend(waves::bytes(&triples(A_DIP_AND_A_SWELL)));
    let text = "kind start halves first second\ndip 3 3 800 0\nswell 5 1 1792 0\nvalues 7\n";
    for write in [program::by_engineer, program::by_logger] {
        let program = |input: &[u8]| write(input).printed;
        assert_eq!(program(&input), text);
        assert_eq!(write(&input).told, "");
        // A last incomplete triple is ignored.
        for more in 1..=5 {
            assert_eq!(program(&[&input[..], &[1; 5][..more]].concat()), text);
        }
        // Five half-cycles: the dip stands, with values 3 and 4; with the sixth the swell too.
        let told = |halves: usize| write(&input[..36 + 48 * halves]).told;
        assert_eq!(told(5), "event_log_three: not ended: dip\n");
        assert_eq!(told(6), "event_log_three: not ended: dip\nevent_log_three: not ended: swell\n");
        assert_eq!(program(&input[..41]), "kind start halves first second\nvalues 0\n");
        refuses_settings(program, &input);
    }
}

#[test]
fn random_recordings() {
    for number in 0..2500 {
        let input = cases::input(&mut Rng::of_case(12, number));
        let text = program::by_engineer(&input);
        assert_eq!(program::by_logger(&input), text, "recording {number}");
    }
}

#[test]
fn random_lists_of_calls() {
    for number in 0..1500 {
        let list = lists::list(&mut Rng::of_case(13, number), &mut Tally::default());
        assert_eq!(list.difference(&lists::by_logger(&list.input)), None, "list {number}");
    }
}
