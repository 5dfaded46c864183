//! The paper's bench readings, marked [t], the event program's example, and what stands before a change.
//! Each feed goes through the engineer, the logger and every host (with the feature, the proved library
//! too).

mod common;

use common::{bytes, feed, numbers, refuses_settings, Q};
use outside::engineer::{Engineer, Fed, Looked};
use outside::hosts::hosts;
use outside::images::Fields;
use outside::logger::END;
use outside::rules::{self, IMAGE, RECORD};
use outside::{program, waves};

/// Feeds all samples; gives what is told, the records, and a look.
fn run(settings: [u32; 9], samples: &[i16], room: usize) -> (Fed, Vec<[u64; 5]>, Looked) {
    let left = feed(settings, samples, room);
    let list = left.records.chunks_exact(RECORD).map(numbers).collect();
    (left.fed, list, left.looked)
}

/// Half-cycles of 8 samples: how many, and the count of each sample.
fn halves(list: &[(usize, i16)]) -> Vec<i16> {
    list.iter().flat_map(|&(halves, count)| vec![count; 8 * halves]).collect()
}

fn last_value(settings: [u32; 9], samples: &[i16]) -> u64 {
    run(settings, samples, 2000).2.r
}

fn dip_stands(samples: &[i16]) -> bool {
    run(Q, samples, 2000).2.stand[0]
}

#[test]
fn all_least_and_all_zero() {
    assert_eq!(last_value(Q, &[-32_768; 16]), 524_288);
    assert_eq!(last_value(Q, &[0; 16]), 0);
    let mut wide = Q;
    wide[0] = 256;
    assert_eq!(last_value(wide, &[-32_768; 512]), 524_288);
}

#[test]
fn a_single_one() {
    for at in 0..16 {
        let mut samples = [0; 16];
        samples[at] = 1;
        assert_eq!(last_value(Q, &samples), 4);
    }
    let mut wide = Q;
    wide[0] = 256;
    let mut samples = [0; 512];
    samples[300] = 1;
    assert_eq!(last_value(wide, &samples), 0);
}

#[test]
fn half_of_each() {
    assert_eq!(last_value(Q, &halves(&[(1, 100), (1, 50)])), 1264);
}

#[test]
fn dip_begins_below_its_level() {
    assert_eq!(last_value(Q, &halves(&[(2, 90)])), 1440);
    assert!(!dip_stands(&halves(&[(2, 90)])));
    assert_eq!(last_value(Q, &halves(&[(2, 89)])), 1424);
    assert!(dip_stands(&halves(&[(2, 89)])));
}

#[test]
fn dip_ends_at_its_hysteresis() {
    assert_eq!(last_value(Q, &halves(&[(2, 80), (2, 92)])), 1472);
    assert!(!dip_stands(&halves(&[(2, 80), (2, 92)])));
    assert_eq!(last_value(Q, &halves(&[(2, 80), (2, 91)])), 1456);
    assert!(dip_stands(&halves(&[(2, 80), (2, 91)])));
}

#[test]
fn a_rapid_voltage_change() {
    let samples = halves(&[(150, 100), (103, 96)]);
    let (fed, records, looked) = run(Q, &samples, 2000);
    assert_eq!(looked.v, 252);
    assert_eq!(fed.why, 0);
    assert_eq!(records, [[4, 151, 1, 6368, 6368]]);
    // Due at value 252: without its last sample there is none.
    let (_, records, looked) = run(Q, &samples[..samples.len() - 1], 2000);
    assert_eq!((looked.v, looked.phase), (251, 3));
    assert_eq!(records, [[0; 5]; 0]);
}

#[test]
fn the_same_at_other_limits() {
    let samples = halves(&[(150, 100), (103, 96)]);
    let mut q = Q;
    q[3] = 393;
    let (_, records, _) = run(q, &samples, 2000);
    assert_eq!(records.len(), 1);
    assert_eq!(records[0][..2], [4, 151]);
    q[3] = 394;
    let (_, records, looked) = run(q, &samples, 2000);
    assert_eq!(records, [[0; 5]; 0]);
    assert_eq!(looked.phase, 2);
}

/// The records of all these half-cycles, under Q.
fn records(list: &[(usize, i16)]) -> Vec<[u64; 5]> {
    run(Q, &halves(list), 2000).1
}

/// The numbers of the image that these half-cycles leave, under Q.
fn image(list: &[(usize, i16)]) -> Fields {
    Fields::of(&feed(Q, &halves(list), 2000).image)
}

/// The image that every host leaves after these half-cycles, from this one, and the records that it
/// writes.
fn go_on(from: &Fields, list: &[(usize, i16)]) -> (Fields, Vec<[u64; 5]>) {
    let given = from.bytes();
    assert_eq!(rules::restore(&given), 0);
    let left = hosts().into_iter().map(|host| {
        let (mut new, mut records, mut reply) = ([0; IMAGE], [0; 10 * RECORD], [0; 24]);
        let samples = waves::bytes(&halves(list));
        assert_eq!((host.advance)(&given, &samples, &mut new, &mut records, &mut reply), 0);
        let written = records[..RECORD * reply[8] as usize].chunks_exact(RECORD);
        (host.name, new, written.map(numbers).collect::<Vec<_>>())
    });
    let left: Vec<_> = left.collect();
    for (name, new, records) in &left {
        assert!(*new == left[0].1 && *records == left[0].2, "{name} and {}", left[0].0);
    }
    (Fields::of(&left[0].1), left[0].2.clone())
}

#[test]
fn a_step_out_of_a_long_dip() {
    assert_eq!(records(&[(130, 88), (103, 100)]), [[1, 1, 129, 1408, 0]]);
    let x = image(&[(130, 88), (2, 100)]);
    assert_eq!((x.phase, x.change), (3, [130, 140_800, 0, 130]));
    // The same step where no dip stood.
    assert_eq!(records(&[(130, 92), (103, 100)]), [[4, 130, 1, 12_800, 12_800]]);
    assert_eq!(image(&[(130, 92), (2, 100)]).change, [130, 147_200, 0, 0]);
}

#[test]
fn a_step_out_of_a_long_swell() {
    assert_eq!(records(&[(130, 112), (103, 100)]), [[2, 1, 129, 1792, 0]]);
    let x = image(&[(130, 112), (2, 100)]);
    assert_eq!((x.phase, x.change), (3, [130, 179_200, 0, 130]));
}

/// Value 121 is 1424, and the only one below D; the change begins at 122.
#[test]
fn a_step_out_of_a_dip_of_one_value() {
    assert_eq!(records(&[(120, 91), (2, 89), (103, 100)]), [[1, 121, 1, 1424, 0]]);
    assert_eq!(image(&[(120, 91), (2, 89), (1, 100)]).change, [122, 145_552, 0, 122]);
}

/// Value 123 is 1472, at D + G, and the change begins at 124.
#[test]
fn a_dip_that_has_ended_before_the_change() {
    let list = records(&[(120, 91), (2, 89), (2, 92), (103, 100)]);
    assert_eq!(list, [[1, 121, 2, 1424, 0], [4, 124, 1, 14_440, 14_440]]);
    let x = image(&[(120, 91), (2, 89), (2, 92), (2, 100)]);
    assert_eq!((x.phase, x.change), (3, [124, 145_560, 0, 0]));
    // In one step: value 130 is 1472, and still calm.
    let list = records(&[(130, 89), (103, 95)]);
    assert_eq!(list, [[1, 1, 129, 1424, 0], [4, 131, 1, 9552, 9552]]);
}

/// With one half-cycle of 92 no value is at D + G before the change, which begins at 123.
#[test]
fn a_dip_that_ends_with_the_change() {
    assert_eq!(records(&[(120, 91), (2, 89), (1, 92), (103, 100)]), [[1, 121, 2, 1424, 0]]);
    let x = image(&[(120, 91), (2, 89), (1, 92), (2, 100)]);
    assert_eq!((x.change, x.events[0]), ([123, 145_544, 0, 123], 0));
}

/// From one dip into a deeper one: the same dip drops it, which does not end.
#[test]
fn a_dip_that_goes_on() {
    let (_, records, looked) = run(Q, &halves(&[(130, 88), (103, 80)]), 2000);
    assert_eq!((records.len(), looked.phase, looked.stand), (0, 2, [true, false, false]));
    let x = image(&[(130, 88), (2, 80)]);
    assert_eq!((x.change[0], x.change[3], x.events[0]), (130, 130, 1));
}

/// A swell first stands at value 132.
#[test]
fn the_fourth_number_stays() {
    let x = image(&[(130, 88), (2, 100), (2, 120)]);
    assert_eq!((x.change, x.events[2]), ([130, 140_800, 0, 130], 132));
    // Where none stood at k − 1, it is that value.
    let x = image(&[(130, 92), (2, 100), (2, 120)]);
    assert_eq!((x.change, x.events[2]), ([130, 147_200, 0, 132], 132));
}

/// An image of version 2.0 or 2.1 goes on with its 0.
#[test]
fn an_image_of_version_2_1() {
    let x = image(&[(130, 88), (2, 100)]).but(|x| x.change[3] = 0);
    let (after, records) = go_on(&x, &[(1, 100)]);
    assert_eq!((after.change, records.len()), ([130, 140_800, 0, 0], 0));
    let (_, records) = go_on(&x, &[(101, 100)]);
    assert_eq!(records, [[4, 130, 1, 19_200, 19_200]]);
    // A swell that first stands later is kept there, and drops it.
    let (after, _) = go_on(&x, &[(2, 120)]);
    assert_eq!((after.change[3], after.events[2]), (132, 132));
    let (after, records) = go_on(&x, &[(2, 120), (103, 100)]);
    assert_eq!((after.phase, records), (2, vec![[2, 132, 3, 1920, 0]]));
    // A dip that goes on does not make it k.
    let x = image(&[(130, 88), (2, 80)]).but(|x| x.change[3] = 0);
    let (after, _) = go_on(&x, &[(1, 80)]);
    assert_eq!((after.change, after.events[0]), ([130, 140_800, 0, 0], 1));
    assert_eq!(go_on(&x, &[(101, 80)]).1, [[4, 130, 1, 12_800, 12_800]]);
}

/// From an accepted image with an event that its values do not show, that event stands: a dip or swell
/// drops the change that begins next, and an interruption does not.
#[test]
fn events_of_an_accepted_image_before_a_change() {
    let mut x = Fields::fresh(rules::settings(&bytes(Q)).unwrap());
    (x.whole, x.last, x.v, x.phase) = (1, 80_000, 150, 2);
    x.places[..100].fill(1600);
    let change = [4, 151, 1, 11_200, 11_200];
    assert_eq!(go_on(&x, &[(103, 93)]).1, [change]);
    for e in 0..3 {
        let mut x = x.clone();
        (x.events[2 * e], x.events[2 * e + 1]) = (140, 50);
        let event = [e as u64 + 1, 140, 11, 50, 0];
        let (after, list) = go_on(&x, &[(2, 93)]);
        assert_eq!(list, [event]);
        assert_eq!(after.change, [151, 160_000, 0, if e < 2 { 151 } else { 0 }]);
        let expected = if e < 2 { vec![event] } else { vec![event, change] };
        assert_eq!(go_on(&x, &[(103, 93)]).1, expected);
    }
}

fn program_samples() -> Vec<i16> {
    halves(&[(3, 100), (2, 50), (3, 100)])
}

#[test]
fn the_program_without_record_room() {
    let (fed, _, _) = run(Q, &program_samples(), 0);
    assert_eq!(fed, Fed { taken: 55, written: 0, why: 1 });
    let (fed, _, _) = run(Q, &program_samples(), RECORD - 1);
    assert_eq!(fed, Fed { taken: 55, written: 0, why: 1 });
    let (fed, records, _) = run(Q, &program_samples(), RECORD);
    assert_eq!(fed, Fed { taken: 64, written: 1, why: 0 });
    assert_eq!(records, [[1, 3, 3, 800, 0]]);
}

#[test]
fn the_event_program() {
    let mut input = bytes(Q);
    input.extend(waves::bytes(&program_samples()));
    let text = "kind start halves first second\ndip 3 3 800 0\nvalues 7\n";
    for write in [program::by_engineer, program::by_logger] {
        let program = |input: &[u8]| write(input).printed;
        assert_eq!(program(&input), text);
        assert_eq!(write(&input).told, "");
        // Both half-cycles of 50 counts, and the first value of the dip.
        assert_eq!(write(&input[..36 + 2 * 40]).told, "event_log: not ended: dip\n");
        // A last odd byte is ignored.
        assert_eq!(program(&[&input[..], &[1]].concat()), text);
        assert_eq!(program(&input[..36]), "kind start halves first second\nvalues 0\n");
        refuses_settings(program, &input);
    }
}

/// At V's end: samples that complete no half-cycle are taken, then why is 2.
#[test]
fn the_end_of_v() {
    for host in hosts() {
        let advance = host.advance;
        let mut x = Fields::fresh(rules::settings(&bytes(Q)).unwrap());
        x.whole = 1;
        x.v = END - 1;
        x.phase = 2;
        x.places[..100].fill(1600);
        x.last = 80_000;
        let samples = waves::bytes(&[100; 24]);
        let (mut image, mut reply) = ([0; IMAGE], [0; 24]);
        assert_eq!(advance(&x.bytes(), &samples, &mut image, &mut [], &mut reply), 0);
        assert_eq!([reply[0], reply[8], reply[16]], [15, 0, 2]);
        let y = Fields::of(&image);
        assert_eq!((y.v, y.count, y.sum), (END, 7, 70_000));
        // One more sample cannot be taken; none is taken wholly.
        let old = image;
        assert_eq!(advance(&old, &samples[..2], &mut image, &mut [], &mut reply), 0);
        assert_eq!([reply[0], reply[8], reply[16]], [0, 0, 2]);
        assert_eq!(advance(&old, &[], &mut image, &mut [], &mut reply), 0);
        assert_eq!([reply[0], reply[8], reply[16]], [0, 0, 0]);
        assert_eq!(old, image);
    }
}

/// Steady at 1600 with this V.
fn steady(v: u64) -> Fields {
    let x = Fields::fresh(rules::settings(&bytes(Q)).unwrap()).with_v(v);
    x.but(|x| (x.whole, x.last, x.phase) = (1, 80_000, 2))
}

/// V passes 2^32 − 1 while a dip stands, and in a change.
#[test]
fn beyond_four_bytes() {
    for v in [(1 << 32) - 5, (1 << 32) - 3, (1 << 32) - 2, (1 << 32) - 1, 1 << 32, 1 << 62] {
        let (after, list) = go_on(&steady(v), &[(2, 50), (3, 100)]);
        assert_eq!((after.v, list), (v + 5, vec![[1, v + 1, 3, 800, 0]]));
    }
    for v in [(1 << 32) - 200, (1 << 32) - 103, (1 << 32) - 50, (1 << 32) - 2, 1 << 32] {
        let (after, list) = go_on(&steady(v), &[(50, 96)]);
        assert_eq!((after.phase, after.change), (3, [v + 2, 159_968, 0, 0]));
        assert_eq!(list, [[0; 5]; 0]);
        let (after, list) = go_on(&steady(v), &[(104, 96)]);
        assert_eq!((after.v, after.phase), (v + 104, 2));
        assert_eq!(list, [[4, v + 2, 1, 6368, 6368]]);
    }
    // A dip since value 1.
    let x = steady(1 << 32).but(|x| (x.events[0], x.events[1]) = (1, 1400));
    assert_eq!(go_on(&x, &[(1, 100)]).1, [[1, 1, 1 << 32, 1400, 0]]);
}

/// The change is due at V's end, or would be after it.
#[test]
fn a_change_at_the_end_of_v() {
    let (after, list) = go_on(&steady(END - 103), &[(104, 96)]);
    assert_eq!((after.v, after.phase, after.count), (END, 2, 7));
    assert_eq!(list, [[4, END - 101, 1, 6368, 6368]]);
    let (after, list) = go_on(&steady(END - 102), &[(104, 96)]);
    assert_eq!((after.v, after.phase, after.change[0]), (END, 3, END - 100));
    assert_eq!(list, [[0; 5]; 0]);
}

/// What is due does not hang on later samples: the engineer's feed, tried for each number of
/// samples on its own, is the same.
#[test]
fn the_greatest_number_of_samples() {
    let samples = halves(&[(3, 100), (2, 50), (3, 100), (1, 2), (3, 100), (2, 120), (3, 100)]);
    for room in 0..5 {
        let mut greatest = 0;
        for n in 0..=samples.len() {
            let mut engineer = Engineer::start(&bytes(Q)).unwrap();
            engineer.feed(&samples[..n], usize::MAX);
            if engineer.due().len() <= RECORD * room {
                greatest = n;
            }
        }
        let mut engineer = Engineer::start(&bytes(Q)).unwrap();
        let (fed, _) = engineer.feed(&samples, RECORD * room);
        assert_eq!(fed.taken as usize, greatest);
    }
}
