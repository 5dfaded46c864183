//! Trials: what they tell and write, what they leave, and their refusals through the hosts (with the
//! feature, the proved library too).

mod common;

use common::{bytes, numbers, Q};
use outside::by_logger::by_logger;
use outside::call_lists::{example_samples as samples, List};
use outside::engineer::{Answer, Call, Engineer, Fed};
use outside::hosts::hosts;
use outside::images::Fields;
use outside::logger::{Logger, END};
use outside::rules::{self, IMAGE, RECORD};
use outside::waves;

fn fresh() -> Vec<u8> {
    Fields::fresh(rules::settings(&bytes(Q)).unwrap()).bytes()
}

fn told(taken: u64, written: u64, why: u64) -> Fed {
    Fed { taken, written, why }
}

#[test]
fn the_example_by_the_engineer() {
    let mut engineer = Engineer::start(&bytes(Q)).unwrap();
    let before = (engineer.image(), engineer.look());
    let trial = |room| Call::Trial { block: samples(), room };
    for room in [0, RECORD - 1] {
        assert_eq!(engineer.call(&trial(room)), Answer::Trial(told(55, 0, 1), vec![]));
    }
    let Answer::Trial(fed, records) = engineer.call(&trial(RECORD)) else { unreachable!() };
    assert_eq!((fed, numbers(&records)), (told(64, 1, 0), [1, 3, 3, 800, 0]));
    // Nothing is kept.
    assert_eq!((engineer.image(), engineer.look()), before);
    assert_eq!((engineer.written().len(), engineer.due().len()), (0, 0));
    assert_eq!(engineer.feed(&samples(), RECORD), (fed, records.clone()));
    assert_eq!((engineer.written(), engineer.due()), (&records[..], records.clone()));
}

#[test]
fn the_example_by_the_logger() {
    let mut logger = Logger::start(&bytes(Q)).unwrap();
    let block = waves::bytes(&samples());
    let block = block.as_chunks::<2>().0;
    assert_eq!(logger.trial(block, &mut []), told(55, 0, 1));
    let mut scratch = [7; RECORD + 25];
    assert_eq!(logger.trial(block, &mut scratch), told(64, 1, 0));
    assert_eq!(numbers(&scratch), [1, 3, 3, 800, 0]);
    assert_eq!(scratch[RECORD..], [7; 25]);
    let mut image = [0; IMAGE];
    logger.save(&mut image).unwrap();
    assert_eq!(image[..], fresh());
    let mut records = [7; RECORD];
    assert_eq!(logger.feed(block, &mut records), told(64, 1, 0));
    assert_eq!(records, scratch[..RECORD]);
}

#[test]
fn the_example_by_the_hosts() {
    let samples = waves::bytes(&samples());
    for host in hosts() {
        let image = fresh();
        let (mut scratch, mut told_so) = ([7; RECORD + 25], [9; 30]);
        let mut trial = |room: usize| {
            assert_eq!((host.trial)(&image, &samples, &mut scratch[..room], &mut told_so), 0);
            (Fed::of(&told_so), scratch, told_so[24..].to_vec())
        };
        let nothing = (told(55, 0, 1), [7; RECORD + 25], vec![9; 6]);
        assert_eq!(trial(0), nothing, "{}", host.name);
        assert_eq!(trial(RECORD - 1), nothing, "{}", host.name);
        let (fed, scratch, behind) = trial(RECORD + 25);
        assert_eq!((fed, behind), (told(64, 1, 0), vec![9; 6]), "{}", host.name);
        assert_eq!((numbers(&scratch), &scratch[RECORD..]), ([1, 3, 3, 800, 0], &[7; 25][..]));
        assert_eq!(image, fresh());
        // With room for one record, and no byte more.
        let (mut new, mut records, mut reply) = ([0; IMAGE], [7; RECORD], [9; 24]);
        assert_eq!((host.advance)(&image, &samples, &mut new, &mut records, &mut reply), 0);
        assert_eq!(
            (&records[..], &reply[..]),
            (&scratch[..RECORD], &told_so[..24]),
            "{}",
            host.name
        );
    }
}

/// As the program `call_lists` reads and prints it, by the logger.
#[test]
fn the_example_in_a_list() {
    let (start, feed, look, trial) = (0, 1, 2, 7);
    let mut list = List::default();
    // A last odd byte is no sample.
    let block = [&waves::bytes(&samples())[..], &[1]].concat();
    list.item(start, 0, 5, &bytes(Q));
    list.item(trial, 0xaa, 0, &block);
    list.item(look, 0, 0, &[]);
    list.item(trial, 0xbb, RECORD + 2, &block);
    list.item(feed, 0xcc, RECORD, &block);
    list.item(look, 0, 0, &[]);
    let record = "01000000030000000000000003000000000000002003000000000000";
    let lines = ["start".into(), "trial 55 0 1 ".into(), "look 0 0 0 0 0 0 0".into()];
    let lines = [
        &lines[..],
        &[format!("trial 64 1 0 {record}bbbb"), format!("feed 64 1 0 {record}")],
        &["look 7 1600 0 0 0 0 0".into()],
    ];
    assert_eq!(by_logger(&list.input).lines().collect::<Vec<_>>(), lines.concat());
    list.text = by_logger(&list.input);
    let plain = list.without_trials();
    assert_eq!((plain.input[2], plain.text.lines().count()), (3, 4));
    assert_eq!(plain.difference(&by_logger(&plain.input)), None);
}

/// The image, the samples and the lengths decide: the first that applies, and no buffer changes. There
/// is no 7.
#[test]
fn the_refusals() {
    let good = fresh();
    let with = |at: usize, x: u8| {
        let mut image = good.clone();
        image[at] = x;
        image
    };
    let even = waves::bytes(&samples());
    let odd = &even[1..];
    let images = [
        (8, good[1..].to_vec()),
        (8, [&good[..], &[0]].concat()),
        (9, with(0, 2)),
        (10, with(32, 7)),
        (11, with(68, 8)),
        (0, good.clone()),
    ];
    for host in hosts() {
        for (image, given) in &images {
            for (samples, length) in [(&even[..], 24), (&even, 23), (odd, 24), (odd, 23), (odd, 0)]
            {
                let (mut scratch, mut reply) = ([7; 45], vec![9; length]);
                let expected = match (*image, samples.len() % 2, length) {
                    (0, 0, 24) => continue,
                    (0, 0, _) => 13,
                    (0, ..) => 12,
                    _ => *image,
                };
                let number = (host.trial)(given, samples, &mut scratch, &mut reply);
                assert_eq!(number, expected, "{}, reply of {length}", host.name);
                assert_eq!((scratch, reply), ([7; 45], vec![9; length]), "{}", host.name);
            }
        }
    }
}

/// At V's end, within a half-cycle, with a dip that stands and would end: why 2 before why 1.
#[test]
fn the_end_of_v() {
    let mut x = Fields::fresh(rules::settings(&bytes(Q)).unwrap());
    (x.whole, x.last, x.count, x.sum) = (1, 80_000, 3, 30_000);
    (x.v, x.phase, x.events[0], x.events[1]) = (END - 1, 2, END - 9, 1400);
    x.places[..100].fill(1600);
    let record = [1, END - 9, 9, 1400, 0];
    let samples = waves::bytes(&[100; 24]);
    for host in hosts() {
        let (mut scratch, mut told_so) = ([7; RECORD + 20], [0; 24]);
        let mut trial = |x: &Fields, room: usize| {
            assert_eq!((host.trial)(&x.bytes(), &samples, &mut scratch[..room], &mut told_so), 0);
            (Fed::of(&told_so), scratch)
        };
        let nothing = (told(4, 0, 1), [7; RECORD + 20]);
        assert_eq!(trial(&x, RECORD - 1), nothing, "{}", host.name);
        let (fed, scratch) = trial(&x, RECORD + 20);
        assert_eq!((fed, numbers(&scratch)), (told(12, 1, 2), record), "{}", host.name);
        assert_eq!(scratch[RECORD..], [7; 20]);
        let ended = x.but(|x| x.v = END);
        assert_eq!(trial(&ended, 0).0, told(4, 0, 2), "{}", host.name);
    }
}
