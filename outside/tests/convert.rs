//! The converter: worked examples, every limit from both sides, and each refusal before the next, on
//! the outside reading and, with the feature, the proved library.

mod common;

use common::{bytes, feed, numbers, Q};
use outside::convert_hosts::{converters, Convert, Converter, Way};
use outside::earlier;
use outside::editions::{EARLIER, THIS};
use outside::images::{Fields, FOUR_BYTES};
use outside::logger::END;
use outside::pairs::pairs;
use outside::readings::Readings;
use outside::rules::{self, Settings};
use outside::waves;
use Way::{Image, ImageBack, Records, RecordsBack};

/// What a call writes into an output of this length, or its number; it changes no other byte of it.
fn written(call: Convert, given: &[u8], needed: usize, length: usize) -> Result<Vec<u8>, u32> {
    let mut output = vec![0x5a; length];
    let number = call(given, &mut output);
    let used = if number == 0 { needed } else { 0 };
    assert!(output[used..].iter().all(|&x| x == 0x5a), "{number}");
    output.truncate(used);
    if number == 0 {
        Ok(output)
    } else {
        Err(number)
    }
}

/// What every implementation writes, or its number; the way back makes what was given.
fn call(way: Way, given: &[u8], length: usize) -> Result<Vec<u8>, u32> {
    let needed = if way.of_records() {
        given.len() / way.from().record * way.to().record
    } else {
        way.to().image
    };
    let mut agreed = None;
    for Converter { name, calls } in converters() {
        let told = written(calls[way as usize], given, needed, length);
        if let Ok(output) = &told {
            let back = calls[way.reversed() as usize];
            assert_eq!(written(back, output, given.len(), given.len()).as_deref(), Ok(given));
        }
        assert_eq!(agreed.get_or_insert(told.clone()), &told, "{name}");
    }
    agreed.unwrap()
}

/// With an output that is long enough.
fn convert(way: Way, given: &[u8]) -> Result<Vec<u8>, u32> {
    call(way, given, 2000)
}

fn q() -> Settings {
    rules::settings(&bytes(Q)).unwrap()
}

/// Half-cycles of 8 samples: how many, and the count of each sample.
fn halves(list: &[(usize, i16)]) -> Vec<i16> {
    list.iter().flat_map(|&(halves, count)| vec![count; 8 * halves]).collect()
}

/// A record of 20 bytes.
fn earlier_record(kind: u8, mark: u8, numbers: [u32; 4]) -> Vec<u8> {
    [vec![kind, mark, 0, 0], numbers.map(u32::to_le_bytes).concat()].concat()
}

/// A record of 28 bytes.
fn record(kind: u8, mark: u8, counts: [u64; 2], magnitudes: [u32; 2]) -> Vec<u8> {
    let counts = counts.map(u64::to_le_bytes).concat();
    [vec![kind, mark, 0, 0], counts, magnitudes.map(u32::to_le_bytes).concat()].concat()
}

/// 150 half-cycles of 100, then 103 of 96: the change 151, 1, 6368, 6368.
#[test]
fn a_recorded_change() {
    let samples = halves(&[(150, 100), (103, 96)]);
    let this = [
        &[4, 0, 0, 0][..],
        &[0x97, 0, 0, 0, 0, 0, 0, 0],
        &[1, 0, 0, 0, 0, 0, 0, 0],
        &[0xe0, 0x18, 0, 0],
        &[0xe0, 0x18, 0, 0],
    ]
    .concat();
    let earlier = earlier_record(4, 0, [151, 1, 6368, 6368]);
    let left = feed(Q, &samples, 2000);
    assert_eq!(left.records, this);
    assert_eq!(Readings::of(q(), &samples).records()[0].bytes_in(&EARLIER), earlier);
    assert_eq!(convert(Records, &earlier), Ok(this.clone()));
    assert_eq!(convert(RecordsBack, &this), Ok(earlier));
    let earlier = Readings::of(q(), &samples).image_in(&EARLIER);
    assert_eq!((earlier.len(), left.image.len()), (764, 788));
    assert_eq!(convert(Image, &earlier), Ok(left.image.clone()));
    assert_eq!(convert(ImageBack, &left.image), Ok(earlier));
}

/// In a change, in a dip, with marks and a half in progress: where each number stands.
#[test]
fn where_each_number_stands() {
    let mut x = Fields::fresh(q());
    (x.count, x.sum, x.last, x.whole, x.half_marks) = (3, 5, 7, 1, [1, 1]);
    (x.v, x.phase, x.change) = (0x01020304, 3, [0x01020203, 0x00112233, 0x00445566, 0x01020204]);
    x.places[..100].fill(1600);
    x.place_marks[99] = 1;
    (x.events, x.event_marks) = ([0x11, 0x22, 0x33, 0x44, 0x55, 0x66], [1, 0, 1, 1]);
    let (earlier, this) = (x.bytes_in(&EARLIER), x.bytes());
    assert_eq!(convert(Image, &earlier), Ok(this.clone()));
    // The settings and body 2; the values; their marks.
    assert_eq!(this[32..100], earlier[32..100]);
    assert_eq!(this[108..588], earlier[104..584]);
    assert_eq!(this[588..708], earlier[584..704]);
    let four = |at: usize| u32::from_le_bytes(this[at..at + 4].try_into().unwrap());
    let eight = |at: usize| u64::from_le_bytes(this[at..at + 8].try_into().unwrap());
    assert_eq!((eight(100), four(708)), (0x01020304, 3));
    let change = (eight(712), four(720), four(724), eight(728));
    assert_eq!(change, (0x01020203, 0x00112233, 0x00445566, 0x01020204));
    assert_eq!([736, 748, 760].map(eight), [0x11, 0x33, 0x55]);
    assert_eq!([744, 756, 768].map(four), [0x22, 0x44, 0x66]);
    assert_eq!([772, 776, 780, 784].map(four), [1, 0, 1, 1]);
    // The tables.
    let table = [1, 36 << 16 | 32, 2, 32 << 16 | 68, 3, 608 << 16 | 100, 4, 80 << 16 | 708u32];
    assert_eq!(this[..32], table.map(u32::to_le_bytes).concat());
    let table = [1, 36 << 16 | 32, 2, 32 << 16 | 68, 3, 604 << 16 | 100, 4, 60 << 16 | 704u32];
    assert_eq!(earlier[..32], table.map(u32::to_le_bytes).concat());
}

#[test]
fn lists_of_records() {
    assert_eq!(call(Records, &[], 0), Ok(vec![]));
    assert_eq!(call(RecordsBack, &[], 0), Ok(vec![]));
    // Neither starts nor durations nor magnitudes are tested against anything.
    for x in [0, 1, 0x01020304, u32::MAX] {
        for kind in 1..=4 {
            let earlier = [earlier_record(kind, 0, [x, 0, 9, x]), earlier_record(1, 1, [x; 4])];
            let y = x as u64;
            let this = [record(kind, 0, [y, 0], [9, x]), record(1, 1, [y, y], [x, x])];
            assert_eq!(convert(Records, &earlier.concat()), Ok(this.concat()));
        }
    }
}

/// The number for a list of one record, for one with a good record before it, and after it.
fn numbers_of(way: Way, bad: &[u8]) -> [u32; 3] {
    let good =
        if way == Records { earlier_record(2, 1, [7; 4]) } else { record(2, 1, [7, 7], [7, 7]) };
    let lists = [bad.to_vec(), [&good, bad].concat(), [bad, &good].concat()];
    lists.map(|list| convert(way, &list).err().unwrap_or(0))
}

#[test]
fn nineteen_for_records() {
    for way in [Records, RecordsBack] {
        let length = way.from().record;
        let good = [vec![4, 0, 0, 0], vec![0; length - 4]].concat();
        let with = |at: usize, x: u8| {
            let mut record = good.clone();
            record[at] = x;
            numbers_of(way, &record)
        };
        for x in 0..=255 {
            let number = |good: bool| if good { [0; 3] } else { [19; 3] };
            assert_eq!(with(0, x), number((1..=4).contains(&x)), "kind {x}");
            assert_eq!(with(1, x), number(x <= 1), "mark {x}");
            assert_eq!(with(2, x), number(x == 0), "byte 2 is {x}");
            assert_eq!(with(3, x), number(x == 0), "byte 3 is {x}");
        }
        let three = good.repeat(3);
        for end in 0..=3 * length {
            let expected = if end % length == 0 { 0 } else { 19 };
            assert_eq!(convert(way, &three[..end]).err().unwrap_or(0), expected, "{end} bytes");
        }
    }
}

#[test]
fn eighteen_for_records() {
    for x in [0, FOUR_BYTES, FOUR_BYTES + 1, 1 << 40, END, END + 1, u64::MAX] {
        let expected = if x > FOUR_BYTES { [18; 3] } else { [0; 3] };
        assert_eq!(numbers_of(RecordsBack, &record(4, 0, [x, 1], [1, 1])), expected, "{x}");
        assert_eq!(numbers_of(RecordsBack, &record(4, 0, [1, x], [1, 1])), expected, "{x}");
    }
}

/// Steady at U with this V.
fn steady(v: u64) -> Fields {
    Fields::fresh(q()).but(|x| x.whole = 1).with_v(v).but(|x| x.phase = (v >= 100) as u32 * 2)
}

#[test]
fn eighteen_for_images() {
    for v in [0, 1, 99, 100, 101, FOUR_BYTES - 1, FOUR_BYTES] {
        assert!(convert(ImageBack, &steady(v).bytes()).is_ok(), "{v}");
        assert!(convert(Image, &steady(v).bytes_in(&EARLIER)).is_ok(), "{v}");
    }
    for v in [FOUR_BYTES + 1, FOUR_BYTES + 2, 1 << 40, END - 1, END] {
        assert_eq!(convert(ImageBack, &steady(v).bytes()), Err(18), "{v}");
    }
    for v in [END + 1, u64::MAX - 1, u64::MAX] {
        assert_eq!(convert(ImageBack, &steady(v).bytes()), Err(19), "{v}");
    }
}

/// Each rule of 11 by itself in each edition, and the nearest image that keeps it; the others.
#[test]
fn nineteen_for_images() {
    for settings in [Q, [256, 60, 16, 50, 49, 1, 1, 2, 0]] {
        let s = rules::settings(&bytes(settings)).unwrap();
        for (way, edition) in [(Image, &EARLIER), (ImageBack, &THIS)] {
            for pair in pairs(edition, s) {
                let (broken, kept) =
                    (pair.broken.bytes_in(edition), pair.accepted.bytes_in(edition));
                assert_eq!(
                    [&broken, &kept].map(|x| (edition.restore)(x)),
                    [11, 0],
                    "{}",
                    pair.rule
                );
                assert_eq!(convert(way, &broken), Err(19), "{}", pair.rule);
                let number = convert(way, &kept).err().unwrap_or(0);
                let expected = if pair.accepted.v > FOUR_BYTES { 18 } else { 0 };
                assert_eq!(number, expected, "{}", pair.rule);
            }
        }
    }
}

#[test]
fn lengths_tables_and_settings() {
    let x = steady(300);
    for (way, edition, other) in [(Image, &EARLIER, &THIS), (ImageBack, &THIS, &EARLIER)] {
        let good = x.bytes_in(edition);
        assert_eq!(convert(way, &x.bytes_in(other)), Err(19));
        for length in (0..good.len()).step_by(31).chain([good.len() - 1]) {
            assert_eq!(convert(way, &good[..length]), Err(19), "{length}");
        }
        assert_eq!(convert(way, &[&good[..], &[0]].concat()), Err(19));
        for at in 0..32 {
            for bit in 0..8 {
                let mut image = good.clone();
                image[at] ^= 1 << bit;
                assert_eq!(convert(way, &image), Err(19), "bit {bit} of byte {at}");
            }
        }
        for at in [32, 36, 40, 44, 52] {
            let mut image = good.clone();
            image[at..at + 4].fill(255);
            assert_eq!(convert(way, &image), Err(19), "settings at {at}");
        }
    }
    assert_eq!(earlier::restore(&x.bytes_in(&EARLIER)), 0);
}

#[test]
fn seven() {
    let x = steady(300);
    for (way, given, needed) in [
        (Records, earlier_record(1, 0, [1; 4]).repeat(3), 84),
        (RecordsBack, record(1, 0, [1, 1], [1, 1]).repeat(3), 60),
        (Image, x.bytes_in(&EARLIER), 788),
        (ImageBack, x.bytes(), 764),
    ] {
        for length in [0, 1, needed - 2, needed - 1] {
            assert_eq!(call(way, &given, length), Err(7), "{length}");
        }
        for length in [needed, needed + 1, 900] {
            assert_eq!(call(way, &given, length).map(|x| x.len()), Ok(needed), "{length}");
        }
    }
}

/// All that can be refused, and then one thing less at a time, from the first on.
#[test]
fn in_that_order() {
    let [kind, great] = [record(5, 0, [1, 1], [1, 1]), record(4, 0, [1, 1 << 32], [1, 1])];
    let good = record(4, 0, [1, 1], [1, 1]);
    for list in [[&great, &kind, &good], [&kind, &great, &good], [&good, &great, &kind]] {
        let list = list.map(|x| x.clone()).concat();
        assert_eq!([59, 60].map(|length| call(RecordsBack, &list, length)), [Err(19), Err(19)]);
    }
    let list = [good.clone(), great, good.clone()].concat();
    assert_eq!([59, 60].map(|length| call(RecordsBack, &list, length)), [Err(18), Err(18)]);
    assert_eq!(call(RecordsBack, &good.repeat(3), 59), Err(7));
    let great = steady(1 << 32);
    let broken = great.but(|x| x.half_marks[0] = 1).bytes();
    assert_eq!([763, 764].map(|length| call(ImageBack, &broken, length)), [Err(19), Err(19)]);
    let great = great.bytes();
    assert_eq!([763, 764].map(|length| call(ImageBack, &great, length)), [Err(18), Err(18)]);
    assert_eq!(call(ImageBack, &steady(300).bytes(), 763), Err(7));
    let broken = steady(300).but(|x| x.half_marks[0] = 1).bytes_in(&EARLIER);
    assert_eq!([787, 788].map(|length| call(Image, &broken, length)), [Err(19), Err(19)]);
    let list = earlier_record(5, 0, [1; 4]);
    assert_eq!([27, 28].map(|length| call(Records, &list, length)), [Err(19), Err(19)]);
}

/// The image of a recording in a change, carried over and fed the rest, leaves the recording's.
#[test]
fn a_converted_image_goes_on() {
    let samples = halves(&[(150, 100), (103, 96)]);
    let (first, rest) = samples.split_at(8 * 160 + 3);
    let earlier = Readings::of(q(), first).image_in(&EARLIER);
    let image = convert(Image, &earlier).unwrap();
    let whole = feed(Q, &samples, 2000);
    for host in outside::hosts::hosts() {
        let (mut new, mut records, mut reply) = ([0; 788], [0; 28], [0; 24]);
        let rest = waves::bytes(rest);
        assert_eq!((host.advance)(&image, &rest, &mut new, &mut records, &mut reply), 0);
        assert_eq!((&new[..], numbers(&records)), (&whole.image[..], [4, 151, 1, 6368, 6368]));
    }
}
