//! The logger's root, sum of squares and mark against the engineer's, at the edges; small roots on every
//! host.

mod common;

use common::{feed, Q};
use outside::rng::Rng;
use outside::rules::RECORD;
use outside::squares::{self, Part};
use outside::{readings, waves};

fn part(samples: &[i16]) -> Part {
    Part::NONE.with(waves::bytes(samples).as_chunks::<2>().0)
}

#[test]
fn roots_on_both_sides_of_each_step() {
    let mut rng = Rng::new(3);
    for m in 8..=256i64 {
        let mut list: Vec<i64> = (1..=300).chain(524_200..=524_288).collect();
        list.extend((0..2000).map(|_| rng.range(1, 524_288)));
        for r in list {
            // The least pair of sums that gives r.
            let pair = (r * r * m + 127) / 128;
            for x in [pair - 1, pair] {
                let root = readings::root(m, x);
                for near in [0, r - 1, r, r + 1, rng.range(0, 524_288)] {
                    let by_logger = squares::root((128 * x / m) as u64, near as u64);
                    assert_eq!(by_logger as i64, root, "M {m}, pair {x}, near {near}");
                }
            }
            assert!(readings::root(m, pair - 1) < r && readings::root(m, pair) >= r);
        }
    }
}

/// A half-cycle of 256 samples with this sum of squares.
fn half(sum: usize) -> Vec<i16> {
    let (threes, rest) = (sum / 9, sum % 9);
    let mut samples = [vec![3; threes], vec![2; rest / 4], vec![1; rest % 4]].concat();
    samples.resize(256, 0);
    samples
}

/// With M 256, two half-cycles with the sums n have n under the root. The value before them, which is
/// the guess, has one half-cycle of `before` and one of n: it is far off, near or right.
fn small_roots(before: i16) {
    let settings = [256, 60, Q[2], Q[3], Q[4], Q[5], Q[6], Q[7], Q[8]];
    let numbers: Vec<usize> = (0..1200).collect();
    // Three half-cycles to a number: 119 values, in the window's 120 places.
    for chunk in numbers.chunks(40) {
        let mut samples = vec![];
        for &n in chunk {
            samples.extend([vec![before; 256], half(n), half(n)].concat());
        }
        let left = feed(settings, &samples, RECORD * 400);
        assert_eq!(left.fed.taken as usize, samples.len());
        for (i, &n) in chunk.iter().enumerate() {
            // The values begin at 108; that of the two halves n is the second of three.
            let at = 108 + 4 * (3 * i + 1);
            let value = u32::from_le_bytes(left.image[at..at + 4].try_into().unwrap());
            assert_eq!(value as usize, n.isqrt(), "{n} after {before}");
        }
    }
}

#[test]
fn each_small_root() {
    for before in [0, 1, 3, 100, 32_766] {
        small_roots(before);
    }
}

#[test]
fn sums_of_every_length() {
    let mut rng = Rng::new(4);
    for length in 0..=256 {
        let random: Vec<i16> = (0..length).map(|_| rng.next() as i16).collect();
        for samples in [vec![-32_768; length], vec![32_767; length], vec![1; length], random] {
            assert_eq!(part(&samples).sum as i64, readings::energy(&samples));
            assert_eq!(part(&samples).clipped, readings::has_clipped(&samples));
        }
    }
}

/// One sample at each place, among others that are just not clipped.
#[test]
fn one_clipped_sample() {
    for length in 1..=256 {
        for other in [0, -32_767, 32_766] {
            let mut samples = vec![other; length];
            assert!(!part(&samples).clipped);
            for at in 0..length {
                for clipped in [-32_768, 32_767] {
                    samples[at] = clipped;
                    assert!(part(&samples).clipped, "{clipped} at {at} of {length}, else {other}");
                }
                samples[at] = other;
            }
        }
    }
}
