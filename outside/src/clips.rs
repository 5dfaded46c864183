//! Waveforms with clipped samples, single ones too, at the places where a mark begins and ends to
//! count; and with samples that are just not clipped.

use crate::readings::{energy, Readings};
use crate::rng::{one_of, Rng};
use crate::rules::Settings;
use crate::waves;

const CLIPPED: [i16; 2] = [-32_768, 32_767];
const JUST_NOT_CLIPPED: [i16; 2] = [-32_767, 32_766];

/// A waveform of about this many half-cycles, most often with clipped samples.
pub fn wave(rng: &mut Rng, s: &Settings, halves: i64) -> Vec<i16> {
    let mut samples = waves::wave(rng, s, halves);
    match rng.range(0, 9) {
        0..=1 => {}
        2..=6 => around_events(rng, s, &mut samples),
        7..=8 => {
            for _ in 0..rng.range(1, 8) {
                let half = rng.range(1, halves.max(1));
                put(rng, s, &mut samples, half);
            }
        }
        _ => (1..=halves).for_each(|half| put(rng, s, &mut samples, half)),
    }
    samples
}

/// Settings under which every kind of event can have clipped samples, for any M.
pub fn settings(rng: &mut Rng) -> Settings {
    let g = one_of(&[0, 100, 200, 500], rng);
    Settings { u: 400_000, i: 8000, d: 9000, w: 11_000, g, ..waves::settings(rng) }
}

/// Settings, and a waveform after which every mark of the image is 1: each half-cycle has a clipped
/// sample, the last one is not whole, and it is in a change that began N values ago or more, and in a
/// swell, or in a dip and an interruption.
pub fn every_mark(rng: &mut Rng) -> (Settings, Vec<i16>) {
    let s = settings(rng);
    // Two levels on one side of U, so far apart that the change goes on; M of 8 allows no lower ones.
    let [low, high] = one_of(&[[190_000, 310_000], [450_000, 520_000]], rng);
    let before = s.n + rng.range(1, 20);
    let after = s.n + rng.range(3, 40);
    let mut samples = Vec::new();
    for half in 1..=before + after {
        let r = if half <= before {
            s.u
        } else if half / 3 % 2 == 0 {
            low
        } else {
            high
        };
        let sample = one_of(&CLIPPED, rng);
        let mut with_sample = vec![0; s.m as usize];
        spread(&mut with_sample, 0, sample, (r * r * s.m + 255) / 256);
        samples.extend(with_sample);
    }
    samples.truncate(samples.len() - rng.range(1, s.m - 1) as usize);
    (s, samples)
}

/// For most events that have ended: one or two half-cycles about the start, or about the last value
/// of the first magnitude. Value i is made of half-cycles i and i + 1.
fn around_events(rng: &mut Rng, s: &Settings, samples: &mut [i16]) {
    for record in Readings::of(*s, samples).records() {
        let first = record.start;
        let last = record.last(s.n);
        for _ in 0..one_of(&[0, 1, 1, 1, 2], rng) {
            let half = match rng.range(0, 6) {
                // Before the start; in the first value too.
                0 => first - 1,
                1 => first,
                // In the last value, not before it; after the last value.
                2..=3 => last + 1,
                4..=5 => last + 2,
                _ => rng.range(first, last + 1),
            };
            put(rng, s, samples, half);
        }
    }
}

/// Puts a clipped sample, or one that is just not clipped, into a half-cycle, if there is such a one.
/// The other samples then change, so that the sum of squares most often stays; where it is too small
/// for that it grows, or the half-cycle is left as it is.
pub fn put(rng: &mut Rng, s: &Settings, samples: &mut [i16], half: i64) {
    let m = s.m as usize;
    let Some(samples) = samples.chunks_exact_mut(m).nth((half - 1).max(0) as usize) else { return };
    let sample = one_of(if rng.chance(75) { &CLIPPED } else { &JUST_NOT_CLIPPED }, rng);
    let at = one_of(&[0, m - 1, rng.range(0, s.m - 1) as usize], rng);
    let sum = energy(samples);
    if sum >= sample as i64 * sample as i64 {
        spread(samples, at, sample, sum);
    } else if rng.chance(10) {
        samples[at] = sample;
    }
}

/// A half-cycle with this sample at this place, and this sum of squares, or a little less.
pub fn spread(samples: &mut [i16], at: usize, sample: i16, sum: i64) {
    let m = samples.len();
    let mut left = sum - sample as i64 * sample as i64;
    samples[at] = sample;
    let others = (0..m).filter(|&j| j != at);
    for (done, j) in others.enumerate() {
        let rest = (m - 1 - done) as i64;
        let share = if rest > 4 { left / rest } else { left };
        let x = share.isqrt().min(32_766);
        left -= x * x;
        samples[j] = if j % 2 == 0 { x } else { -x } as i16;
    }
}
