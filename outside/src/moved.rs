//! The logger of a recording, moved on so that V passes an end with the samples that are left: what it
//! goes on to is what the recording gives, moved as far.

use crate::editions::Edition;
use crate::hosts::{demand, first_difference, Outcome};
use crate::images::{Fields, FOUR_BYTES};
use crate::logger::END;
use crate::readings::{Readings, Record};
use crate::rng::{one_of, Rng};
use crate::rules::{Settings, IMAGE};

pub struct Moved<'a> {
    s: Settings,
    samples: &'a [i16],
    /// How many of the samples it has, how many values these make, and how far it is moved.
    saved: usize,
    values: i64,
    by: i64,
}

impl<'a> Moved<'a> {
    /// So far that V passes 2^32 − 1 or comes to its end, and is not above an edition's end yet; none if
    /// the recording has fewer than N values.
    pub fn of(rng: &mut Rng, edition: &Edition, s: Settings, samples: &'a [i16]) -> Option<Self> {
        let x = Readings::of(s, samples);
        if x.v() < s.n {
            return None;
        }
        let values = rng.range(s.n, x.v());
        let saved = samples.len().min(((values + 2) * s.m - rng.range(1, s.m)) as usize);
        // Most often a record starts, or is due, where 4 bytes or V end.
        let mut turns = vec![rng.range(values, x.v())];
        let due = x.records().into_iter().filter(|x| x.due > values);
        turns.extend(due.flat_map(|x| [x.due, x.due, x.start.max(values)]));
        let ends = [FOUR_BYTES, FOUR_BYTES + 1, END].map(|x| x as i64);
        let ends: Vec<i64> =
            ends.into_iter().filter(|&x| i128::from(x) <= edition.end + 1).collect();
        let by = one_of(&ends, rng) - one_of(&turns, rng);
        Some(Moved { s, samples, saved, values, by: by.min(edition.end as i64 - values) })
    }

    /// The samples that are left.
    pub fn left(&self) -> &'a [i16] {
        &self.samples[self.saved..]
    }

    /// The image after so many of these.
    pub fn image(&self, taken: usize) -> Fields {
        let recorded = Readings::of(self.s, &self.samples[..self.saved + taken]).image();
        Fields::of(&recorded).moved(self.by as u64)
    }

    /// The records due up to this V.
    fn records(&self, v: u64) -> Vec<u8> {
        let to = v as i64 - self.by;
        let records = Readings::of(self.s, self.samples).records().into_iter();
        let due = records.filter(|x| self.values < x.due && x.due <= to);
        due.flat_map(|x| Record { start: x.start + self.by, ..x }.bytes()).collect()
    }

    /// What was written, and the image that was come to, are the recording's.
    pub fn demand(&self, taken: u64, written: &[u8], image: &[u8]) -> Outcome<()> {
        let by = self.by;
        let expected = self.image(taken as usize);
        let image = &image[..IMAGE];
        demand(image == expected.bytes(), || {
            format!("moved by {by}, image: {}", first_difference(&expected.bytes(), image))
        })?;
        let expected = self.records(expected.v);
        demand(written == expected, || {
            format!("moved by {by}, records: {}", first_difference(&expected, written))
        })
    }
}
