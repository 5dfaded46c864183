//! Counts of what feeds about the end of 4 bytes, beyond it and at V's end have shown.

use crate::entries::Entry;
use crate::images::{Fields, FOUR_BYTES};
use crate::logger::END;
use crate::rules::RECORD;
use std::collections::BTreeMap;

/// A feed: the images before and after it, its records, and why it took no more.
struct Step<'a> {
    before: &'a Fields,
    after: &'a Fields,
    records: Vec<Entry>,
    why: u64,
}

impl Step<'_> {
    /// Whether V passes 2^32 − 1.
    fn passes(&self) -> bool {
        self.before.v <= FOUR_BYTES && FOUR_BYTES < self.after.v
    }

    /// Whether the dip (0), swell (1) or interruption (2) stands all along while V passes.
    fn stands(&self, e: usize) -> bool {
        let [before, after] = [self.before, self.after].map(|x| x.events[2 * e]);
        self.passes() && before > 0 && before == after
    }

    /// Whether a record of this kind is so, given the value at which it is due.
    fn recorded(&self, kind: u8, is: fn(&Entry, u64) -> bool) -> bool {
        let after = if kind == 4 { self.before.s.n as u64 } else { 0 };
        self.records.iter().any(|x| x.kind == kind && is(x, x.start + x.duration + after))
    }

    /// Whether an event or a change begins at this value.
    fn begins(&self, i: u64) -> bool {
        let [dip, _, swell, _, interruption, _] = self.after.events;
        let stand = [dip, swell, interruption, self.after.change[0]].contains(&i);
        self.before.v < i && (stand || self.records.iter().any(|x| x.start == i))
    }
}

/// Whether a record starts up to 2^32 − 1, and is due after it.
fn across(x: &Entry, due: u64) -> bool {
    x.start <= FOUR_BYTES && FOUR_BYTES < due
}

type OfStep = fn(&Step) -> bool;

/// What comes often.
const OFTEN: &[(&str, OfStep)] = &[
    ("V passes 2^32 - 1", |x| x.passes()),
    ("V passes 2^32 - 1 in a change", |x| {
        x.passes() && x.before.phase == 3 && x.before.change[0] == x.after.change[0]
    }),
    ("dip across 2^32", |x| x.recorded(1, across)),
    ("swell across 2^32", |x| x.recorded(2, across)),
    ("interruption across 2^32", |x| x.recorded(3, across)),
    ("rvc across 2^32", |x| x.recorded(4, across)),
    ("dip from 2^32 on", |x| x.recorded(1, |x, _| x.start > FOUR_BYTES)),
    ("swell from 2^32 on", |x| x.recorded(2, |x, _| x.start > FOUR_BYTES)),
    ("interruption from 2^32 on", |x| x.recorded(3, |x, _| x.start > FOUR_BYTES)),
    ("rvc from 2^32 on", |x| x.recorded(4, |x, _| x.start > FOUR_BYTES)),
    ("dip of 2^32 half-cycles or more", |x| x.recorded(1, |x, _| x.duration > FOUR_BYTES)),
    ("swell of 2^32 half-cycles or more", |x| x.recorded(2, |x, _| x.duration > FOUR_BYTES)),
    ("interruption of 2^32 half-cycles or more", |x| x.recorded(3, |x, _| x.duration > FOUR_BYTES)),
    ("first stand from 2^32 on", |x| x.before.change[3] == 0 && x.after.change[3] > FOUR_BYTES),
    ("k + N above 2^63 - 1", |x| {
        x.after.phase == 3 && x.after.change[0] + x.after.s.n as u64 > END
    }),
    ("why 2 at 2^63 - 1", |x| x.why == 2 && x.after.v == END),
];

/// What needs many cases.
const SELDOM: &[(&str, OfStep)] = &[
    ("V passes 2^32 - 1, dip stands", |x| x.stands(0)),
    ("V passes 2^32 - 1, swell stands", |x| x.stands(1)),
    ("V passes 2^32 - 1, interruption stands", |x| x.stands(2)),
    ("rvc of 2^32 half-cycles or more", |x| x.recorded(4, |x, _| x.duration > FOUR_BYTES)),
    ("begins at 2^32 - 1", |x| x.begins(FOUR_BYTES)),
    ("begins at 2^32", |x| x.begins(FOUR_BYTES + 1)),
    ("dip due at 2^63 - 1", |x| x.recorded(1, |_, due| due == END)),
    ("swell due at 2^63 - 1", |x| x.recorded(2, |_, due| due == END)),
    ("interruption due at 2^63 - 1", |x| x.recorded(3, |_, due| due == END)),
    ("rvc due at 2^63 - 1", |x| x.recorded(4, |_, due| due == END)),
];

/// What feeds have shown.
#[derive(Default)]
pub struct Far {
    shown: BTreeMap<&'static str, u64>,
}

impl Far {
    /// A feed from one image to the next.
    pub fn feed(&mut self, before: &[u8], after: &[u8], records: &[u8], why: u64) {
        let (before, after) = (&Fields::of(before), &Fields::of(after));
        let records = records.chunks_exact(RECORD).map(Entry::of).collect();
        let step = Step { before, after, records, why };
        for (name, shows) in OFTEN.iter().chain(SELDOM) {
            *self.shown.entry(name).or_default() += shows(&step) as u64;
        }
    }

    /// The counts of what comes often, under their names.
    pub fn often_counts(&self) -> Vec<(String, u64)> {
        self.counts_of(OFTEN)
    }

    /// Every count under its name.
    pub fn counts(&self) -> Vec<(String, u64)> {
        [self.counts_of(OFTEN), self.counts_of(SELDOM)].concat()
    }

    fn counts_of(&self, steps: &[(&'static str, OfStep)]) -> Vec<(String, u64)> {
        let count = |name: &str| self.shown.get(name).copied().unwrap_or(0);
        steps.iter().map(|(name, _)| (format!("far: {name}"), count(name))).collect()
    }
}
