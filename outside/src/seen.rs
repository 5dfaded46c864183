//! Counts of what the random cases have seen.

use crate::convert_seen::ConvertSeen;
use crate::day_seen::DaySeen;
use crate::editions::THIS;
use crate::far::Far;
use crate::marks::Marks;
use crate::pairs::{pairs, rules};
use crate::room::RECORD;
use crate::rules::Q;
use crate::stands::Stands;
use crate::three;
use crate::trials::{InLists, OnImages};
use std::collections::BTreeMap;

/// Names of the calls that are counted.
pub const CALLS: [&str; 11] = [
    "start",
    "feed",
    "trial",
    "look",
    "save",
    "restore",
    "begin",
    "advance",
    "try",
    "count_day",
    "convert",
];

/// What has been seen.
#[derive(Default)]
pub struct Seen {
    pub calls: [u64; 11],
    /// What advance has told and written.
    pub fed: Told,
    /// What trials have shown, in lists and on images.
    pub trials: InLists,
    pub tries: OnImages,
    /// What the marks of recordings have shown.
    pub marks: Marks,
    /// Rules of 11, each broken alone, and the nearest accepted image.
    pub rules: BTreeMap<&'static str, [u64; 2]>,
    /// Refusals of begin, 1 to 7, and of advance, 7 to 13.
    pub begin_refusals: [u64; 14],
    pub advance_refusals: [u64; 14],
    /// Changes that a dip or swell dropped, and advances from images built directly.
    pub dropped: u64,
    pub built: u64,
    /// What events that stand before a change have shown.
    pub stands: Stands,
    /// What feeds about the end of 4 bytes and at V's end have shown.
    pub far: Far,
    /// Recordings read as the event program does, and those that a program was run on.
    pub texts: u64,
    pub programs: u64,
    /// Events that had not ended with a recording, by kind, 1 to 4.
    pub not_ended: [u64; 5],
    /// What the counts of a day have shown.
    pub days: DaySeen,
    /// What the converter's calls have shown.
    pub converts: ConvertSeen,
    /// What recordings of three phases have shown.
    pub three: three::seen::Seen,
}

/// The kinds of record.
pub const KINDS: [(usize, &str); 4] = [(1, "dip"), (2, "swell"), (3, "interruption"), (4, "rvc")];

/// What calls that take samples, or try them, have told and written.
#[derive(Default)]
pub struct Told {
    /// Why no more samples were taken, 0 to 2.
    whys: [u64; 3],
    /// Records, by kind, 1 to 4, without and with the mark.
    records: [[u64; 2]; 5],
}

impl Told {
    pub fn add(&mut self, why: u64, records: &[u8]) {
        self.whys[why as usize] += 1;
        for x in records.chunks_exact(RECORD) {
            self.records[x[0] as usize][x[1] as usize] += 1;
        }
    }

    /// Every count under its name, which begins with `of`.
    pub fn counts(&self, of: &str) -> Vec<(String, u64)> {
        let mut list = Vec::new();
        for (why, &count) in self.whys.iter().enumerate() {
            list.push((format!("{of}why {why}"), count));
        }
        for (kind, name) in KINDS {
            for mark in [0, 1] {
                let name = format!("{of}record {name}, mark {mark}");
                list.push((name, self.records[kind][mark]));
            }
        }
        list
    }
}

impl Seen {
    pub fn call(&mut self, name: &str) {
        let at = CALLS.iter().position(|x| *x == name).unwrap();
        self.calls[at] += 1;
    }

    pub fn rule(&mut self, rule: &'static str, broken: bool) {
        self.rules.entry(rule).or_default()[!broken as usize] += 1;
    }

    pub fn text(&mut self, told: &str) {
        self.texts += 1;
        for (kind, name) in KINDS {
            self.not_ended[kind] += told.lines().any(|line| line.ends_with(name)) as u64;
        }
    }

    /// Every count under its name.
    pub fn counts(&self) -> Vec<(String, u64)> {
        let calls = CALLS.iter().zip(self.calls);
        let mut list: Vec<_> = calls.map(|(name, count)| (name.to_string(), count)).collect();
        list.extend(self.fed.counts(""));
        list.extend(self.trials.counts());
        list.extend(self.tries.counts());
        let mut add = |name: String, count: u64| list.push((name, count));
        add("changes dropped".into(), self.dropped);
        add("built images".into(), self.built);
        for (name, count) in self.stands.counts() {
            add(name, count);
        }
        for (name, count) in self.far.counts() {
            add(name, count);
        }
        for number in 1..=7 {
            add(format!("begin refuses {number}"), self.begin_refusals[number]);
        }
        for number in 7..=13 {
            add(format!("advance refuses {number}"), self.advance_refusals[number]);
        }
        for rule in rules(&pairs(&THIS, Q)) {
            let [broken, accepted] = self.rules.get(rule).copied().unwrap_or_default();
            add(format!("11 by {rule}"), broken);
            add(format!("accepted by {rule}"), accepted);
        }
        add("texts".into(), self.texts);
        for (kind, name) in KINDS {
            add(format!("not ended: {name}"), self.not_ended[kind]);
        }
        list.extend(self.marks.counts());
        list.extend(self.days.counts());
        list.extend(self.converts.counts());
        list.extend(self.three.counts());
        list
    }
}

/// Prints every count, and those that are 0 again; tells whether there are none.
pub fn tell(counts: &[(String, u64)]) -> bool {
    for (name, count) in counts {
        println!("{name:<72}{count:>12}");
    }
    let missing: Vec<&str> = counts.iter().filter(|x| x.1 == 0).map(|x| x.0.as_str()).collect();
    if !missing.is_empty() {
        println!("never seen: {}", missing.join(", "));
    }
    missing.is_empty()
}
