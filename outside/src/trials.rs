//! Counts of what trials have shown: in lists of calls, and on an image, as a host in C makes them.

use crate::engineer::{Call, Fed};
use crate::hosts::{Left, Lengths};
use crate::images::Fields;
use crate::rules::RECORD;
use crate::seen::Told;
use std::collections::BTreeMap;

/// The calls that stand directly before a trial, and directly behind one.
const OTHERS: [&str; 6] =
    ["feed", "trial", "look", "save", "restore of a save", "restore of bytes"];

/// A call of a list.
struct Made {
    name: &'static str,
    block: Option<Block>,
}

/// The block of a feed or a trial, its room, what was told, and the image before.
struct Block {
    samples: Vec<i16>,
    room: usize,
    fed: Fed,
    image: Fields,
}

impl Block {
    /// Lent bytes behind the last record.
    fn behind(&self) -> usize {
        self.room - RECORD * self.fed.written as usize
    }
}

type OfTrial = fn(&Block) -> bool;
type OfTwo = fn(&Block, &Block) -> bool;
type OfHost = fn(&Left, &Lengths) -> bool;

/// What a trial of a list can show.
const TRIALS: &[(&str, OfTrial)] = &[
    ("of an empty block", |x| x.samples.is_empty()),
    ("within a half-cycle", |x| x.image.count > 0),
    ("while a dip stands", |x| x.image.events[0] > 0),
    ("while a swell stands", |x| x.image.events[2] > 0),
    ("while an interruption stands", |x| x.image.events[4] > 0),
    ("in a change", |x| x.image.phase == 3),
    ("with no byte, a record due", |x| x.room == 0 && x.fed.why == 1),
    ("with 1 to 27 bytes, a record due", |x| (1..RECORD).contains(&x.room) && x.fed.why == 1),
    ("with room for one record, written", |x| x.room / RECORD == 1 && x.fed.written == 1),
    ("with bytes behind the last record", |x| x.fed.written > 0 && x.behind() > 0),
    ("with room for some of a value's records", |x| x.fed.why == 1 && x.behind() >= RECORD),
    ("that takes a part of the block", |x| x.fed.why == 1 && x.fed.taken > 0),
    ("that takes no sample", |x| x.fed.why == 1 && x.fed.taken == 0),
];

/// What a trial and then a feed of the same block can show.
const FEEDS: &[(&str, OfTwo)] = &[
    ("the same room, why 0", |x, y| x.room == y.room && y.fed.why == 0),
    ("the same room, why 1", |x, y| x.room == y.room && y.fed.why == 1),
    ("more room, which takes more", |x, y| x.room < y.room && x.fed.taken < y.fed.taken),
    ("less room, which takes less", |x, y| x.room > y.room && x.fed.taken > y.fed.taken),
];

/// What a trial on an image can show.
const HOSTS: &[(&str, OfHost)] = &[
    ("reply of 23 bytes", |x, l| x.number == 13 && l.reply == 23),
    ("reply of 24 bytes", |x, l| x.number == 0 && l.reply == 24),
    ("reply of more bytes", |x, l| x.number == 0 && l.reply > 24),
    ("no scratch byte, why 0", |x, l| x.number == 0 && l.records == 0 && x.reply(2) == 0),
    ("no scratch byte, why 1", |x, l| x.number == 0 && l.records == 0 && x.reply(2) == 1),
];

/// The refusals of a trial on an image, in their order; the first four are the image's, which has one.
const ORDER: [u32; 6] = [8, 9, 10, 11, 12, 13];

/// What trials in lists of calls have shown.
#[derive(Default)]
pub struct InLists {
    /// The call before, if the list has one.
    before: Option<Made>,
    /// Two calls in a row.
    two: BTreeMap<(&'static str, &'static str), u64>,
    /// By the names above.
    shown: BTreeMap<&'static str, u64>,
}

impl InLists {
    /// Between two lists, and at what is no call of the logger.
    pub fn apart(&mut self) {
        self.before = None;
    }

    /// A call of a list, what it told if it is a feed or a trial, and the image before it.
    pub fn call(&mut self, call: &Call, fed: Option<Fed>, image: &[u8]) {
        let block = call.block().zip(fed).map(|((samples, room), fed)| Block {
            samples: samples.to_vec(),
            room,
            fed,
            image: Fields::of(image),
        });
        let made = Made { name: call.name(), block };
        let mut show = |name, shows: bool| *self.shown.entry(name).or_default() += shows as u64;
        if let Made { name: "trial", block: Some(x) } = &made {
            TRIALS.iter().for_each(|&(name, shows)| show(name, shows(x)));
        }
        if let Some(before) = &self.before {
            *self.two.entry((before.name, made.name)).or_default() += 1;
            if let ("trial", Some(x), "feed", Some(y)) =
                (before.name, &before.block, made.name, &made.block)
            {
                let same = x.samples == y.samples;
                FEEDS.iter().for_each(|&(name, shows)| show(name, same && shows(x, y)));
            }
        }
        self.before = Some(made);
    }

    /// Every count under its name.
    pub fn counts(&self) -> Vec<(String, u64)> {
        let mut list = Vec::new();
        let mut add = |name: String, count: Option<&u64>| {
            list.push((name, count.copied().unwrap_or(0)));
        };
        for (name, _) in TRIALS {
            add(format!("trial {name}"), self.shown.get(name));
        }
        for (name, _) in FEEDS {
            add(format!("trial, then a feed of its block: {name}"), self.shown.get(name));
        }
        for other in OTHERS {
            add(format!("trial, then a {other}"), self.two.get(&("trial", other)));
            if other != "trial" {
                add(format!("{other}, then a trial"), self.two.get(&(other, "trial")));
            }
        }
        list
    }
}

/// What trials on an image have shown.
#[derive(Default)]
pub struct OnImages {
    told: Told,
    /// By the number; and, for two that applied, the one that was given and the later one.
    numbers: BTreeMap<u32, u64>,
    orders: BTreeMap<(u32, u32), u64>,
    /// By the names above.
    shown: BTreeMap<&'static str, u64>,
    /// Those that left what advance left, by why.
    alike: [u64; 3],
}

impl OnImages {
    /// A trial that left what advance left.
    pub fn alike(&mut self, left: &Left) {
        self.alike[left.reply(2) as usize] += 1;
    }

    /// A trial with these samples and lengths, and what it left.
    pub fn trial(&mut self, samples: &[u8], l: &Lengths, left: &Left) {
        *self.numbers.entry(left.number).or_default() += 1;
        if left.number == 0 {
            self.told.add(left.reply(2), left.written());
        }
        for (later, applies) in [(12, samples.len() % 2 == 1), (13, l.reply < 24)] {
            *self.orders.entry((left.number, later)).or_default() += applies as u64;
        }
        for &(name, shows) in HOSTS {
            *self.shown.entry(name).or_default() += shows(left, l) as u64;
        }
    }

    /// Every count under its name.
    pub fn counts(&self) -> Vec<(String, u64)> {
        let mut list = self.told.counts("try: ");
        let mut add = |name: String, count: Option<&u64>| {
            list.push((format!("try: {name}"), count.copied().unwrap_or(0)));
        };
        for (j, number) in ORDER.into_iter().enumerate() {
            add(format!("refused {number}"), self.numbers.get(&number));
            for &later in &ORDER[j.max(3) + 1..] {
                add(format!("{number} before {later}"), self.orders.get(&(number, later)));
            }
        }
        for (name, _) in HOSTS {
            add(name.to_string(), self.shown.get(name));
        }
        for (why, count) in self.alike.iter().enumerate() {
            add(format!("as advance, why {why}"), Some(count));
        }
        list
    }
}
