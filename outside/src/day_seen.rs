//! What a call for the count of a day must tell, read the other way round than in `days`: by all
//! that applies, by the day's first and last half-cycle, by the least magnitudes that count. And
//! counts of what such calls have shown.

use crate::day_hosts::Asked;
use crate::days::REPLY;
use crate::entries::Entry;
use crate::images::FOUR_BYTES;
use crate::rules::{self, Settings, RECORD};
use std::collections::BTreeMap;

/// Half-cycles in a day at 50 and at 60 Hz.
const DAYS: [u64; 2] = [8_640_000, 10_368_000];

/// The refusals in their order, and how many of them the settings have.
const ORDER: [u32; 10] = [1, 2, 3, 4, 5, 6, 15, 16, 17, 13];
const OF_SETTINGS: usize = 6;

/// Half-cycles in a day under these settings.
pub fn day_length(s: &Settings) -> u64 {
    DAYS[(s.f == 60) as usize]
}

/// The least second, and the least first magnitude that counts.
pub fn least(s: &Settings) -> [i64; 2] {
    let whole = s.n * s.u;
    [(3 * whole + 99) / 100, 5 * whole / 100 + 1]
}

/// So many percent of U, rounded down, or up, to a sixteenth, in N-ths.
pub fn rounded(s: &Settings, percent: i64, up: bool) -> i64 {
    s.n * ((percent * s.u + if up { 99 } else { 0 }) / 100)
}

impl Asked {
    /// The numbers that apply, in their order. Where the settings are refused, z is too great if it
    /// is so at 50 and at 60 Hz.
    pub fn applying(&self) -> Vec<u32> {
        let settings = rules::settings(&self.settings);
        let longest = settings.map_or(DAYS[1], |s| day_length(&s));
        let bad_kind = self.records.chunks_exact(RECORD).any(|x| Entry::of(x).has_bad_kind());
        let others =
            [self.z >= longest, self.records.len() % RECORD > 0, bad_kind, self.reply < REPLY];
        let others = ORDER[OF_SETTINGS..].iter().zip(others).filter(|x| x.1).map(|x| *x.0);
        settings.err().into_iter().chain(others).collect()
    }
}

/// A call under good settings.
pub struct Sight<'a> {
    asked: &'a Asked,
    s: Settings,
    /// The first and the last half-cycle of the day, counted from the midnight before value 0.
    from: i128,
    to: i128,
    /// The least second, and the least first magnitude that counts.
    least: [i64; 2],
    records: Vec<Entry>,
    /// What must be told where nothing is refused: the count by second magnitudes, that by first ones,
    /// and whether each is over.
    pub told: [u64; 4],
}

impl<'a> Sight<'a> {
    pub fn of(asked: &'a Asked) -> Option<Sight<'a>> {
        let s = rules::settings(&asked.settings).ok()?;
        let from = asked.day as i128 * day_length(&s) as i128;
        let to = from + day_length(&s) as i128 - 1;
        let records = asked.records.chunks_exact(RECORD).map(Entry::of).collect();
        let mut sight = Sight { asked, s, from, to, least: least(&s), records, told: [0; 4] };
        let cap = if asked.above == 0 { 24 } else { 12 };
        for j in [0, 1] {
            let counted = |r: &&Entry| sight.is_change(r) && sight.enough(r)[j];
            sight.told[j] = sight.records.iter().filter(counted).count() as u64;
            sight.told[2 + j] = (sight.told[j] > cap) as u64;
        }
        Some(sight)
    }

    /// The half-cycle of a record's start, counted from the midnight before value 0.
    fn at(&self, r: &Entry) -> i128 {
        self.asked.z as i128 + r.start as i128
    }

    fn holds(&self, at: i128) -> bool {
        self.from <= at && at <= self.to
    }

    fn on_day(&self, r: &Entry) -> bool {
        self.holds(self.at(r))
    }

    /// Whether the second, and whether the first magnitude is great enough.
    fn enough(&self, r: &Entry) -> [bool; 2] {
        [r.second as i64 >= self.least[0], r.first as i64 >= self.least[1]]
    }

    /// Whether it is a change of this day.
    fn is_change(&self, r: &Entry) -> bool {
        r.kind == 4 && self.on_day(r)
    }

    /// Whether it is a change that would count on its own day, whichever that is.
    fn would_count(&self, r: &Entry) -> bool {
        r.kind == 4 && self.enough(r).contains(&true)
    }

    /// Whether it is counted.
    fn counts(&self, r: &Entry) -> bool {
        self.on_day(r) && self.would_count(r)
    }

    /// Whether it is passed over, and great enough in both magnitudes, on this day.
    fn passed(&self, r: &Entry, kind: u8) -> bool {
        r.kind == kind && self.on_day(r) && self.enough(r) == [true, true]
    }

    /// Whether `above` is this number and decides: a count is over above 35 kV, and not up to it.
    fn decides(&self, above: u32) -> bool {
        self.asked.above == above && self.told[..2].iter().any(|x| (13..=24).contains(x))
    }

    /// Whether this count is told, up to 35 kV or above.
    fn tells(&self, which: usize, count: u64, above: bool) -> bool {
        self.told[which] == count && (self.asked.above > 0) == above
    }

    /// The only record of a bad kind, and its place.
    fn bad(&self) -> Option<(usize, &Entry)> {
        let mut bad = self.records.iter().enumerate().filter(|x| x.1.has_bad_kind());
        bad.next().filter(|_| bad.next().is_none())
    }

    /// Whether there is one record of a bad kind, this one, and of this day or of another.
    fn bad_kind(&self, kind: u8, on_day: bool) -> bool {
        self.bad().is_some_and(|(_, r)| r.kind == kind && self.on_day(r) == on_day)
    }

    /// The kind in the incomplete rest behind the records.
    fn kind_of_rest(&self) -> Option<&u8> {
        self.asked.records.chunks_exact(RECORD).remainder().first()
    }
}

type OfRecord = fn(&Sight, &Entry) -> bool;
type OfCall = fn(&Sight) -> bool;

/// What a record of an accepted call can show.
const RECORDS: &[(&str, OfRecord)] = &[
    ("second at 3 %", |x, r| x.is_change(r) && 100 * r.second as i64 == 3 * x.s.n * x.s.u),
    ("second the least that counts", |x, r| x.is_change(r) && r.second as i64 == x.least[0]),
    ("second one below the least", |x, r| x.is_change(r) && r.second as i64 == x.least[0] - 1),
    ("second one below the least, 3 % no whole N-th", |x, r| {
        x.is_change(r) && r.second as i64 == x.least[0] - 1 && 3 * x.s.n * x.s.u % 100 > 0
    }),
    ("first at 5 %", |x, r| x.is_change(r) && 100 * r.first as i64 == 5 * x.s.n * x.s.u),
    ("first the least that counts", |x, r| x.is_change(r) && r.first as i64 == x.least[1]),
    ("second too small, not for 3 % rounded down", |x, r| {
        x.is_change(r) && !x.enough(r)[0] && r.second as i64 >= rounded(&x.s, 3, false)
    }),
    ("second enough, not for 3 % rounded up", |x, r| {
        x.is_change(r) && x.enough(r)[0] && (r.second as i64) < rounded(&x.s, 3, true)
    }),
    ("first too small, not for 5 % rounded down", |x, r| {
        x.is_change(r) && !x.enough(r)[1] && r.first as i64 > rounded(&x.s, 5, false)
    }),
    ("first enough, not for 5 % rounded up", |x, r| {
        x.is_change(r) && x.enough(r)[1] && r.first as i64 <= rounded(&x.s, 5, true)
    }),
    ("second enough, not where its hundredfold wraps", |x, r| {
        let wrapped = (100 * r.second as i64) & u32::MAX as i64;
        x.is_change(r) && x.enough(r)[0] && wrapped < 3 * x.s.n * x.s.u
    }),
    ("first enough, not where its hundredfold wraps", |x, r| {
        let wrapped = (100 * r.first as i64) & u32::MAX as i64;
        x.is_change(r) && x.enough(r)[1] && wrapped <= 5 * x.s.n * x.s.u
    }),
    ("start on the day's first half-cycle", |x, r| x.would_count(r) && x.at(r) == x.from),
    ("start on the day's last one", |x, r| x.would_count(r) && x.at(r) == x.to),
    ("start on the next day's first one", |x, r| x.would_count(r) && x.at(r) == x.to + 1),
    ("start on the last one of the day before", |x, r| x.would_count(r) && x.at(r) == x.from - 1),
    ("end on the next day", |x, r| {
        let length = x.to + 1 - x.from;
        x.counts(r) && x.holds(x.at(r) + r.duration as i128 - length)
    }),
    ("end on the day, start before", |x, r| {
        x.would_count(r) && x.at(r) < x.from && x.holds(x.at(r) + r.duration as i128)
    }),
    ("z + start above 4 bytes, start not", |x, r| {
        x.counts(r) && x.at(r) > FOUR_BYTES as i128 && r.start <= FOUR_BYTES
    }),
    ("start above 4 bytes", |x, r| x.counts(r) && r.start > FOUR_BYTES),
    ("start of 2^32 - 1", |x, r| x.counts(r) && r.start == FOUR_BYTES),
    ("start of 2^32", |x, r| x.counts(r) && r.start == FOUR_BYTES + 1),
    ("start of 2^63 - 1", |x, r| x.counts(r) && r.start == u64::MAX >> 1),
    ("start of 2^63", |x, r| x.counts(r) && r.start == 1 << 63),
    ("start of 2^64 - 1", |x, r| x.counts(r) && r.start == u64::MAX),
    ("on the day where the start is cut to 4 bytes", |x, r| {
        let cut = x.asked.z as i128 + (r.start & FOUR_BYTES) as i128;
        x.would_count(r) && !x.on_day(r) && x.holds(cut)
    }),
    ("z + start above 8 bytes, on the day", |x, r| x.counts(r) && x.at(r) >= 1 << 64),
    ("z + start above 8 bytes, on the day where it wraps", |x, r| {
        x.would_count(r) && !x.on_day(r) && x.holds(x.at(r) - (1 << 64))
    }),
    ("duration above 4 bytes", |x, r| x.counts(r) && r.duration > FOUR_BYTES),
    ("start + duration above 8 bytes", |x, r| {
        x.counts(r) && r.start.checked_add(r.duration).is_none()
    }),
    ("on the day with z only", |x, r| x.counts(r) && !x.holds(r.start as i128)),
    ("on the day without z only", |x, r| {
        x.would_count(r) && !x.on_day(r) && x.holds(r.start as i128)
    }),
    ("on the day where its number is cut to 4 bytes", |x, r| {
        let cut = (x.asked.day >> 32) as i128 * ((x.to + 1 - x.from) << 32);
        x.would_count(r) && cut > 0 && x.holds(x.at(r) + cut)
    }),
    ("on the day where its first half-cycle wraps", |x, r| {
        let wraps = x.from >> 64 << 64;
        x.would_count(r) && wraps > 0 && x.holds(x.at(r) + wraps)
    }),
    ("dip, great enough", |x, r| x.passed(r, 1)),
    ("swell, great enough", |x, r| x.passed(r, 2)),
    ("interruption, great enough", |x, r| x.passed(r, 3)),
    ("mark 1", |x, r| x.counts(r) && r.mark == 1),
    ("mark above 1", |x, r| x.counts(r) && r.mark > 1),
    ("byte 2 not zero", |x, r| x.counts(r) && r.zeros[0] > 0),
    ("byte 3 not zero", |x, r| x.counts(r) && r.zeros[1] > 0),
];

/// What an accepted call can show.
const CALLS: &[(&str, OfCall)] = &[
    ("N 100", |x| x.s.n == 100),
    ("N 120", |x| x.s.n == 120),
    ("z 0", |x| x.asked.z == 0),
    ("z on a day's last half-cycle", |x| x.asked.z == day_length(&x.s) - 1),
    ("z a day of 50 Hz, at 60 Hz", |x| x.asked.z == DAYS[0]),
    ("day above 4 bytes", |x| x.asked.day >= 1 << 32),
    ("day 2^64 - 1", |x| x.asked.day == u64::MAX),
    ("no records", |x| x.records.is_empty()),
    ("24 by second, up to 35 kV", |x| x.tells(0, 24, false)),
    ("25 by second, up to 35 kV", |x| x.tells(0, 25, false)),
    ("24 by first, up to 35 kV", |x| x.tells(1, 24, false)),
    ("25 by first, up to 35 kV", |x| x.tells(1, 25, false)),
    ("12 by second, above", |x| x.tells(0, 12, true)),
    ("13 by second, above", |x| x.tells(0, 13, true)),
    ("12 by first, above", |x| x.tells(1, 12, true)),
    ("13 by first, above", |x| x.tells(1, 13, true)),
    ("over by second only", |x| x.told[2..] == [1, 0]),
    ("over by first only", |x| x.told[2..] == [0, 1]),
    ("over by both", |x| x.told[2..] == [1, 1]),
    ("more than 255", |x| x.told[..2].iter().any(|x| *x > 255)),
    ("more by second", |x| x.told[0] > x.told[1]),
    ("more by first", |x| x.told[1] > x.told[0]),
    ("13 to 24, above is 0", |x| x.decides(0)),
    ("13 to 24, above is 1", |x| x.decides(1)),
    ("13 to 24, above is 2", |x| x.decides(2)),
    ("13 to 24, above is 256", |x| x.decides(256)),
    ("13 to 24, above is 2^32 - 1", |x| x.decides(u32::MAX)),
    ("reply of 32 bytes", |x| x.asked.reply == 32),
    ("reply of 33 bytes", |x| x.asked.reply == 33),
    ("reply of more bytes", |x| x.asked.reply > 33),
];

/// What a call that is refused with this number can show.
const REFUSED: &[(u32, &str, OfCall)] = &[
    (15, "z a day", |x| x.asked.z == day_length(&x.s)),
    (15, "z 2^64 - 1", |x| x.asked.z == u64::MAX),
    (16, "bad kind behind whole records", |x| {
        let rest = x.kind_of_rest().is_some_and(|kind| !(1..=4).contains(kind));
        rest && !x.records.is_empty() && !x.records.iter().any(Entry::has_bad_kind)
    }),
    (16, "one byte too many", |x| x.asked.records.len() % RECORD == 1),
    (16, "one byte too few", |x| x.asked.records.len() % RECORD == RECORD - 1),
    (17, "kind 0 on the day", |x| x.bad_kind(0, true)),
    (17, "kind 0 on another day", |x| x.bad_kind(0, false)),
    (17, "kind 5 on the day", |x| x.bad_kind(5, true)),
    (17, "kind 5 on another day", |x| x.bad_kind(5, false)),
    (17, "kind 255 on the day", |x| x.bad_kind(255, true)),
    (17, "kind 255 on another day", |x| x.bad_kind(255, false)),
    (17, "bad kind in the first record", |x| {
        x.records.len() > 1 && x.bad().is_some_and(|bad| bad.0 == 0)
    }),
    (17, "bad kind in the last record", |x| {
        x.records.len() > 1 && x.bad().is_some_and(|bad| bad.0 == x.records.len() - 1)
    }),
    (13, "reply of 0 bytes", |x| x.asked.reply == 0),
    (13, "reply of 31 bytes", |x| x.asked.reply == 31),
];

/// What the calls have shown.
#[derive(Default)]
pub struct DaySeen {
    /// Refusals; and, for two that applied, the one that was given and the later one.
    refusals: BTreeMap<u32, u64>,
    orders: BTreeMap<(u32, u32), u64>,
    /// By the names above.
    shown: BTreeMap<&'static str, u64>,
    /// Calls with a recording's records: one was counted by its second magnitude, one by its first,
    /// and one would have been on another day.
    recorded: [u64; 3],
}

impl DaySeen {
    /// A call that was answered as it must be.
    pub fn call(&mut self, x: &Asked) {
        let applying = x.applying();
        let number = applying.first().copied().unwrap_or(0);
        *self.refusals.entry(number).or_default() += 1;
        for &later in applying.iter().skip(1) {
            *self.orders.entry((number, later)).or_default() += 1;
        }
        let Some(x) = Sight::of(x) else { return };
        let mut show = |name, shows: bool| *self.shown.entry(name).or_default() += shows as u64;
        for &(of, name, shows) in REFUSED {
            show(name, number == of && shows(&x));
        }
        for &(name, shows) in CALLS {
            show(name, number == 0 && shows(&x));
        }
        for &(name, shows) in RECORDS {
            show(name, number == 0 && x.records.iter().any(|r| shows(&x, r)));
        }
    }

    /// An accepted call with a recording's records.
    pub fn recorded(&mut self, x: &Asked) {
        let Some(x) = Sight::of(x) else { return };
        let other = x.records.iter().any(|r| x.would_count(r) && !x.on_day(r));
        let shown = [x.told[0] > 0, x.told[1] > 0, other];
        self.recorded.iter_mut().zip(shown).for_each(|(count, shows)| *count += shows as u64);
    }

    /// Every count under its name.
    pub fn counts(&self) -> Vec<(String, u64)> {
        let mut list = Vec::new();
        let mut add = |name: String, count: u64| list.push((format!("day: {name}"), count));
        for (j, &number) in ORDER.iter().enumerate() {
            add(format!("refused {number}"), self.refusals.get(&number).copied().unwrap_or(0));
            // Settings have one refusal only.
            for &later in &ORDER[j.max(OF_SETTINGS - 1) + 1..] {
                let count = self.orders.get(&(number, later)).copied().unwrap_or(0);
                add(format!("{number} before {later}"), count);
            }
        }
        let shown = |name: &str| self.shown.get(name).copied().unwrap_or(0);
        REFUSED.iter().for_each(|(of, name, _)| add(format!("{of}, {name}"), shown(name)));
        CALLS.iter().for_each(|(name, _)| add(name.to_string(), shown(name)));
        RECORDS.iter().for_each(|(name, _)| add(name.to_string(), shown(name)));
        add("recorded change counted by its second".into(), self.recorded[0]);
        add("recorded change counted by its first".into(), self.recorded[1]);
        add("recorded change of another day".into(), self.recorded[2]);
        list
    }
}
