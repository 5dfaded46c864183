//! Random calls for the count of a day: records at the ends of a day and at the limits of what
//! counts, calls with one thing, or several, that must be refused, and records of recordings.

use crate::day_hosts::Asked;
use crate::day_seen::{day_length, least, rounded, Sight};
use crate::entries::Entry;
use crate::hosts::{demand, Outcome, Run};
use crate::logger::Logger;
use crate::rng::{one_of, Rng};
use crate::rules::{self, settings_bytes, Settings, RECORD, TOP};
use crate::{clips, waves};

/// The least magnitude whose hundredfold passes 4 bytes.
const WRAPS: i64 = 42_949_673;

impl Run<'_> {
    /// Several calls, at the limits or refused, and one with the records of a recording.
    pub fn day_case(&mut self, rng: &mut Rng) -> Outcome<()> {
        for _ in 0..15 {
            let mut x = at_limits(rng);
            for _ in 0..one_of(&[0, 0, 0, 1, 2, 3], rng) {
                spoil(rng, &mut x);
            }
            self.asked(rng, &x)?;
        }
        let x = recorded(rng);
        self.asked(rng, &x)?;
        self.seen.days.recorded(&x);
        Ok(())
    }

    /// One call, which must give the first number that applies, or tell what is seen in it.
    fn asked(&mut self, rng: &mut Rng, x: &Asked) -> Outcome<()> {
        let at = |text: String| format!("{}: {text}", x.text());
        let (number, reply) = self.count_day(x, rng.next() as u8).map_err(at)?;
        let expected = x.applying().first().copied().unwrap_or(0);
        demand(number == expected, || at(format!("number {number}, not {expected}")))?;
        if number == 0 {
            let told = [0, 8, 16, 24].map(|at| rules::eight(&reply, at) as u64);
            let expected = Sight::of(x).unwrap().told;
            demand(told == expected, || at(format!("{told:?}, not {expected:?}")))?;
        }
        self.seen.days.call(x);
        Ok(())
    }
}

/// The last start that a record can have; V's end is half of it.
const LAST: i128 = u64::MAX as i128;

/// A day by the starts on it, the first and the last.
struct Starts {
    from: i128,
    to: i128,
}

impl Starts {
    fn of(length: i128, z: i128, day: i128) -> Starts {
        Starts { from: (day * length - z).max(0), to: ((day + 1) * length - 1 - z).min(LAST) }
    }

    /// A start on the day, most often at its ends.
    fn within(&self, rng: &mut Rng) -> u64 {
        let any = self.from + rng.up_to((self.to - self.from) as u64) as i128;
        let list = [self.from, self.from, self.to, self.to, any];
        let near = TURNS.into_iter().filter(|x| (self.from..=self.to).contains(x));
        one_of(&list.into_iter().chain(near).collect::<Vec<i128>>(), rng) as u64
    }

    /// A start on another day, most often on the next half-cycle or on the one before, or one that is
    /// taken for one on the day where it is cut to 4 bytes, or wraps. No day has both 0 and the last.
    fn without(&self, rng: &mut Rng) -> u64 {
        let (before, after) = (self.from - 1, self.to + 1);
        let cut = self.from + (rng.next() >> 32 << 32) as i128;
        let far = [0, LAST, rng.next() as i128, before - rng.range(0, 500) as i128, cut, cut];
        let list = [before, before, before, after, after, after].into_iter().chain(far);
        let fits = |x: &i128| (0..=LAST).contains(x) && !(self.from..=self.to).contains(x);
        one_of(&list.filter(fits).collect::<Vec<i128>>(), rng) as u64
    }
}

/// Starts about the ends of 4 bytes, of V and of 8 bytes.
const TURNS: [i128; 5] = [(1 << 32) - 1, 1 << 32, (1 << 63) - 1, 1 << 63, LAST];

/// A call that nothing refuses.
fn at_limits(rng: &mut Rng) -> Asked {
    let s = waves::settings(rng);
    let length = day_length(&s);
    let z = match rng.range(0, 9) {
        0..=2 => 0,
        3..=4 => length - 1,
        5 => one_of(&[1, length / 2, length - 2], rng),
        _ => rng.up_to(length - 1),
    };
    // The day where records lie: also those of certain starts, and the last one of all.
    let day_of = |start: i128| ((z as i128 + start) / length as i128) as u64;
    let last = day_of(LAST);
    let turn = day_of(one_of(&TURNS, rng));
    let any = rng.up_to(last);
    let early = rng.up_to(day_of(1 << 32));
    let near = one_of(&[0, 0, 0, 1, any, early, turn, turn, last - 1, last], rng);
    // The day asked for: this one, or one that is only taken for it where numbers are cut or wrap.
    let far = |x: i64, by: u32| near.wrapping_add((x as u64) << by);
    let day = match rng.range(0, 19) {
        0 => u64::MAX,
        1 => far(1, 32),
        2 => far(rng.range(1, u32::MAX as i64), 32),
        3 => far(rng.range(1, 511), 55),
        4 => rng.next(),
        // Where z + start wraps, the last day's records are taken for those of day 0.
        5 if near == last => 0,
        _ => near,
    };
    let above = one_of(&[0, 0, 0, 0, 1, 2, 256, u32::MAX], rng);
    let cap = if above == 0 { 24 } else { 12 };
    let starts = Starts::of(length as i128, z as i128, near as i128);
    Asked {
        settings: settings_bytes(&s),
        records: records(rng, &s, &starts, cap),
        z,
        above,
        day,
        reply: one_of(&[32, 32, 33, 34, 100], rng),
    }
}

/// Records of which so many count on a day, most often as many as the cap or one more, and others.
fn records(rng: &mut Rng, s: &Settings, starts: &Starts, cap: i64) -> Vec<u8> {
    if rng.chance(3) {
        return Vec::new();
    }
    let [seconds, firsts] = [0, 1].map(|_| match rng.range(0, 19) {
        0..=5 => cap,
        6..=11 => cap + 1,
        12..=14 => rng.range(0, 3),
        15..=18 => rng.range(12, 25),
        _ => rng.range(250, 260),
    });
    let mut list: Vec<Vec<u8>> = Vec::new();
    // Some count by one magnitude only.
    let counted = rng.range(seconds.max(firsts), seconds + firsts);
    for j in 0..counted {
        let start = starts.within(rng);
        let enough = [j < seconds, j >= counted - firsts];
        list.push(record(rng, s, 4, starts, start, enough));
    }
    for _ in 0..rng.range(0, 8) {
        let (kind, start, enough) = match rng.range(0, 3) {
            0 => (4, starts.within(rng), [false; 2]),
            1 => (rng.range(1, 3) as u8, starts.within(rng), [true; 2]),
            _ => (4, starts.without(rng), [true, rng.chance(50)]),
        };
        let at = rng.range(0, list.len() as i64) as usize;
        list.insert(at, record(rng, s, kind, starts, start, enough));
    }
    list.concat()
}

/// A record, great enough in its second and in its first magnitude or not. Its mark and its two
/// bytes of zero are anything, and it may end on another day.
fn record(
    rng: &mut Rng,
    s: &Settings,
    kind: u8,
    starts: &Starts,
    start: u64,
    enough: [bool; 2],
) -> Vec<u8> {
    let to_next = (starts.to + 1 - start as i128).clamp(0, LAST) as u64;
    let short = rng.range(1, 300) as u64;
    let [second, first] = [0, 1].map(|which| magnitude(rng, s, which, enough[which]));
    let entry = Entry {
        kind,
        mark: one_of(&[0, 0, 0, 1, 1, 2, 255], rng),
        zeros: one_of(&[[0; 2], [0; 2], [0; 2], [1, 0], [0, 1], [255; 2]], rng),
        start,
        duration: one_of(&[1, short, to_next, to_next, rng.next(), rng.next() >> 32], rng),
        first,
        second,
    };
    entry.bytes()
}

/// A second (0) or first (1) magnitude that is great enough or not, most often next to the limit.
fn magnitude(rng: &mut Rng, s: &Settings, which: usize, enough: bool) -> u32 {
    let least = least(s)[which];
    // The least that would be enough if the percentage of U were rounded to a sixteenth.
    let rounded = |up| rounded(s, [3, 5][which], up) + which as i64;
    let most = u32::MAX as i64;
    let list = if enough {
        [least, least, rounded(true) - 1, WRAPS, s.n * TOP, most, rng.range(least, 2 * least)]
    } else {
        [least - 1, least - 1, least - 2, rounded(false), 0, 1, rng.range(0, least - 1)]
    };
    let fits = |x: &i64| (0..=most).contains(x) && (*x >= least) == enough;
    one_of(&list.into_iter().filter(fits).collect::<Vec<i64>>(), rng) as u32
}

/// Puts in one thing that is refused; settings that are made to be refused are sometimes good.
fn spoil(rng: &mut Rng, x: &mut Asked) {
    match rng.range(0, 4) {
        0 => x.settings = waves::bad_settings(rng),
        1 => {
            let days = [8_640_000, 8_640_000, 10_368_000, 10_368_000, 10_368_001];
            let far = [1 << 32, (1 << 32) + 1, 1 << 63, u64::MAX, u64::MAX, rng.next()];
            x.z = one_of(&[&days[..], &far].concat(), rng);
        }
        2 => {
            let most = RECORD as i64 - 1;
            let bytes = one_of(&[1, most, rng.range(1, most)], rng) as usize;
            if rng.chance(50) {
                x.records.push(one_of(&[0, 1, 4, 5, 255], rng));
                x.records.extend(vec![0; bytes - 1]);
            } else {
                x.records.truncate(x.records.len().saturating_sub(bytes));
            }
        }
        3 => {
            if x.records.len() < RECORD {
                x.records = vec![0; RECORD];
            }
            let last = (x.records.len() / RECORD) as i64 - 1;
            let at = one_of(&[0, last, rng.range(0, last)], rng) as usize;
            x.records[RECORD * at] = one_of(&[0, 5, 255, rng.range(5, 255) as u8], rng);
        }
        _ => x.reply = one_of(&[0, 1, 24, 31, 31], rng),
    }
}

/// A recording's records. The start of one of them is on the first half-cycle of day 1, or on the
/// last one of day 0.
fn recorded(rng: &mut Rng) -> Asked {
    let s = waves::settings(rng);
    let halves = rng.range(2 * s.n, if s.m <= 40 { 7 * s.n } else { 3 * s.n });
    let samples = waves::bytes(&clips::wave(rng, &s, halves));
    let mut logger = Logger::start(&settings_bytes(&s)).unwrap();
    // A value has four records at most.
    let mut records = vec![0; 4 * RECORD * halves as usize];
    let fed = logger.feed(samples.as_chunks::<2>().0, &mut records);
    records.truncate(RECORD * fed.written as usize);
    let starts: Vec<u64> = records.chunks_exact(RECORD).map(|x| Entry::of(x).start).collect();
    let start = if starts.is_empty() { 1 } else { one_of(&starts, rng) };
    Asked {
        settings: settings_bytes(&s),
        records,
        z: day_length(&s) - start - rng.range(0, 1) as u64,
        above: rng.range(0, 1) as u32,
        day: rng.range(0, 1) as u64,
        reply: 32,
    }
}
