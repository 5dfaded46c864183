//! Counts of what random recordings of three phases have shown.

use super::readings::Readings;
use super::CHANNELS;
use crate::program::Text;
use crate::readings::{begins, Readings as Own, Record};
use crate::seen::KINDS;
use crate::stands::Before;

/// What the marks of joint records have shown. Numbers for each kind of record have an unused place 0.
#[derive(Default)]
pub struct Marks {
    /// Records without the mark: the value before the start is clipped; the one after the last value
    /// of the first magnitude is.
    clipped_before: [u64; 5],
    clipped_after: [u64; 5],
    /// Records with the mark by their first value only, by their last value only, and by one channel
    /// only.
    by_first: [u64; 5],
    by_last: [u64; 5],
    by_one: [u64; 5],
}

impl Marks {
    /// The records of recordings.
    pub fn readings(&mut self, x: &Readings) {
        for record in x.records() {
            let kind = record.kind as usize;
            let (first, last) = (record.start, record.last(x.settings().n));
            if record.clipped {
                let marked = x.channels().iter().filter(|x| x.any_clipped(first, last)).count();
                self.by_first[kind] += !x.any_clipped(first + 1, last) as u64;
                self.by_last[kind] += !x.any_clipped(first, last - 1) as u64;
                self.by_one[kind] += (marked == 1) as u64;
            } else {
                let clipped = |i: i64| 1 <= i && i <= x.v() && x.any_clipped(i, i);
                self.clipped_before[kind] += clipped(first - 1) as u64;
                self.clipped_after[kind] += clipped(last + 1) as u64;
            }
        }
    }

    /// Every count under its name.
    pub fn counts(&self) -> Vec<(String, u64)> {
        let mut list = Vec::new();
        let mut add = |name: String, count: u64| list.push((name, count));
        for (kind, name) in KINDS {
            let name = format!("recording: {name}");
            add(format!("{name}, mark 0, clipped before its start"), self.clipped_before[kind]);
            add(format!("{name}, mark 0, clipped after its last value"), self.clipped_after[kind]);
            add(format!("{name}, mark 1 by its first value"), self.by_first[kind]);
            add(format!("{name}, mark 1 by its last value"), self.by_last[kind]);
            add(format!("{name}, mark 1 by one channel"), self.by_one[kind]);
        }
        list
    }
}

/// What joint dips and swells that stand before a joint change have shown.
#[derive(Default)]
pub struct Stands {
    /// The dip and the swell, where the other does not stand at k − 1 as well.
    before: [Before; 2],
    /// Changes that it drops by other channels' own than the channels that turn the signal; and by no
    /// channel's own.
    elsewhere: u64,
    no_own: u64,
}

impl Stands {
    /// The changes of recordings.
    pub fn readings(&mut self, x: &Readings) {
        for (k, m) in x.changes() {
            let dropped = x.dropped(k, m);
            let by_standing = dropped && !x.begins_in(k, m);
            let both = (0..2).all(|e| x.stands(KINDS[e].0 as i64)[k as usize - 1]);
            for (e, (kind, _)) in KINDS[..2].iter().enumerate() {
                let stands = x.stands(*kind as i64);
                if !dropped {
                    self.before[e].kept(k, stands);
                } else if by_standing && !both && stands[k as usize - 1] {
                    self.before[e].dropped(k, stands);
                    self.channels(x, *kind as i64, k);
                }
            }
        }
    }

    /// Of a change from k, the channels whose own event of this kind stands at k − 1.
    fn channels(&mut self, x: &Readings, kind: i64, k: i64) {
        let own = |x: &&Own| x.stands(kind)[k as usize - 1];
        let channels: Vec<&Own> = x.channels().iter().filter(own).collect();
        let elsewhere = channels.iter().all(|x| x.steady(k));
        self.no_own += channels.is_empty() as u64;
        self.elsewhere += (!channels.is_empty() && elsewhere) as u64;
    }

    /// Every count under its name.
    pub fn counts(&self) -> Vec<(String, u64)> {
        let kinds = self.before.iter().zip(KINDS);
        let mut list: Vec<_> = kinds.flat_map(|(before, (_, name))| before.counts(name)).collect();
        let mut add = |name: String, count: u64| list.push((name, count));
        add("change dropped by another channel's event at k - 1".into(), self.elsewhere);
        add("change dropped by no channel's own event at k - 1".into(), self.no_own);
        list
    }
}

/// What recordings and the inputs of the event program have shown. Numbers for each kind of record
/// have an unused place 0.
#[derive(Default)]
pub struct Seen {
    /// Records, by kind.
    records: [u64; 5],
    /// Events of which no channel's own has the same start, or the same end. (A dip or swell begins
    /// with a channel's own, and an interruption ends with one.)
    other_start: [u64; 5],
    other_end: [u64; 5],
    /// Events that go from channel to channel: no channel's own stands all along.
    wanders: [u64; 5],
    /// Values at which the joint event is not the union (the interruption: not the meet) of the
    /// channels' own.
    not_own: [u64; 5],
    /// Values at which the joint dip and swell both stand.
    dip_and_swell: u64,
    /// Values where the channel that decides, a dip's lowest, a swell's or an interruption's highest,
    /// is exactly on the limit in force: D, W, I where the event did not stand, D + G, W − G, I + G
    /// where it did.
    on_limits: [u64; 6],
    /// Windows whose furthest value is exactly at the limit in force: T, and T − H after k.
    at_limit: [u64; 2],
    /// Windows in a change that are calm under T, and not under T − H.
    between: u64,
    /// Changes that one channel begins and others end; whose magnitudes are of two channels; that a
    /// dip or swell drops.
    handed_on: u64,
    two_channels: u64,
    dropped: u64,
    /// Changes with a joint dip or swell that first stands at m − N, and there is none from k − 1 to
    /// there; and at some later value, which drops nothing.
    dropped_last: u64,
    later: u64,
    /// What joint dips and swells that stand before a change have shown.
    stands: Stands,
    /// Values that have two records or more.
    two_due: u64,
    /// Inputs, by the bytes of their last, incomplete triple; refusals, 1 to 6; events that had not
    /// ended; and the programs run.
    rest: [u64; 6],
    refusals: [u64; 7],
    not_ended: [u64; 5],
    pub programs: u64,
}

impl Seen {
    /// An input with this many bytes after the settings, and its text.
    pub fn input(&mut self, bytes: usize, text: &Text) {
        if let Some(number) = text.printed.strip_prefix("refused ") {
            self.refusals[number.trim().parse::<usize>().unwrap()] += 1;
            return;
        }
        self.rest[bytes % (2 * CHANNELS)] += 1;
        for (kind, name) in KINDS {
            self.not_ended[kind] += text.told.lines().any(|line| line.ends_with(name)) as u64;
        }
    }

    /// Recordings, whole ones.
    pub fn readings(&mut self, x: &Readings) {
        let records = x.records();
        for record in &records {
            self.record(x, record);
        }
        self.two_due += records.windows(2).filter(|x| x[0].due == x[1].due).count() as u64;
        self.events(x);
        self.changes(x);
        self.stands.readings(x);
        self.limits(x);
    }

    fn record(&mut self, x: &Readings, record: &Record) {
        let kind = record.kind as usize;
        let first = record.start;
        self.records[kind] += 1;
        if kind < 4 {
            let own = x.channels().each_ref().map(|x| x.stands(record.kind));
            let ends = |own: &[bool]| !own[record.due as usize] && own[record.due as usize - 1];
            let all = |own: &[bool]| (first..record.due).all(|i| own[i as usize]);
            self.other_start[kind] += !own.iter().any(|x| begins(x, first)) as u64;
            self.other_end[kind] += !own.iter().any(|x| ends(x)) as u64;
            self.wanders[kind] += !own.iter().any(|x| all(x)) as u64;
        }
    }

    fn events(&mut self, x: &Readings) {
        for i in 1..=x.v() as usize {
            for kind in 1..=3 {
                let own = x.channels().each_ref().map(|x| x.stands(kind)[i]);
                let by_own = if kind == 3 { own == [true; 3] } else { own.contains(&true) };
                self.not_own[kind as usize] += (x.stands(kind)[i] != by_own) as u64;
            }
            self.dip_and_swell += (x.stands(1)[i] && x.stands(2)[i]) as u64;
        }
    }

    fn changes(&mut self, x: &Readings) {
        let n = x.settings().n;
        for (k, m) in x.changes() {
            let off = |i: i64| x.channels().each_ref().map(|x| !x.steady(i));
            let both = off(k).into_iter().zip(off(m - 1)).any(|x| x == (true, true));
            self.handed_on += !both as u64;
            let differences = x.differences(k, m);
            let worst = [0, 1].map(|j| differences.iter().map(|x| x[j]).max().unwrap());
            self.two_channels += !differences.contains(&worst) as u64;
            let dropped = x.dropped(k, m);
            let joint = |i: i64| x.dip_or_swell_begins(i);
            let before = x.dip_or_swell_stands(k - 1) || (k..m - n).any(joint);
            self.dropped_last += (joint(m - n) && !before) as u64;
            self.later += (!dropped && (m - n + 1..=m).any(joint)) as u64;
            self.dropped += dropped as u64;
        }
    }

    fn limits(&mut self, x: &Readings) {
        let s = x.settings();
        for i in 1..=x.v() {
            let values = x.channels().each_ref().map(|x| x.r(i));
            let (low, high) =
                (values.into_iter().min().unwrap(), values.into_iter().max().unwrap());
            let stood = [1, 2, 3].map(|kind| x.stands(kind)[i as usize - 1]);
            let decides = [
                (!stood[0], low, s.d),
                (stood[0], low, s.d + s.g),
                (!stood[1], high, s.w),
                (stood[1], high, s.w - s.g),
                (!stood[2], high, s.i),
                (stood[2], high, s.i + s.g),
            ];
            for (count, (asked, r, limit)) in self.on_limits.iter_mut().zip(decides) {
                *count += (asked && 10_000 * r == limit * s.u) as u64;
            }
        }
        for channel in x.channels() {
            // The value at which the signal last turned false, while it is false.
            let mut k = None;
            for i in s.n..=x.v() {
                let a = channel.a(i);
                let furthest = (i - s.n + 1..=i).map(|j| (s.n * channel.r(j) - a).abs()).max();
                let at = |t: i64| (10_000 * furthest.unwrap()).cmp(&(t * s.n * s.u));
                match k {
                    None => self.at_limit[0] += at(s.t).is_eq() as u64,
                    Some(k) if i > k + s.n => {
                        self.at_limit[1] += (s.h > 0 && at(s.t - s.h).is_eq()) as u64;
                        self.between += (at(s.t).is_le() && at(s.t - s.h).is_gt()) as u64;
                    }
                    Some(_) => {}
                }
                if channel.steady(i) {
                    k = None;
                } else if channel.steady(i - 1) {
                    k = Some(i);
                }
            }
        }
    }

    /// Every count under its name.
    pub fn counts(&self) -> Vec<(String, u64)> {
        let mut list = Vec::new();
        let mut add = |name: String, count: u64| list.push((format!("three: {name}"), count));
        for (kind, name) in KINDS {
            add(format!("record {name}"), self.records[kind]);
            add(format!("{name} not ended"), self.not_ended[kind]);
        }
        for (kind, name) in &KINDS[..3] {
            add(format!("{name} where the channels' own are otherwise"), self.not_own[*kind]);
        }
        add("dip that goes from channel to channel".into(), self.wanders[1]);
        add("swell that goes from channel to channel".into(), self.wanders[2]);
        add("dip that no channel's own ends with".into(), self.other_end[1]);
        add("swell that no channel's own ends with".into(), self.other_end[2]);
        add("interruption that no channel's own begins with".into(), self.other_start[3]);
        add("dip and swell stand".into(), self.dip_and_swell);
        let limits = ["D", "D + G", "W", "W - G", "I", "I + G"];
        for (name, count) in limits.iter().zip(self.on_limits) {
            add(format!("joint value at {name}"), count);
        }
        add("window at T".into(), self.at_limit[0]);
        add("window at T - H".into(), self.at_limit[1]);
        add("window between T - H and T in a change".into(), self.between);
        add("change that another channel ends".into(), self.handed_on);
        add("change with magnitudes of two channels".into(), self.two_channels);
        add("change dropped".into(), self.dropped);
        add("change dropped by an event at m - N".into(), self.dropped_last);
        add("change not dropped by an event after m - N".into(), self.later);
        for (name, count) in self.stands.counts() {
            add(name, count);
        }
        add("two records at one value".into(), self.two_due);
        for (bytes, count) in self.rest.into_iter().enumerate() {
            add(format!("{bytes} bytes of a last triple"), count);
        }
        for number in 1..=6 {
            add(format!("refused {number}"), self.refusals[number]);
        }
        list
    }
}
