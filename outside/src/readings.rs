//! Everything that the paper reads from a recording and the settings: values, which of them are
//! clipped, standing events, the steady signal, records with their due values, the image. Nothing is
//! kept between readings.

use crate::editions::{Edition, THIS};
use crate::rules::{settings_bytes, Settings, TOP};

/// A record and the value at which it is due.
#[derive(Clone, Copy, Debug, PartialEq, Eq)]
pub struct Record {
    pub due: i64,
    pub kind: i64,
    /// Whether a value of the first magnitude is clipped.
    pub clipped: bool,
    pub start: i64,
    pub duration: i64,
    pub first: i64,
    pub second: i64,
}

impl Record {
    /// The last value of the first magnitude: b − 1, or m − N of a change.
    pub fn last(&self, n: i64) -> i64 {
        if self.kind == 4 {
            self.due - n
        } else {
            self.due - 1
        }
    }

    /// The 28 bytes.
    pub fn bytes(&self) -> Vec<u8> {
        self.bytes_in(&THIS)
    }

    /// The bytes in an edition.
    pub fn bytes_in(&self, edition: &Edition) -> Vec<u8> {
        let mut b = vec![self.kind as u8, self.clipped as u8, 0, 0];
        put(&mut b, edition.count, self.start);
        put(&mut b, edition.count, self.duration);
        put(&mut b, 4, self.first);
        put(&mut b, 4, self.second);
        assert_eq!(b.len(), edition.record);
        b
    }
}

/// The readings of one recording. Lists that are counted from 1 have an unused place 0.
pub struct Readings<'a> {
    s: Settings,
    recording: &'a [i16],
    r: Vec<i64>,
    clipped: Vec<bool>,
    dip: Vec<bool>,
    swell: Vec<bool>,
    interruption: Vec<bool>,
    signal: Vec<bool>,
}

impl<'a> Readings<'a> {
    pub fn of(s: Settings, recording: &'a [i16]) -> Self {
        let r = values(&s, recording);
        let dip = stands_below(&s, s.d, &r);
        let interruption = stands_below(&s, s.i, &r);
        let swell = stands_above(&s, &r);
        let clipped = clipped_values(&s, recording);
        let signal = Vec::new();
        let mut x = Readings { s, recording, r, clipped, dip, swell, interruption, signal };
        x.read_signal();
        x
    }

    pub fn n(&self) -> i64 {
        self.s.n
    }

    /// The samples of values a to z.
    pub fn samples(&self, a: i64, z: i64) -> &[i16] {
        &self.recording[((a - 1) * self.s.m) as usize..((z + 1) * self.s.m) as usize]
    }

    /// V.
    pub fn v(&self) -> i64 {
        self.r.len() as i64 - 1
    }

    /// r(i).
    pub fn r(&self, i: i64) -> i64 {
        self.r[i as usize]
    }

    /// Whether value i is clipped.
    pub fn clipped(&self, i: i64) -> bool {
        self.clipped[i as usize]
    }

    /// Whether one of the values from a to z is clipped.
    pub fn any_clipped(&self, a: i64, z: i64) -> bool {
        (a..=z).any(|j| self.clipped(j))
    }

    /// The steady signal at i; false below N.
    pub fn steady(&self, i: i64) -> bool {
        self.signal[i as usize]
    }

    /// Whether the dip (kind 1), the swell (2) or the interruption (3) stands after each value.
    pub fn stands(&self, kind: i64) -> &[bool] {
        match kind {
            1 => &self.dip,
            2 => &self.swell,
            _ => &self.interruption,
        }
    }

    /// A(i), for i of at least N.
    pub fn a(&self, i: i64) -> i64 {
        (i - self.s.n + 1..=i).map(|j| self.r(j)).sum()
    }

    /// Whether the voltage is calm at i under limit t.
    fn calm(&self, i: i64, t: i64) -> bool {
        let n = self.s.n;
        let a = self.a(i);
        (i - n + 1..=i).all(|j| 10_000 * (n * self.r(j) - a).abs() <= t * n * self.s.u)
    }

    /// The steady signal at every value; false where it is not defined, below N.
    fn read_signal(&mut self) {
        let n = self.s.n;
        self.signal = vec![false; self.r.len()];
        for i in n..=self.v() {
            let was_true = i > n && self.signal[(i - 1) as usize];
            let now = if i == n || was_true {
                self.calm(i, self.s.t)
            } else {
                match self.turned_false(i - 1) {
                    None => self.calm(i, self.s.t),
                    Some(k) if i <= k + n => false,
                    Some(_) => self.calm(i, self.s.t - self.s.h),
                }
            };
            self.signal[i as usize] = now;
        }
    }

    /// The value, up to i, at which the signal last turned false; none if it was never true.
    fn turned_false(&self, i: i64) -> Option<i64> {
        (self.s.n + 1..=i).rev().find(|&k| self.turns_false(k))
    }

    fn turns_false(&self, k: i64) -> bool {
        self.signal[(k - 1) as usize] && !self.signal[k as usize]
    }

    /// Whether a dip or a swell stands after i.
    pub fn dip_or_swell_stands(&self, i: i64) -> bool {
        self.dip[i as usize] || self.swell[i as usize]
    }

    /// Whether a dip or a swell first stands at i.
    pub fn dip_or_swell_begins(&self, i: i64) -> bool {
        begins(&self.dip, i) || begins(&self.swell, i)
    }

    /// Greatest |N × r(j) − A(k − 1)| for j from k to `to`, 0 if there is none.
    pub fn greatest_difference(&self, k: i64, to: i64) -> i64 {
        let before = self.a(k - 1);
        (k..=to).map(|j| (self.s.n * self.r(j) - before).abs()).max().unwrap_or(0)
    }

    /// All records due, by due value and then by kind.
    pub fn records(&self) -> Vec<Record> {
        let mut list = Vec::new();
        for (kind, stands) in [(1, &self.dip), (2, &self.swell), (3, &self.interruption)] {
            let clipped = |a, z| self.any_clipped(a, z);
            list.extend(event_records(kind, stands, clipped, |a, z| self.magnitude(kind, a, z)));
        }
        let changes = self.changes().into_iter().filter(|&(k, m)| !self.dropped(k, m));
        list.extend(changes.map(|(k, m)| self.change_record(k, m)));
        list.sort_by_key(|x| (x.due, x.kind));
        list
    }

    /// The least, or for a swell the greatest, r of a to z.
    pub fn magnitude(&self, kind: i64, a: i64, z: i64) -> i64 {
        let r = (a..=z).map(|j| self.r(j));
        if kind == 2 {
            r.max().unwrap()
        } else {
            r.min().unwrap()
        }
    }

    /// All changes that have ended: k and m.
    pub fn changes(&self) -> Vec<(i64, i64)> {
        let v = self.v();
        let from = (self.s.n + 1..=v).filter(|&k| self.turns_false(k));
        from.filter_map(|k| {
            let m = (k + 1..=v).find(|&m| self.signal[m as usize])?;
            Some((k, m))
        })
        .collect()
    }

    /// Whether a change from k to m gives no record: a dip or swell stands at k − 1, or first stands
    /// in it.
    pub fn dropped(&self, k: i64, m: i64) -> bool {
        self.dip_or_swell_stands(k - 1) || self.begins_in(k, m)
    }

    /// Whether a dip or swell first stands in a change from k to m: at some value from k to m − N.
    pub fn begins_in(&self, k: i64, m: i64) -> bool {
        (k..=m - self.s.n).any(|j| self.dip_or_swell_begins(j))
    }

    /// The record of a change from k to m that is not dropped.
    pub fn change_record(&self, k: i64, m: i64) -> Record {
        let n = self.s.n;
        Record {
            due: m,
            kind: 4,
            clipped: self.any_clipped(k, m - n),
            start: k,
            duration: m - n - k,
            first: self.greatest_difference(k, m - n),
            second: (self.a(m) - self.a(k - 1)).abs(),
        }
    }

    /// The phase: 0 fewer than N values, 1 never yet steady, 2 steady, 3 in a change.
    pub fn phase(&self) -> i64 {
        let v = self.v();
        if v < self.s.n {
            0
        } else if self.signal[v as usize] {
            2
        } else if self.turned_false(v).is_some() {
            3
        } else {
            1
        }
    }

    /// Whether a dip, a swell and an interruption stand after V.
    pub fn stand(&self) -> [bool; 3] {
        let v = self.v() as usize;
        [self.dip[v], self.swell[v], self.interruption[v]]
    }

    /// Where a dip, swell or interruption that stands after V first stood; 0 if none stands.
    fn standing_since(&self, stands: &[bool]) -> i64 {
        let v = self.v();
        if !stands[v as usize] {
            return 0;
        }
        (1..=v).rev().find(|&a| begins(stands, a)).unwrap()
    }

    /// The k of a change in progress.
    fn change_since(&self) -> Option<i64> {
        if self.phase() == 3 {
            self.turned_false(self.v())
        } else {
            None
        }
    }

    /// The first value from k on at which a dip or swell first stands, 0 if none.
    pub fn first_stand(&self, k: i64) -> i64 {
        (k..=self.v()).find(|&j| self.dip_or_swell_begins(j)).unwrap_or(0)
    }

    /// The image.
    pub fn image(&self) -> Vec<u8> {
        self.image_in(&THIS)
    }

    /// The image in an edition.
    pub fn image_in(&self, edition: &Edition) -> Vec<u8> {
        let mut b = (edition.table)();
        b.extend(settings_bytes(&self.s));
        self.gatherer_body(&mut b);
        self.values_body(edition.count, &mut b);
        self.events_body(edition.count, &mut b);
        assert_eq!(b.len(), edition.image);
        b
    }

    fn gatherer_body(&self, b: &mut Vec<u8>) {
        let m = self.s.m as usize;
        let whole = self.recording.len() / m;
        let in_progress = &self.recording[whole * m..];
        let last = if whole > 0 { &self.recording[(whole - 1) * m..whole * m] } else { &[] };
        put(b, 4, in_progress.len() as i64);
        put(b, 8, energy(in_progress));
        put(b, 8, energy(last));
        put(b, 4, (whole > 0) as i64);
        put(b, 4, has_clipped(in_progress) as i64);
        put(b, 4, has_clipped(last) as i64);
    }

    /// With so many bytes for a number that counts values, as in the next body.
    fn values_body(&self, count: usize, b: &mut Vec<u8>) {
        let v = self.v();
        let used = v.min(self.s.n);
        let unused = (120 - used) as usize;
        put(b, count, v);
        for j in v - used + 1..=v {
            put(b, 4, self.r(j));
        }
        b.extend(vec![0; 4 * unused]);
        for j in v - used + 1..=v {
            b.push(self.clipped(j) as u8);
        }
        b.extend(vec![0; unused]);
    }

    fn events_body(&self, count: usize, b: &mut Vec<u8>) {
        let v = self.v();
        // The last value that has left the window.
        let left = v - self.s.n;
        let events = [(1, &self.dip), (2, &self.swell), (3, &self.interruption)];
        let events = events.map(|(kind, stands)| (kind, self.standing_since(stands)));

        put(b, 4, self.phase());
        let (k, before, greatest, stand) = match self.change_since() {
            None => (0, 0, 0, 0),
            // One that stood at k − 1 is held as k, also where another first stands later.
            Some(k) => {
                let stood = self.dip_or_swell_stands(k - 1);
                let stand = if stood { k } else { self.first_stand(k) };
                (k, self.a(k - 1), self.greatest_difference(k, left), stand)
            }
        };
        put(b, count, k);
        put(b, 4, before);
        put(b, 4, greatest);
        put(b, count, stand);
        for (kind, start) in events {
            put(b, count, start);
            put(b, 4, if start > 0 { self.magnitude(kind, start, v) } else { 0 });
        }
        for (_, start) in events {
            put(b, 4, (start > 0 && self.any_clipped(start, v)) as i64);
        }
        put(b, 4, self.change_since().is_some_and(|k| self.any_clipped(k, left)) as i64);
    }
}

/// Puts a number behind the bytes, in so many.
fn put(b: &mut Vec<u8>, width: usize, x: i64) {
    b.extend(&x.to_le_bytes()[..width]);
}

/// Whether a sample is clipped: it stands at one of the converter's two ends.
pub fn is_clipped(sample: i16) -> bool {
    sample == -32_768 || sample == 32_767
}

/// Whether one of the samples is.
pub fn has_clipped(samples: &[i16]) -> bool {
    samples.iter().any(|&s| is_clipped(s))
}

/// The sum of squares of samples.
pub fn energy(samples: &[i16]) -> i64 {
    samples.iter().map(|&s| s as i64 * s as i64).sum()
}

/// The greatest whole number x with x² × 2 × M ≤ 256 × pair, found by halving.
pub fn root(m: i64, pair: i64) -> i64 {
    let (mut low, mut high) = (0, TOP + 1);
    while high - low > 1 {
        let x = (low + high) / 2;
        if x * x * 2 * m <= 256 * pair {
            low = x;
        } else {
            high = x;
        }
    }
    low
}

/// All values; place 0 is unused.
fn values(s: &Settings, recording: &[i16]) -> Vec<i64> {
    let m = s.m as usize;
    let e = |h: usize| energy(&recording[(h - 1) * m..h * m]);
    let whole = recording.len() / m;
    let mut r = vec![0];
    for i in 1..whole {
        r.push(root(s.m, e(i) + e(i + 1)));
    }
    r
}

/// Whether each value is clipped: whether one of the samples of its two half-cycles is. Place 0 is
/// unused.
fn clipped_values(s: &Settings, recording: &[i16]) -> Vec<bool> {
    let m = s.m as usize;
    let mut clipped = vec![false];
    for i in 1..recording.len() / m {
        clipped.push(has_clipped(&recording[(i - 1) * m..(i + 1) * m]));
    }
    clipped
}

/// Whether a dip (level D) or an interruption (level I) stands after each value.
fn stands_below(s: &Settings, level: i64, r: &[i64]) -> Vec<bool> {
    let mut stands = vec![false];
    for i in 1..r.len() {
        stands.push(if 10_000 * r[i] < level * s.u {
            true
        } else if 10_000 * r[i] >= (level + s.g) * s.u {
            false
        } else {
            stands[i - 1]
        });
    }
    stands
}

/// Whether a swell stands after each value.
fn stands_above(s: &Settings, r: &[i64]) -> Vec<bool> {
    let mut stands = vec![false];
    for i in 1..r.len() {
        stands.push(if 10_000 * r[i] > s.w * s.u {
            true
        } else if 10_000 * r[i] <= (s.w - s.g) * s.u {
            false
        } else {
            stands[i - 1]
        });
    }
    stands
}

/// Whether an event first stands at i.
pub fn begins(stands: &[bool], i: i64) -> bool {
    stands[i as usize] && !stands[i as usize - 1]
}

/// The records of the events that have ended: mark and first magnitude are told of the first and
/// the last value at which each stands.
pub fn event_records(
    kind: i64,
    stands: &[bool],
    clipped: impl Fn(i64, i64) -> bool,
    magnitude: impl Fn(i64, i64) -> i64,
) -> Vec<Record> {
    let v = stands.len() as i64 - 1;
    let from = (1..=v).filter(|&a| begins(stands, a));
    from.filter_map(|a| {
        let b = (a + 1..=v).find(|&b| !stands[b as usize])?;
        Some(Record {
            due: b,
            kind,
            clipped: clipped(a, b - 1),
            start: a,
            duration: b - a,
            first: magnitude(a, b - 1),
            second: 0,
        })
    })
    .collect()
}
