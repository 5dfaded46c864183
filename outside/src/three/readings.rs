//! Everything that the paper reads from the recordings of three phases and the settings: each
//! channel's readings, by itself, and from them the joint events, signal and records. Nothing is
//! kept between readings.

use super::CHANNELS;
use crate::readings::{self, begins, event_records, Record};
use crate::rules::Settings;

/// The readings of three recordings of one length. Lists that are counted from 1 have an unused
/// place 0.
pub struct Readings<'a> {
    s: Settings,
    channels: [readings::Readings<'a>; CHANNELS],
    dip: Vec<bool>,
    swell: Vec<bool>,
    interruption: Vec<bool>,
    signal: Vec<bool>,
}

impl<'a> Readings<'a> {
    pub fn of(s: Settings, recordings: [&'a [i16]; CHANNELS]) -> Self {
        let channels = recordings.map(|x| readings::Readings::of(s, x));
        let v = channels[0].v();
        assert!(channels.iter().all(|x| x.v() == v), "the channels have one length");
        // Whether all channels, or one of them, have 10,000 × r(i) as asked.
        let all = |i: i64, asked: &dyn Fn(i64) -> bool| {
            channels.iter().all(|channel| asked(10_000 * channel.r(i)))
        };
        let any = |i: i64, asked: &dyn Fn(i64) -> bool| {
            channels.iter().any(|channel| asked(10_000 * channel.r(i)))
        };
        let (d, w, i) = (s.d * s.u, s.w * s.u, s.i * s.u);
        let g = s.g * s.u;
        let dip = stands(v, |j| any(j, &|r| r < d), |j| all(j, &|r| r >= d + g));
        let swell = stands(v, |j| any(j, &|r| r > w), |j| all(j, &|r| r <= w - g));
        let interruption = stands(v, |j| all(j, &|r| r < i), |j| any(j, &|r| r >= i + g));
        let signal = (0..=v).map(|i| channels.iter().all(|x| x.steady(i))).collect();
        Readings { s, channels, dip, swell, interruption, signal }
    }

    /// Each channel by itself.
    pub fn channels(&self) -> &[readings::Readings<'a>; CHANNELS] {
        &self.channels
    }

    pub fn settings(&self) -> Settings {
        self.s
    }

    /// V, which is each channel's.
    pub fn v(&self) -> i64 {
        self.channels[0].v()
    }

    /// The joint signal at i: each channel's own is true. False below N.
    pub fn steady(&self, i: i64) -> bool {
        self.signal[i as usize]
    }

    /// Whether one of the channels has a clipped value among those from a to z.
    pub fn any_clipped(&self, a: i64, z: i64) -> bool {
        self.channels.iter().any(|x| x.any_clipped(a, z))
    }

    /// Whether the joint signal turns false at k.
    fn turns_false(&self, k: i64) -> bool {
        self.steady(k - 1) && !self.steady(k)
    }

    /// Whether the joint dip (kind 1), swell (2) or interruption (3) stands after each value.
    pub fn stands(&self, kind: i64) -> &[bool] {
        match kind {
            1 => &self.dip,
            2 => &self.swell,
            _ => &self.interruption,
        }
    }

    /// Whether the joint dip or swell stands after i.
    pub fn dip_or_swell_stands(&self, i: i64) -> bool {
        self.dip[i as usize] || self.swell[i as usize]
    }

    /// Whether the joint dip or swell first stands at i.
    pub fn dip_or_swell_begins(&self, i: i64) -> bool {
        begins(&self.dip, i) || begins(&self.swell, i)
    }

    /// All records due, by due value and then by kind.
    pub fn records(&self) -> Vec<Record> {
        let mut list = Vec::new();
        for kind in 1..=3 {
            let clipped = |a, z| self.any_clipped(a, z);
            list.extend(event_records(kind, self.stands(kind), clipped, |a, z| {
                let magnitudes = self.channels.iter().map(|x| x.magnitude(kind, a, z));
                if kind == 2 { magnitudes.max() } else { magnitudes.min() }.unwrap()
            }));
        }
        self.change_records(&mut list);
        list.sort_by_key(|x| (x.due, x.kind));
        list
    }

    /// All changes that have ended: k and m.
    pub fn changes(&self) -> Vec<(i64, i64)> {
        let v = self.v();
        let from = (self.s.n + 1..=v).filter(|&k| self.turns_false(k));
        from.filter_map(|k| Some((k, (k + 1..=v).find(|&m| self.steady(m))?))).collect()
    }

    /// Whether a change from k to m gives no record: the joint dip or swell stands at k − 1, or first
    /// stands in it.
    pub fn dropped(&self, k: i64, m: i64) -> bool {
        self.dip_or_swell_stands(k - 1) || self.begins_in(k, m)
    }

    /// Whether the joint dip or swell first stands in a change from k to m: at some value from k to
    /// m − N.
    pub fn begins_in(&self, k: i64, m: i64) -> bool {
        (k..=m - self.s.n).any(|j| self.dip_or_swell_begins(j))
    }

    /// The two magnitudes of a change in each channel, against its own sum at k − 1.
    pub fn differences(&self, k: i64, m: i64) -> [[i64; 2]; CHANNELS] {
        std::array::from_fn(|c| {
            let x = &self.channels[c];
            [x.greatest_difference(k, m - self.s.n), (x.a(m) - x.a(k - 1)).abs()]
        })
    }

    fn change_records(&self, list: &mut Vec<Record>) {
        let n = self.s.n;
        for (k, m) in self.changes() {
            if self.dropped(k, m) {
                continue;
            }
            let differences = self.differences(k, m);
            list.push(Record {
                due: m,
                kind: 4,
                clipped: self.any_clipped(k, m - n),
                start: k,
                duration: m - n - k,
                first: differences.iter().map(|x| x[0]).max().unwrap(),
                second: differences.iter().map(|x| x[1]).max().unwrap(),
            });
        }
    }

    /// The joint phase: 0 fewer than N values, 1 never yet steady, 2 steady, 3 in a change.
    pub fn phase(&self) -> i64 {
        let v = self.v();
        if v < self.s.n {
            0
        } else if self.steady(v) {
            2
        } else if (1..=v).any(|i| self.steady(i)) {
            3
        } else {
            1
        }
    }

    /// Whether the joint dip, swell and interruption stand after V.
    pub fn stand(&self) -> [bool; 3] {
        [1, 2, 3].map(|kind| self.stands(kind)[self.v() as usize])
    }
}

/// Whether an event stands after each value: it does from where it begins until it ends.
fn stands(v: i64, begins: impl Fn(i64) -> bool, ends: impl Fn(i64) -> bool) -> Vec<bool> {
    let mut list = vec![false];
    for i in 1..=v {
        list.push(if begins(i) {
            true
        } else if ends(i) {
            false
        } else {
            list[i as usize - 1]
        });
    }
    list
}
