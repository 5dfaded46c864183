//! Random settings and recordings of three phases: events that go from channel to channel, values on
//! limits in single channels, changes that begin in one channel and end in another, exactly at the
//! limits or just outside, dips and swells about the first value of a change, and clipped samples in
//! one channel where a mark begins and ends to count.

use super::engineer::readings;
use super::CHANNELS;
use crate::readings::{energy, Record};
use crate::rng::{one_of, Rng};
use crate::rules::{self, Settings, TOP};
use crate::{clips, waves};

/// A value to aim at in each channel.
type Levels = [i64; CHANNELS];

/// Settings; most often such that limits can be met exactly.
pub fn settings(rng: &mut Rng) -> Settings {
    let any = waves::settings(rng);
    if rng.chance(10) {
        return any;
    }
    // A step of x sixteenths is exactly at limit t if 10,000 × (N − 1) × x = t × N × U.
    let unit = any.n - 1;
    let units = rng.range(2, 600 / unit);
    let t = unit * units;
    let met = unit * rng.range(1, units - 1);
    let h = one_of(&[met, met, met, met, met, 0, t / 2, t - 1], rng);
    let m = if any.m > 16 && rng.chance(80) { 8 } else { any.m };
    let g = one_of(&[0, 100, 200, 200, 500], rng);
    let w = one_of(&[11_000, 11_200], rng);
    let (u, i) = if rng.chance(75) {
        // High enough for clipped samples in every kind of event.
        (400_000, one_of(&[8000, 7000, 8500 - g], rng))
    } else {
        let low = if any.n == 100 { 1600 } else { 4000 };
        (one_of(&[low, 2000, 16_000, 40_000, 160_000], rng), one_of(&[500, 1000, 5000], rng))
    };
    let s = Settings { m, t, h, u, i, d: 9000, w, g, ..any };
    assert_eq!(rules::settings(&rules::settings_bytes(&s)), Ok(s));
    s
}

/// Settings bytes that start refuses with this number.
pub fn refused(rng: &mut Rng, number: u32) -> Vec<u8> {
    loop {
        let bytes = waves::bad_settings(rng);
        if rules::settings(&bytes) == Err(number) {
            return bytes;
        }
    }
}

/// Triples of about this many half-cycles, most often with clipped samples.
pub fn recording(rng: &mut Rng, s: &Settings, halves: i64) -> Vec<i16> {
    let levels = Scenes::make(rng, s, halves as usize).levels;
    let mut channels: [Vec<i16>; CHANNELS] = std::array::from_fn(|c| {
        let own: Vec<i64> = levels.iter().map(|x| x[c].clamp(0, TOP)).collect();
        if rng.chance(95) {
            exact(s, &own)
        } else {
            let style = rng.range(0, 4);
            let mut out = Vec::new();
            own.iter().for_each(|&r| waves::half(rng, s.m, r, style, &mut out));
            out
        }
    });
    clip(rng, s, &mut channels);
    together(&channels)
}

/// Three equal channels.
pub fn equal(one: &[i16]) -> Vec<i16> {
    one.iter().flat_map(|&x| [x; CHANNELS]).collect()
}

/// The channels' samples in turn.
fn together(channels: &[Vec<i16>; CHANNELS]) -> Vec<i16> {
    (0..channels[0].len()).flat_map(|j| channels.each_ref().map(|x| x[j])).collect()
}

/// Half-cycles whose values are these, exactly, unless a step is too great for that: then one value
/// lies between.
fn exact(s: &Settings, levels: &[i64]) -> Vec<i16> {
    let m = s.m;
    let top = m * 32_766 * 32_766;
    // In the middle between the least pairs of sums that give r and r + 1.
    let pair = |r: i64| m * (2 * r * r + 2 * r + 1) / 256;
    let mut out: Vec<i16> = Vec::new();
    let mut last = None;
    for &r in levels {
        let half = pair(r) / 2;
        let sum = match last.map(|last| pair(r) - last) {
            Some(other) if half / 2 <= other && other <= half + half / 2 => other,
            _ => half,
        };
        let mut samples = vec![0; m as usize];
        spread(&mut samples, sum.min(top));
        last = Some(energy(&samples));
        out.extend(samples);
    }
    out
}

/// Samples with this sum of squares, or a little less.
fn spread(samples: &mut [i16], sum: i64) {
    let share = sum / samples.len() as i64;
    clips::spread(samples, 0, share.isqrt() as i16, sum);
}

/// Clipped samples in single channels: most often where the mark of a joint record begins and ends
/// to count.
fn clip(rng: &mut Rng, s: &Settings, channels: &mut [Vec<i16>; CHANNELS]) {
    let whole = channels[0].len() as i64 / s.m;
    let halves: Vec<i64> = match rng.range(0, 9) {
        0..=1 => Vec::new(),
        2..=8 => {
            let mut records = readings(*s, channels).records();
            records.retain(|x| x.kind >= 3 || rng.chance(70));
            let about = |record: &Record, rng: &mut Rng| {
                // Before the first value, in it; in the last value, after it.
                let (first, last) = (record.start, record.last(s.n));
                one_of(&[first - 1, first, last + 1, last + 2], rng)
            };
            records.iter().map(|record| about(record, rng)).collect()
        }
        _ => (0..rng.range(1, 8)).map(|_| rng.range(1, whole.max(1))).collect(),
    };
    for half in halves {
        let c = rng.range(0, 2) as usize;
        clips::put(rng, s, &mut channels[c], half);
    }
}

/// So many hundredths of a percent of U.
fn part(s: &Settings, hundredths: i64) -> i64 {
    hundredths * s.u / 10_000
}

/// Where the channels are at first: at U, about it, or about a limit, so that an event stands in
/// some for long and a small step begins one in another.
fn homes(rng: &mut Rng, s: &Settings) -> Levels {
    let (middle, spread) = match rng.range(0, 15) {
        0..=6 => return [s.u; CHANNELS],
        7..=12 => (10_000, 200),
        13 => (s.d + s.g, s.g + s.t / 2),
        14 => (s.d, s.t / 2),
        _ => (s.w - s.g / 2, s.g + s.t / 2),
    };
    [0; CHANNELS].map(|_| part(s, middle + rng.range(-spread, spread)))
}

/// Values to aim at, put together from scenes.
struct Scenes<'a> {
    rng: &'a mut Rng,
    s: &'a Settings,
    levels: Vec<Levels>,
    /// Where each channel was at first, and where it rests now.
    home: Levels,
    base: Levels,
}

impl<'a> Scenes<'a> {
    /// Events alone in a short recording; in one that is long enough, mostly changes.
    fn make(rng: &'a mut Rng, s: &'a Settings, halves: usize) -> Scenes<'a> {
        let home = homes(rng, s);
        let mut x = Scenes { rng, s, levels: Vec::new(), home, base: home };
        let long = halves as i64 > 2 * s.n;
        let rest = if long { s.n + x.rng.range(0, 6) } else { x.rng.range(0, 4) };
        x.rest(rest);
        while x.levels.len() < halves {
            if long && x.rng.chance(75) {
                match x.rng.range(0, 9) {
                    0..=2 => x.edge(),
                    3 => x.held(),
                    _ => x.change(),
                }
                continue;
            }
            match x.rng.range(0, 9) {
                kind @ 1..=3 => x.events(kind),
                4 => x.anything(),
                5 => x.all_at_once(),
                6..=7 => x.handed_on(),
                _ => x.events(3),
            }
            if long {
                let halves = s.n + x.rng.range(-2, 6);
                x.rest(halves);
            }
        }
        // Most long ones go on to the end of their last scene.
        if !long || x.rng.chance(30) {
            x.levels.truncate(halves);
        }
        x
    }

    fn rest(&mut self, halves: i64) {
        self.levels.extend(vec![self.base; halves as usize]);
    }

    /// Values that begin an event of this kind, that leave it as it is, and that end it.
    fn begins(&mut self, kind: i64) -> i64 {
        let s = self.s;
        let [limit, any] = match kind {
            1 => [part(s, s.d) - 1, part(s, self.rng.range(s.i + s.g, s.d))],
            2 => [part(s, s.w) + 1, part(s, s.w + self.rng.range(0, 900))],
            _ => [part(s, s.i) - 1, part(s, self.rng.range(s.i / 2, s.i))],
        };
        one_of(&[limit, any], self.rng)
    }

    fn leaves(&mut self, kind: i64) -> i64 {
        let s = self.s;
        match kind {
            1 => one_of(&[part(s, s.d), part(s, s.d + s.g) - 1], self.rng),
            2 => one_of(&[part(s, s.w), part(s, s.w - s.g) + 1], self.rng),
            _ => one_of(&[part(s, s.i), part(s, s.i + s.g) - 1], self.rng),
        }
    }

    fn ends(&mut self, kind: i64, base: i64) -> i64 {
        let s = self.s;
        match kind {
            1 => one_of(&[part(s, s.d + s.g), base], self.rng),
            2 => one_of(&[part(s, s.w - s.g), base], self.rng),
            _ => one_of(&[part(s, s.i + s.g), part(s, s.i + s.g) + 1, base], self.rng),
        }
    }

    /// An event of this kind in one to three channels, one after the other or at one time, each with
    /// values on the limits before and after.
    fn events(&mut self, kind: i64) {
        let mut order = [0, 1, 2];
        order.rotate_left(self.rng.range(0, 2) as usize);
        if self.rng.chance(50) {
            order.swap(0, 1);
        }
        let many = if kind == 3 { one_of(&[3, 3, 3, 2], self.rng) } else { self.rng.range(1, 3) };
        let mut own: [Vec<i64>; CHANNELS] = Default::default();
        let mut from = 0;
        for &c in &order[..many as usize] {
            let base = self.base[c];
            let mut list = vec![base; from as usize];
            if self.rng.chance(40) {
                let level = self.leaves(kind);
                list.extend(vec![level; self.rng.range(1, 3) as usize]);
            }
            let level = self.begins(kind);
            let halves = if kind == 3 { self.rng.range(3, 12) } else { self.rng.range(2, 9) };
            list.extend(vec![level; halves as usize]);
            from = match kind {
                3 => self.rng.range(0, 6),
                _ => (list.len() as i64 + one_of(&[-3, -2, -1, 0, 1, 2], self.rng)).max(0),
            };
            for _ in 0..self.rng.range(0, 3) {
                let level = match self.rng.range(0, 3) {
                    0 => self.ends(kind, base),
                    1 => self.begins(kind),
                    _ => self.leaves(kind),
                };
                list.extend(vec![level; self.rng.range(1, 4) as usize]);
            }
            let level = self.ends(kind, base);
            list.extend(vec![level; self.rng.range(0, 3) as usize]);
            own[c] = list;
        }
        // Sometimes the opposite event, or the same once more, in a channel that has none.
        if many < 3 && self.rng.chance(40) {
            let level = one_of(&[self.begins(1), self.begins(2)], self.rng);
            own[order[2]] = vec![level; self.rng.range(2, 12) as usize];
        }
        self.lay(&own);
        let halves = self.rng.range(0, 3);
        self.rest(halves);
    }

    /// A dip or swell that goes on by a channel whose own has ended, or an interruption that begins
    /// where one channel's own went on and the others' stood already.
    fn handed_on(&mut self) {
        let kind = self.rng.range(1, 3);
        let [x, y, z] = one_of(&[[0, 1, 2], [2, 0, 1], [1, 2, 0], [2, 1, 0]], self.rng);
        let begins = self.begins(kind);
        let leaves = self.leaves(kind);
        let mut own = self.base.map(|base| vec![base; 24]);
        let away = self.rng.range(3, 6) as usize;
        own[x][2..16].fill(begins);
        own[y][2..16].fill(begins);
        own[y][4..4 + away].fill(leaves);
        if kind == 3 {
            own[z][7..16].fill(self.begins(kind));
            own[y][9..12].fill(leaves);
        } else {
            own[y][4..6].fill(self.ends(kind, self.base[y]));
            own[y][4 + away..16].fill(leaves);
            own[x][9..].fill(self.ends(kind, self.base[x]));
        }
        self.lay(&own);
    }

    /// The channels' own values at one time; what is missing is at rest.
    fn lay(&mut self, own: &[Vec<i64>; CHANNELS]) {
        let most = own.iter().map(|x| x.len()).max().unwrap();
        for j in 0..most {
            let at = |c: usize| own[c].get(j).copied().unwrap_or(self.base[c]);
            self.levels.push(std::array::from_fn(at));
        }
    }

    /// The channel's next step, of this size, homewards if it is far from home.
    fn step(&mut self, c: usize, size: i64) {
        let far = self.base[c] - self.home[c];
        let homewards = far.abs() > part(self.s, 400);
        let sign = if homewards { -far.signum() } else { one_of(&[-1, 1], self.rng) };
        self.base[c] += sign * size;
    }

    /// About the greatest step that is calm under this limit.
    fn calm(&mut self, t: i64) -> i64 {
        let s = self.s;
        t * s.n * s.u / (10_000 * (s.n - 1)) + one_of(&[-1, 0, 0, 0, 1], self.rng)
    }

    /// A step that most often begins a change.
    fn wide(&mut self) -> i64 {
        let least = self.calm(self.s.t);
        let more = self.rng.range(1, least.max(0) + 1);
        one_of(&[least, least + 1, least + more, 2 * least], self.rng)
    }

    /// Any step of about a limit's size.
    fn any(&mut self) -> i64 {
        let (t, h) = (self.s.t, self.s.h);
        match self.rng.range(0, 3) {
            0 => self.calm(t),
            1 => self.calm(t - h),
            2 => self.wide(),
            _ => self.rng.range(0, 2 * part(self.s, t)),
        }
    }

    /// Steps in one to three channels, at one time or up to N values apart, until all is calm again;
    /// sometimes with an event before or inside.
    fn change(&mut self) {
        let s = self.s;
        if self.rng.chance(5) {
            // An event that stands before the change.
            let (c, kind) = (self.rng.range(0, 2) as usize, one_of(&[1, 2], self.rng));
            let mut levels = self.base;
            levels[c] = self.begins(kind);
            self.levels.extend(vec![levels; self.rng.range(1, 3) as usize]);
        }
        let begun = self.levels.len();
        let first = self.rng.range(0, 2) as usize;
        let size = self.wide();
        self.step(first, size);
        // Whether the channel that is first has its next step where it can be steady again.
        let back = self.rng.chance(50);
        for _ in 0..one_of(&[0, 0, 1, 1, 2, 3], self.rng) {
            let n = s.n;
            let near = n + self.rng.range(0, 2);
            let apart = [0, 1, self.rng.range(1, 12), self.rng.range(1, n), near];
            let apart = one_of(&apart[..if back { 3 } else { 5 }], self.rng);
            self.rest(apart);
            let c = self.rng.range(0, 2) as usize;
            if !back || c != first {
                let size = self.any();
                self.step(c, size);
            }
        }
        if back {
            let so_far = (self.levels.len() - begun) as i64;
            let halves = s.n + one_of(&[0, 1, 1, 1, 1, 2], self.rng) - so_far;
            self.rest(halves.max(1));
            let size = self.calm(s.t - s.h);
            self.step(first, size);
        }
        let halves = s.n + one_of(&[0, 1, 2, 2, 2, 3, 5], self.rng);
        self.rest(halves);
        // Events in single channels inside; one value in the channel that was first holds the change
        // until that value has left the window.
        for _ in 0..one_of(&[0, 0, 0, 0, 0, 0, 1, 1, 2], self.rng) {
            let (c, kind) = (self.rng.range(0, 2) as usize, one_of(&[1, 2], self.rng));
            let level = one_of(&[self.begins(kind), self.leaves(kind)], self.rng);
            let length = self.levels.len();
            let from = self.rng.range(begun as i64, length as i64 - 1) as usize;
            let halves = one_of(&[1, 1, self.rng.range(1, 6)], self.rng) as usize;
            let c = if halves == 1 { first } else { c };
            let to = (from + halves).min(length);
            self.levels[from..to].iter_mut().for_each(|x| x[c] = level);
        }
    }

    /// A change from k to k + N + 1 in one channel, and a dip or swell by a small step in another, that
    /// first stands about k and k + 1, and sometimes ends soon.
    fn edge(&mut self) {
        let s = self.s;
        let c = self.rng.range(0, 2) as usize;
        let z = (c + self.rng.range(1, 2) as usize) % CHANNELS;
        let dip = (part(s, s.d), -1, part(s, s.d + s.g));
        let swell = (part(s, s.w), 1, part(s, s.w - s.g));
        let (limit, sign, ends) = one_of(&[dip, swell], self.rng);
        self.base[z] = limit;
        self.rest(s.n + 5);
        let (stand, end) = match self.rng.range(0, 9) {
            0..=2 => (-2, -1),
            3 => (-1, 0),
            4 => (-2, one_of(&[0, 1, s.n], self.rng)),
            _ => (one_of(&[-1, 0, 1, 1, 1, 2, 2], self.rng), s.n),
        };
        let size = self.wide() * self.rng.range(1, 2);
        for j in -2..s.n + 3 {
            if j == 0 {
                self.step(c, size);
            }
            if j == stand {
                self.base[z] = limit + sign;
            } else if j == end {
                self.base[z] = ends;
            }
            self.rest(1);
        }
        self.base[z] = self.home[z];
    }

    /// A joint dip or swell that a channel between its limits holds while no channel's own stands, until
    /// all are steady; then a change.
    fn held(&mut self) {
        let s = self.s;
        let kind = self.rng.range(1, 2);
        let x = self.rng.range(0, 2) as usize;
        let z = (x + self.rng.range(1, 2) as usize) % CHANNELS;
        self.base[z] = self.leaves(kind);
        let mut levels = self.base;
        levels[x] = self.begins(kind);
        self.levels.extend(vec![levels; self.rng.range(1, 3) as usize]);
        let halves = s.n + self.rng.range(3, 6);
        self.rest(halves);
        let (c, size) = (self.rng.range(0, 2) as usize, self.wide());
        self.step(c, size);
        self.rest(s.n + 3);
        self.base[z] = self.home[z];
    }

    /// Each channel for itself, on a limit or anywhere.
    fn anything(&mut self) {
        let s = self.s;
        let limits = [s.d, s.d + s.g, s.w, s.w - s.g, s.i, s.i + s.g, 10_000];
        for _ in 0..self.rng.range(1, 8) {
            let levels = [0; CHANNELS].map(|_| match self.rng.range(0, 5) {
                0 => self.rng.range(0, part(s, 14_000)),
                1 => one_of(&[0, TOP], self.rng),
                _ => part(s, one_of(&limits, self.rng)) + self.rng.range(-1, 1),
            });
            let levels = levels.map(|x| x.clamp(0, TOP));
            self.levels.extend(vec![levels; self.rng.range(1, 5) as usize]);
        }
    }

    /// The same event in all channels, that begins and ends everywhere at one time.
    fn all_at_once(&mut self) {
        let kind = self.rng.range(1, 3);
        let level = self.begins(kind);
        let halves = self.rng.range(2, 9);
        self.levels.extend(vec![[level; CHANNELS]; halves as usize]);
        self.rest(2);
    }
}
