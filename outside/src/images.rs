//! Images built directly: accepted ones, with or without a recording.

use crate::editions::{Edition, THIS};
use crate::engineer::Looked;
use crate::rng::{one_of, Rng};
use crate::rules::{eight, four, settings, settings_bytes, Settings, TOP};
use crate::waves::half;

/// The greatest number of 4 bytes, which is V's end in the earlier edition.
pub const FOUR_BYTES: u64 = 4_294_967_295;

/// The numbers of an image.
#[derive(Clone, Debug)]
pub struct Fields {
    pub s: Settings,
    pub count: u32,
    pub sum: u64,
    pub last: u64,
    /// 1 if there is a last half.
    pub whole: u32,
    /// The marks of the half in progress and of the last half.
    pub half_marks: [u32; 2],
    pub v: u64,
    pub places: [u32; 120],
    pub place_marks: [u8; 120],
    pub phase: u32,
    /// k, A(k − 1), greatest difference, first stand, which is k for one that stood at k − 1.
    pub change: [u64; 4],
    /// Start and magnitude of the dip, swell, interruption.
    pub events: [u64; 6],
    /// The marks of the dip, swell, interruption, and of the change.
    pub event_marks: [u32; 4],
}

impl Fields {
    pub fn fresh(s: Settings) -> Fields {
        Fields {
            s,
            count: 0,
            sum: 0,
            last: 0,
            whole: 0,
            half_marks: [0; 2],
            v: 0,
            places: [0; 120],
            place_marks: [0; 120],
            phase: 0,
            change: [0; 4],
            events: [0; 6],
            event_marks: [0; 4],
        }
    }

    /// The numbers of an image with good settings.
    pub fn of(b: &[u8]) -> Fields {
        Fields::of_in(&THIS, b)
    }

    /// The numbers of an edition's image with good settings.
    pub fn of_in(edition: &Edition, b: &[u8]) -> Fields {
        // Places of V, of the values and of their marks; of the phase, of the dip and of its mark.
        let wide = edition.count;
        let (v, places, marks) = (100, 100 + wide, 580 + wide);
        let phase = 700 + wide;
        let dip = phase + 12 + 2 * wide;
        let dip_mark = dip + 3 * (wide + 4);
        let x = |at: usize| four(b, at) as u32;
        let count = |at: usize| if wide == 8 { eight(b, at) as u64 } else { x(at) as u64 };
        let k = phase + 4;
        Fields {
            s: settings(&b[32..68]).unwrap(),
            count: x(68),
            sum: eight(b, 72) as u64,
            last: eight(b, 80) as u64,
            whole: x(88),
            half_marks: [x(92), x(96)],
            v: count(v),
            places: std::array::from_fn(|j| x(places + 4 * j)),
            place_marks: std::array::from_fn(|j| b[marks + j]),
            phase: x(phase),
            change: [count(k), x(k + wide) as u64, x(k + wide + 4) as u64, count(k + wide + 8)],
            events: std::array::from_fn(|j| {
                let at = dip + j / 2 * (wide + 4);
                if j % 2 == 0 {
                    count(at)
                } else {
                    x(at + wide) as u64
                }
            }),
            event_marks: std::array::from_fn(|j| x(dip_mark + 4 * j)),
        }
    }

    pub fn bytes(&self) -> Vec<u8> {
        self.bytes_in(&THIS)
    }

    /// The image in an edition, in which every number must fit.
    pub fn bytes_in(&self, edition: &Edition) -> Vec<u8> {
        let mut b = (edition.table)();
        b.extend(settings_bytes(&self.s));
        let put = |b: &mut Vec<u8>, width: usize, x: u64| {
            assert!(width == 8 || x >> (8 * width) == 0, "{x} in {width} bytes");
            b.extend(&x.to_le_bytes()[..width]);
        };
        let fours = |b: &mut Vec<u8>, list: &[u32]| list.iter().for_each(|&x| put(b, 4, x as u64));
        let wide = edition.count;
        fours(&mut b, &[self.count]);
        put(&mut b, 8, self.sum);
        put(&mut b, 8, self.last);
        fours(&mut b, &[self.whole]);
        fours(&mut b, &self.half_marks);
        put(&mut b, wide, self.v);
        fours(&mut b, &self.places);
        b.extend(self.place_marks);
        fours(&mut b, &[self.phase]);
        let [k, before, greatest, stand] = self.change;
        for (width, x) in [(wide, k), (4, before), (4, greatest), (wide, stand)] {
            put(&mut b, width, x);
        }
        for (j, &x) in self.events.iter().enumerate() {
            put(&mut b, if j % 2 == 0 { wide } else { 4 }, x);
        }
        fours(&mut b, &self.event_marks);
        assert_eq!(b.len(), edition.image);
        b
    }

    /// How many of the places are used.
    pub fn used(&self) -> usize {
        self.v.min(self.s.n as u64) as usize
    }

    /// Whether values of a change have left the window.
    pub fn settled(&self) -> bool {
        self.phase == 3 && self.v >= self.change[0].saturating_add(self.s.n as u64)
    }

    /// What look tells of them.
    pub fn look(&self) -> Looked {
        let used = self.used();
        let sum: u64 = self.places.iter().map(|&r| r as u64).sum();
        Looked {
            v: self.v,
            r: if used > 0 { self.places[used - 1] as u64 } else { 0 },
            a: if used as i64 == self.s.n { sum } else { 0 },
            phase: self.phase as u64,
            stand: [0, 2, 4].map(|e| self.events[e] > 0),
        }
    }

    /// A copy with something changed.
    pub fn but(&self, change: impl Fn(&mut Fields)) -> Fields {
        let mut x = self.clone();
        change(&mut x);
        x
    }

    /// A copy with this V; places past it become 0, and new ones hold U.
    pub fn with_v(&self, v: u64) -> Fields {
        let before = self.used();
        self.but(|x| {
            x.v = v;
            for j in 0..120 {
                let value = if j < before { x.places[j] } else { x.s.u as u32 };
                x.places[j] = if j < x.used() { value } else { 0 };
            }
        })
    }
}

impl Fields {
    /// A copy so many values on, from N values on: all that counts values is as much greater.
    pub fn moved(&self, by: u64) -> Fields {
        assert!(self.v >= self.s.n as u64);
        self.but(|x| {
            let [k, _, _, stand] = &mut x.change;
            let [dip, _, swell, _, interruption, _] = &mut x.events;
            let standing = [k, stand, dip, swell, interruption].into_iter().filter(|x| **x > 0);
            standing.chain([&mut x.v]).for_each(|x| *x += by);
        })
    }
}

/// The same logger with V up to so many values before the end of 4 bytes, or before V's end; none if it
/// has fewer than N values, or is there already.
pub fn before_an_end(rng: &mut Rng, x: &Fields, values: i64) -> Option<Fields> {
    let end = one_of(&[FOUR_BYTES, THIS.end as u64], rng) - rng.range(0, values) as u64;
    (x.used() as i64 == x.s.n && x.v <= end).then(|| x.moved(end - x.v))
}

/// V: small, about N, before and about what 4 bytes hold, before its end, or anything.
fn some_v(rng: &mut Rng, n: i64, end: i64) -> i64 {
    let four = FOUR_BYTES as i64;
    let v = match rng.range(0, 15) {
        0 => 0,
        1 => rng.range(1, n - 1),
        2 => n + rng.range(-1, 1),
        3 => 2 * n + rng.range(-1, 2),
        4..=5 => rng.range(n, 4 * n),
        6 => end - rng.range(0, 3),
        7..=8 => end - rng.range(0, 300),
        9 => (1 << 31) + rng.range(-2, 2),
        10 => about_four_bytes(rng),
        11..=13 => four - rng.range(0, 300),
        // Its lower 4 bytes are a small number.
        14 => four + rng.range(1, 4 * n),
        _ => rng.range(0, end),
    };
    v.min(end)
}

/// About the greatest number of 4 bytes.
fn about_four_bytes(rng: &mut Rng) -> i64 {
    FOUR_BYTES as i64 + rng.range(-1, 2)
}

/// An accepted image that most often no recording gives.
pub fn accepted(rng: &mut Rng, s: Settings) -> Vec<u8> {
    accepted_in(rng, &THIS, s).bytes()
}

/// One of an edition.
pub fn accepted_in(rng: &mut Rng, edition: &Edition, s: Settings) -> Fields {
    let n = s.n;
    let v = some_v(rng, n, edition.end as i64);
    let mut x = Fields::fresh(s);
    x.v = v as u64;
    x.whole = (v > 0 || rng.chance(70)) as u32;
    x.count = one_of(&[0, 0, s.m - 1, rng.range(0, s.m - 1)], rng) as u32;
    let pick_sum = |rng: &mut Rng, samples: i64| {
        let nominal = s.u * s.u / 256 * samples;
        one_of(&[0, nominal, nominal, nominal, rng.range(0, samples << 30), samples << 30], rng)
            .min(samples << 30) as u64
    };
    x.sum = pick_sum(rng, x.count as i64);
    if x.whole == 1 {
        x.last = pick_sum(rng, s.m);
    }
    values(rng, &mut x);
    if v >= n {
        x.phase = one_of(&[1, 2, 2, 3, 3, 3], rng);
    }
    if x.phase == 3 && v <= n {
        x.phase = 2;
    }
    if x.phase == 3 {
        change(rng, &mut x);
    }
    for e in 0..3 {
        if v > 0 && rng.chance(35) {
            let start = one_of(&[1, v, rng.range(1, v), v - 1, about_four_bytes(rng)], rng);
            x.events[2 * e] = start.clamp(1, v) as u64;
            x.events[2 * e + 1] = one_of(&[0, TOP, s.u, rng.range(0, TOP)], rng) as u64;
        }
    }
    marks(rng, &mut x);
    x
}

/// Steady at U with events that its values do not show, most often an interruption alone; and samples
/// whose first value most often begins a change and no event.
pub fn before_a_step(rng: &mut Rng, s: Settings) -> (Fields, Vec<i16>) {
    let [end, four] = [THIS.end as i64, FOUR_BYTES as i64].map(|x| x - rng.range(0, 300));
    let v = one_of(&[s.n + 1, rng.range(s.n, 4 * s.n), end, four], rng);
    let mut x = Fields::fresh(s).but(|x| x.whole = 1).with_v(v as u64);
    x.last = nominal_half(&s);
    x.phase = 2;
    for (e, percent) in [15, 15, 80].into_iter().enumerate() {
        if rng.chance(percent) {
            x.events[2 * e] = one_of(&[1, v, rng.range(1, v)], rng) as u64;
            x.events[2 * e + 1] = rng.range(0, TOP) as u64;
        }
    }
    marks(rng, &mut x);
    // The first value is halfway.
    let step = one_of(&[-1, 1], rng) * (rng.range(2 * s.t, 3 * s.t) * s.u / 10_000 + 2);
    let r = (s.u + step).clamp(0, TOP);
    let mut samples = Vec::new();
    (0..s.n + rng.range(2, 8)).for_each(|_| half(rng, s.m, r, 0, &mut samples));
    (x, samples)
}

/// The sum of a half-cycle that gives U with another such one.
fn nominal_half(s: &Settings) -> u64 {
    ((s.u * s.u * s.m + 255) / 256) as u64
}

/// Marks where they are used: all, none, one by one, or few.
fn marks(rng: &mut Rng, x: &mut Fields) {
    let percent = one_of(&[0, 2, 50, 100], rng);
    let mut mark = |used: bool| (used && rng.chance(percent)) as u32;
    x.half_marks = [mark(x.count > 0), mark(x.whole == 1)];
    for j in 0..x.used() {
        x.place_marks[j] = mark(true) as u8;
    }
    for e in 0..3 {
        x.event_marks[e] = mark(x.events[2 * e] > 0);
    }
    x.event_marks[3] = mark(x.settled());
}

/// Kept values: all alike, around U, on the calm limit, or anything.
fn values(rng: &mut Rng, x: &mut Fields) {
    let s = x.s;
    let used = x.used();
    let base = one_of(&[s.u, s.u, s.u * 9 / 10, rng.range(0, TOP)], rng);
    let spread = one_of(&[0, 0, 1, s.t * s.u / 10_000 + 1, s.t * s.u / 5_000], rng);
    let wild = rng.chance(10);
    for j in 0..used {
        let r = if wild { rng.range(0, TOP) } else { base + rng.range(-spread, spread) };
        x.places[j] = r.clamp(0, TOP) as u32;
    }
    if used as i64 == s.n && rng.chance(50) {
        on_limit(rng, x);
    }
}

/// Puts the window, after one more value of U, on the calm limit under T or T − H (or one off):
/// one value is x above U and the others together y, so that (N − 1) × x − y is the limit.
fn on_limit(rng: &mut Rng, x: &mut Fields) {
    let s = x.s;
    let t = one_of(&[s.t, s.t - s.h], rng);
    let limit = t * s.n * s.u / 10_000 + rng.range(-1, 1);
    let peak = limit / (s.n - 1) + rng.range(1, 3);
    let mut y = (s.n - 1) * peak - limit;
    let sign = one_of(&[-1, 1], rng);
    if limit <= 0 || s.u + peak > TOP || s.u - peak < 0 {
        return;
    }
    let high = rng.range(1, s.n - 1);
    for j in 1..s.n {
        let off = if j == high { peak } else { y.min(peak) };
        if j != high {
            y -= off;
        }
        x.places[j as usize] = (s.u + sign * off) as u32;
    }
    // The last half was nominal, so that one more nominal half gives U.
    x.last = nominal_half(&s);
    x.sum = 0;
    x.count = 0;
}

/// What a change carries: anything the rules allow, with k near the places that matter.
fn change(rng: &mut Rng, x: &mut Fields) {
    let (n, v) = (x.s.n, x.v as i64);
    let k = one_of(
        &[
            v,
            v - 1,
            v - n + 1,
            v - n,
            v - n - 1,
            v - n - 2,
            n + 1,
            rng.range(n + 1, v),
            v - rng.range(0, n + 5),
            about_four_bytes(rng),
        ],
        rng,
    );
    let k = k.clamp(n + 1, v);
    let kept: i64 = x.places.iter().map(|&r| r as i64).sum();
    let before = one_of(&[kept, n * x.s.u, 0, n * TOP, rng.range(0, n * TOP)], rng);
    let greatest = one_of(&[0, 1, n * TOP, rng.range(0, n * TOP), rng.range(0, n * 100)], rng);
    let stand = one_of(&[0, 0, k, v, (v - n + rng.range(-1, 2)).clamp(k, v), rng.range(k, v)], rng);
    x.change = [k, before, if v - n < k { 0 } else { greatest }, stand].map(|x| x as u64);
}
