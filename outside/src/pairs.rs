//! Images that break one rule of 11 alone, each with the nearest image that is accepted.

use crate::editions::Edition;
use crate::images::{Fields, FOUR_BYTES};
use crate::rng::{one_of, Rng};
use crate::rules::{Settings, TOP};

/// A broken rule, alone, and the nearest accepted image.
pub struct Pair {
    pub rule: &'static str,
    pub broken: Fields,
    pub accepted: Fields,
}

#[derive(Default)]
struct Pairs(Vec<Pair>);

impl Pairs {
    fn add(&mut self, rule: &'static str, broken: Fields, accepted: Fields) {
        self.0.push(Pair { rule, broken, accepted });
    }
}

type Part = fn(&Bases, &mut Pairs);

/// The parts of 11's list; the first is of numbers that take more than 4 bytes.
const PARTS: [Part; 10] = [
    wide_counts,
    gatherer,
    values,
    phases,
    changes,
    events,
    marks_of_halves,
    marks_of_values,
    marks_of_events,
    marks_of_changes,
];

fn parts(edition: &Edition) -> &'static [Part] {
    if edition.count > 4 {
        &PARTS
    } else {
        &PARTS[1..]
    }
}

/// Every rule of 11 broken alone, under these settings, in an edition.
pub fn pairs(edition: &Edition, s: Settings) -> Vec<Pair> {
    let bases = Bases::of(edition, s);
    let mut list = Pairs::default();
    parts(edition).iter().for_each(|part| part(&bases, &mut list));
    list.0
}

/// One of these pairs: rules of a part that has more pairs come no more often.
pub fn pair(rng: &mut Rng, edition: &Edition, s: Settings) -> Pair {
    let part = one_of(parts(edition), rng);
    let mut list = Pairs::default();
    part(&Bases::of(edition, s), &mut list);
    let rule = one_of(&rules(&list.0), rng);
    list.0.retain(|x| x.rule == rule);
    list.0.swap_remove(rng.range(0, list.0.len() as i64 - 1) as usize)
}

/// The names of the rules that pairs break, each once.
pub fn rules(pairs: &[Pair]) -> Vec<&'static str> {
    let mut list: Vec<&str> = Vec::new();
    for pair in pairs {
        if !list.contains(&pair.rule) {
            list.push(pair.rule);
        }
    }
    list
}

/// Images to break rules in, accepted but for `enough`, which still needs its phase.
struct Bases {
    s: Settings,
    n: u64,
    m: u32,
    u: u64,
    top: u64,
    /// V's end, the greatest number in as many bytes, and whether those are more than 4.
    end: u64,
    widest: u64,
    wide: bool,
    /// No sample; one half; N − 1 values; N values.
    fresh: Fields,
    half: Fields,
    few: Fields,
    enough: Fields,
    steady: Fields,
    /// In a change since 2 × N, at 3 × N.
    change: Fields,
}

impl Bases {
    fn of(edition: &Edition, s: Settings) -> Bases {
        let (n, m, u, top) = (s.n as u64, s.m as u32, s.u as u64, TOP as u64);
        let (end, wide) = (edition.end as u64, edition.count > 4);
        let widest = if wide { u64::MAX } else { FOUR_BYTES };
        let fresh = Fields::fresh(s);
        let half = fresh.but(|x| x.whole = 1);
        let (few, enough) = (half.with_v(n - 1), half.with_v(n));
        let steady = half.with_v(n + 50).but(|x| x.phase = 2);
        let change = changing(&half, 3 * n, 2 * n);
        Bases { s, n, m, u, top, end, widest, wide, fresh, half, few, enough, steady, change }
    }

    /// Numbers that are taken for x where only 4 bytes of them are read.
    fn cut_to(&self, x: u64) -> Vec<u64> {
        let above = [1 << 32, 1 << 48, 1 << 63].map(|more| x + more);
        if self.wide {
            above.to_vec()
        } else {
            Vec::new()
        }
    }
}

/// In a change since k.
fn changing(half: &Fields, v: u64, k: u64) -> Fields {
    half.with_v(v).but(|x| {
        x.phase = 3;
        x.change = [k, (x.s.n * x.s.u) as u64, 0, 0];
    })
}

fn gatherer(bases: &Bases, list: &mut Pairs) {
    let Bases { m, fresh, half, steady, change, .. } = bases;
    let m = *m;
    for base in [fresh, half, steady, change] {
        let at = |count: u32, sum: u64| base.but(|x| (x.count, x.sum) = (count, sum));
        let most = ((m - 1) as u64) << 30;
        list.add("count below M", at(m, 0), at(m - 1, 0));
        list.add("count below M", at(u32::MAX, most), at(m - 1, most));
        list.add("sum of the half in progress", at(0, 1), at(0, 0));
        list.add("sum of the half in progress", at(1, (1 << 30) + 1), at(1, 1 << 30));
        list.add("sum of the half in progress", at(m - 1, most + 1), at(m - 1, most));
        list.add("sum of the half in progress", at(m - 1, u64::MAX), at(m - 1, most));
    }
    for base in [half, steady, change] {
        let at = |last: u64| base.but(|x| x.last = last);
        let most = (m as u64) << 30;
        list.add("last sum", at(most + 1), at(most));
        list.add("last sum", at(u64::MAX), at(most));
        let whole = |whole: u32| base.but(|x| x.whole = whole);
        list.add("a last half, 0 or 1", whole(2), whole(1));
        list.add("a last half, 0 or 1", whole(257), whole(1));
        list.add("a last half, 0 or 1", whole(u32::MAX), whole(1));
    }
    list.add("no last half, sum 0", fresh.but(|x| x.last = 1), fresh.clone());
    list.add(
        "no last half, sum 0",
        fresh.but(|x| x.last = 1 << 32),
        half.but(|x| x.last = 1 << 32),
    );
    list.add("no last half, V 0", half.with_v(1).but(|x| x.whole = 0), half.with_v(1));
    list.add("no last half, V 0", steady.but(|x| x.whole = 0), steady.clone());
}

/// V's end, which only a number of 8 bytes passes, and what would hold if 4 of V's were read.
fn wide_counts(bases: &Bases, list: &mut Pairs) {
    let Bases { n, end, half, steady, change, .. } = bases;
    for base in [&steady.but(|x| x.phase = 1), steady, change] {
        let last = base.with_v(*end);
        for v in [end + 1, end + 2, end + n, u64::MAX - n, u64::MAX - 1, u64::MAX] {
            list.add("V at most its end", base.with_v(v), last.clone());
        }
    }
    for v in [1 << 32, (1 << 32) + n - 1, 1 << 48] {
        let far = half.with_v(v).but(|x| x.phase = 1);
        list.add("no last half, V 0", far.but(|x| x.whole = 0), far.clone());
        list.add("phase 0 below N only", far.but(|x| x.phase = 0), far.clone());
    }
}

fn values(bases: &Bases, list: &mut Pairs) {
    let Bases { s, n, top, half, steady, change, .. } = bases;
    let top = *top as u32;
    for place in 0..s.n as usize {
        let at = |r: u32| steady.but(|x| x.places[place] = r);
        list.add("values in range", at(top + 1), at(top));
    }
    list.add(
        "values in range",
        steady.but(|x| x.places[3] = u32::MAX),
        steady.but(|x| x.places[3] = top),
    );
    for place in 0..120usize {
        // Place `place` is the first that V leaves unused, and where N is 100 the last 20 are.
        let base = half.with_v((place as u64).min(n - 1));
        list.add("unused places 0", base.but(|x| x.places[place] = 1), base.clone());
        if place >= s.n as usize {
            list.add("unused places 0", steady.but(|x| x.places[place] = 1), steady.clone());
            list.add("unused places 0", change.but(|x| x.places[place] = 1 << 24), change.clone());
        }
    }
}

fn phases(bases: &Bases, list: &mut Pairs) {
    let Bases { fresh, few, enough, steady, change, .. } = bases;
    let phase = |base: &Fields, phase: u32| base.but(|x| x.phase = phase);
    list.add("phase 0 to 3", phase(steady, 4), phase(steady, 2));
    list.add("phase 0 to 3", phase(change, 4), change.clone());
    list.add("phase 0 to 3", phase(steady, 258), phase(steady, 1));
    list.add("phase 0 to 3", phase(few, u32::MAX), few.clone());
    list.add("phase 0 below N only", enough.clone(), few.clone());
    list.add("phase 0 below N only", phase(steady, 0), steady.clone());
    list.add("phase not 0 from N on", phase(few, 1), phase(enough, 1));
    list.add("phase not 0 from N on", phase(few, 2), phase(enough, 2));
    list.add("phase not 0 from N on", phase(fresh, 1), fresh.clone());
}

fn changes(bases: &Bases, list: &mut Pairs) {
    let Bases { n, u, top, end, widest, fresh, few, enough, steady, change, .. } = bases;
    let (n, top, end, widest) = (*n, *top, *end, *widest);
    let most = u32::MAX as u64;
    let late = change.but(|x| x.change = [n + 1, n * u, 7, 0]);
    let four = |base: &Fields, four: [u64; 4]| base.but(|x| x.change = four);
    let [k, a, _, _] = change.change;
    let v = change.v;
    list.add("k above N", four(change, [n, a, 0, 0]), four(change, [n + 1, a, 0, 0]));
    list.add("k above N", four(change, [0, a, 0, 0]), four(change, [n + 1, a, 0, 0]));
    list.add("k at most V", four(change, [v + 1, a, 0, 0]), four(change, [v, a, 0, 0]));
    list.add("k at most V", four(change, [widest, a, 0, 0]), four(change, [v, a, 0, 0]));
    for far in bases.cut_to(k) {
        list.add("k at most V", four(change, [far, a, 0, 0]), four(change, [k, a, 0, 0]));
    }
    list.add("second", four(change, [k, n * top + 1, 0, 0]), four(change, [k, n * top, 0, 0]));
    list.add("second", four(change, [k, most, 0, 0]), four(change, [k, 0, 0, 0]));
    list.add("third", four(&late, [n + 1, a, n * top + 1, 0]), four(&late, [n + 1, a, n * top, 0]));
    list.add("third", four(&late, [n + 1, a, most, 0]), four(&late, [n + 1, a, 0, 0]));
    let short = 2 * n + 1;
    list.add("third 0 early", four(change, [short, a, 1, 0]), four(change, [short - 1, a, 1, 0]));
    list.add("third 0 early", four(change, [v, a, 1, 0]), four(change, [v, a, 0, 0]));
    // Where k + N passes V's end, and 4 bytes, V is below it all the same.
    for v in [FOUR_BYTES, end] {
        let last = change.with_v(v);
        let (near, edge) = (v - n + 1, v - n);
        list.add("third 0 early", four(&last, [near, a, 1, 0]), four(&last, [edge, a, 1, 0]));
        list.add("third 0 early", four(&last, [v, a, 1, 0]), four(&last, [v, a, 0, 0]));
    }
    list.add("fourth", four(change, [k, a, 0, k - 1]), four(change, [k, a, 0, k]));
    list.add("fourth", four(change, [k, a, 0, 1]), four(change, [k, a, 0, 0]));
    list.add("fourth", four(change, [k, a, 0, v + 1]), four(change, [k, a, 0, v]));
    list.add("fourth", four(change, [k, a, 0, widest]), four(change, [k, a, 0, v]));
    for stand in [0, k, v] {
        for far in bases.cut_to(stand) {
            list.add("fourth", four(change, [k, a, 0, far]), four(change, [k, a, 0, stand]));
        }
    }
    let never = |base: &Fields| base.but(|x| x.phase = 1);
    for j in 0..4 {
        let one = |base: &Fields, to: u64| base.but(|x| x.change[j] = to);
        for base in [fresh, few, &never(enough), &never(steady), steady] {
            list.add("zeros outside phase 3", one(base, 1), one(base, 0));
        }
        list.add("zeros outside phase 3", one(steady, n + 1), one(steady, 0));
        let counts = j == 0 || j == 3;
        for far in bases.cut_to(0).into_iter().filter(|_| counts) {
            list.add("zeros outside phase 3", one(steady, far), one(steady, 0));
        }
    }
}

fn events(bases: &Bases, list: &mut Pairs) {
    let Bases { top, end, widest, fresh, half, few, steady, change, .. } = bases;
    let (top, end, widest) = (*top, *end, *widest);
    let most = u32::MAX as u64;
    let lasts = [FOUR_BYTES, end].map(|v| change.with_v(v));
    for e in 0..3 {
        for base in [fresh, &half.with_v(1), few, steady, change, &lasts[0], &lasts[1]] {
            let at = |start: u64, magnitude: u64| {
                base.but(|x| (x.events[2 * e], x.events[2 * e + 1]) = (start, magnitude))
            };
            let v = base.v;
            let greatest = if v == 0 { 0 } else { top };
            list.add("start 0, magnitude 0", at(0, 1), at(0, 0));
            if v < widest {
                list.add("start at most V", at(v + 1, 0), at(v, 0));
                list.add("start at most V", at(widest, top), at(v, greatest));
            }
            if v < FOUR_BYTES {
                for far in bases.cut_to(v) {
                    list.add("start at most V", at(far, 0), at(v, 0));
                }
            }
            if v > 0 {
                list.add("magnitude", at(1, top + 1), at(1, top));
                list.add("magnitude", at(v, most), at(v, top));
            }
        }
    }
}

/// What is no mark of 4 bytes, by its lowest byte or by another.
const NO_MARKS: [u32; 7] = [2, 3, 256, 257, 1 << 16, 1 << 24, u32::MAX];

fn marks_of_halves(bases: &Bases, list: &mut Pairs) {
    let Bases { m, fresh, half, few, steady, change, .. } = bases;
    for base in [fresh, half, few, steady, change] {
        let at = |count: u32, mark: u32| base.but(|x| (x.count, x.half_marks[0]) = (count, mark));
        for no_mark in NO_MARKS {
            list.add("mark of the half in progress, 0 or 1", at(1, no_mark), at(1, 1));
            list.add("mark of the half in progress, 0 or 1", at(m - 1, no_mark), at(m - 1, 0));
        }
        list.add("mark of the half in progress, 0 at count 0", at(0, 1), at(0, 0));
        list.add("mark of the half in progress, 0 at count 0", at(0, 1), at(1, 1));
    }
    for base in [half, few, steady, change] {
        let at = |mark: u32| base.but(|x| x.half_marks[1] = mark);
        for no_mark in NO_MARKS {
            list.add("mark of the last half, 0 or 1", at(no_mark), at(no_mark % 2));
        }
    }
    // Also with a marked half in progress.
    for in_progress in [0, 1] {
        let at = |whole: u32, mark: u32| {
            let marks = [in_progress, mark];
            fresh.but(|x| (x.count, x.whole, x.half_marks) = (in_progress, whole, marks))
        };
        list.add("mark of the last half, 0 without one", at(0, 1), at(0, 0));
        list.add("mark of the last half, 0 without one", at(0, 1), at(1, 1));
    }
}

fn marks_of_values(bases: &Bases, list: &mut Pairs) {
    let Bases { s, n, half, steady, change, .. } = bases;
    for place in 0..120usize {
        let at = |base: &Fields, mark: u8| base.but(|x| x.place_marks[place] = mark);
        // Place `place` is the first that V leaves unused, and where N is 100 the last 20 are.
        let unused = half.with_v((place as u64).min(n - 1));
        list.add("mark of an unused place, 0", at(&unused, 1), unused.clone());
        if place >= s.n as usize {
            list.add("mark of an unused place, 0", at(steady, 1), steady.clone());
            list.add("mark of an unused place, 0", at(change, 255), change.clone());
            continue;
        }
        // It is the last that V uses.
        let used = half.with_v(place as u64 + 1).but(|x| x.phase = (x.v == *n) as u32);
        list.add("mark of an unused place, 0", at(&unused, 1), at(&used, 1));
        let no_mark = [2, 3, 128, 255][place % 4];
        list.add("mark of a value, 0 or 1", at(&used, no_mark), at(&used, 1));
        list.add("mark of a value, 0 or 1", at(steady, no_mark), at(steady, no_mark % 2));
    }
}

fn marks_of_events(bases: &Bases, list: &mut Pairs) {
    let Bases { fresh, half, few, steady, change, .. } = bases;
    let names = [
        ("mark of the dip, 0 or 1", "mark of the dip, 0 without one"),
        ("mark of the swell, 0 or 1", "mark of the swell, 0 without one"),
        ("mark of the interruption, 0 or 1", "mark of the interruption, 0 without one"),
    ];
    for (e, (in_range, without)) in names.into_iter().enumerate() {
        let at = |base: &Fields, start: u64, mark: u32| {
            base.but(|x| (x.events[2 * e], x.event_marks[e]) = (start, mark))
        };
        for base in [&half.with_v(1), few, steady, change] {
            for no_mark in NO_MARKS {
                list.add(in_range, at(base, 1, no_mark), at(base, 1, no_mark % 2));
                list.add(in_range, at(base, base.v, no_mark), at(base, base.v, 1));
            }
            list.add(without, at(base, 0, 1), at(base, 1, 1));
            // Where all others stand, marked.
            let others = base.but(|x| {
                (0..3).for_each(|e| (x.events[2 * e], x.event_marks[e]) = (1, 1));
            });
            list.add(without, at(&others, 0, 1), at(&others, 0, 0));
        }
        list.add(without, at(fresh, 0, 1), fresh.clone());
    }
}

fn marks_of_changes(bases: &Bases, list: &mut Pairs) {
    let Bases { n, end, fresh, half, few, steady, change, .. } = bases;
    let marked = |base: &Fields, mark: u32| base.but(|x| x.event_marks[3] = mark);
    for no_mark in NO_MARKS {
        list.add(
            "mark of the change, 0 or 1",
            marked(change, no_mark),
            marked(change, no_mark % 2),
        );
    }
    for base in [fresh, few, &steady.but(|x| x.phase = 1), steady] {
        list.add("mark of the change, 0 outside phase 3", marked(base, 1), base.clone());
        list.add("mark of the change, 0 outside phase 3", marked(base, 1), marked(change, 1));
    }
    // The least k that is too late, also where k + N passes 4 bytes, or V's end.
    for v in [3 * n, 1 << 31, FOUR_BYTES, *end] {
        let at = |k: u64, mark: u32| marked(&changing(half, v, k), mark);
        list.add("mark of the change, 0 at V < k + N", at(v - n + 1, 1), at(v - n, 1));
        list.add("mark of the change, 0 at V < k + N", at(v - n + 1, 1), at(v - n + 1, 0));
        list.add("mark of the change, 0 at V < k + N", at(v, 1), at(v, 0));
    }
}
