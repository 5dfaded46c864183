//! A plain stepper: goes on from any accepted image, one sample at a time, by the paper's rules
//! and what the image's bodies hold. Slow and simple; it shares no code with the logger.

use crate::editions::{Edition, THIS};
use crate::readings::{is_clipped, root};
use crate::rules::{self, settings_bytes, Settings, IMAGE, TOP};

/// Numbers that count values are wide enough for any sum of them.
#[derive(Clone)]
struct State {
    edition: &'static Edition,
    s: Settings,
    count: i64,
    sum: i64,
    last: i64,
    whole: bool,
    /// Whether the half in progress and the last half have a clipped sample.
    clipped: bool,
    last_clipped: bool,
    v: i128,
    /// The last values, oldest first, each with its mark.
    kept: Vec<(i64, bool)>,
    phase: i64,
    change: Change,
    events: [Event; 3],
}

/// What a change carries; the first stand is k for one that stood at k − 1.
#[derive(Clone, Copy)]
struct Change {
    k: i128,
    before: i64,
    greatest: i64,
    stand: i128,
    clipped: bool,
}

const NO_CHANGE: Change = Change { k: 0, before: 0, greatest: 0, stand: 0, clipped: false };

/// The dip, swell or interruption that stands, if start is above 0.
#[derive(Clone, Copy)]
struct Event {
    start: i128,
    magnitude: i64,
    clipped: bool,
}

const NO_EVENT: Event = Event { start: 0, magnitude: 0, clipped: false };

/// Takes numbers off bytes, one behind the other.
struct Reader<'a>(&'a [u8]);

impl Reader<'_> {
    fn number(&mut self, width: usize) -> i128 {
        let (number, rest) = self.0.split_at(width);
        self.0 = rest;
        number.iter().rev().fold(0, |x, &byte| x << 8 | byte as i128)
    }

    fn four(&mut self) -> i64 {
        self.number(4) as i64
    }

    fn mark(&mut self) -> bool {
        self.number(4) == 1
    }
}

/// Puts a number behind bytes, in so many.
fn put(b: &mut Vec<u8>, width: usize, x: i128) {
    b.extend(&x.to_le_bytes()[..width]);
}

impl State {
    fn fresh(s: Settings) -> State {
        State {
            edition: &THIS,
            s,
            count: 0,
            sum: 0,
            last: 0,
            whole: false,
            clipped: false,
            last_clipped: false,
            v: 0,
            kept: Vec::new(),
            phase: 0,
            change: NO_CHANGE,
            events: [NO_EVENT; 3],
        }
    }

    /// From an image that its edition accepts.
    fn of(edition: &'static Edition, image: &[u8]) -> State {
        let s = rules::settings(&image[32..68]).unwrap();
        let b = &mut Reader(&image[68..]);
        let (count, sum, last) = (b.four(), b.number(8) as i64, b.number(8) as i64);
        let (whole, clipped, last_clipped) = (b.mark(), b.mark(), b.mark());
        let v = b.number(edition.count);
        let mut values = [0; 120].map(|_| (b.four(), false)).to_vec();
        values.iter_mut().for_each(|x| x.1 = b.number(1) == 1);
        values.truncate(v.min(s.n as i128) as usize);
        let phase = b.four();
        let mut change = NO_CHANGE;
        change.k = b.number(edition.count);
        (change.before, change.greatest) = (b.four(), b.four());
        change.stand = b.number(edition.count);
        let mut events = [NO_EVENT; 3];
        for x in &mut events {
            (x.start, x.magnitude) = (b.number(edition.count), b.four());
        }
        events.iter_mut().for_each(|x| x.clipped = b.mark());
        change.clipped = b.mark();
        State {
            edition,
            s,
            count,
            sum,
            last,
            whole,
            clipped,
            last_clipped,
            v,
            kept: values,
            phase,
            change,
            events,
        }
    }

    fn image(&self) -> Vec<u8> {
        let wide = self.edition.count;
        let mut list: Vec<(usize, i128)> = vec![
            (4, self.count as i128),
            (8, self.sum as i128),
            (8, self.last as i128),
            (4, self.whole as i128),
            (4, self.clipped as i128),
            (4, self.last_clipped as i128),
            (wide, self.v),
        ];
        let place = |j: usize| self.kept.get(j).copied().unwrap_or((0, false));
        list.extend((0..120).map(|j| (4, place(j).0 as i128)));
        list.extend((0..120).map(|j| (1, place(j).1 as i128)));
        let Change { k, before, greatest, stand, clipped } = self.change;
        list.push((4, self.phase as i128));
        list.extend([(wide, k), (4, before as i128), (4, greatest as i128), (wide, stand)]);
        for x in self.events {
            list.extend([(wide, x.start), (4, x.magnitude as i128)]);
        }
        list.extend(self.events.map(|x| (4, x.clipped as i128)));
        list.push((4, clipped as i128));
        let mut b = (self.edition.table)();
        b.extend(settings_bytes(&self.s));
        list.iter().for_each(|&(width, x)| put(&mut b, width, x));
        b
    }

    /// A record: kind, mark, start, duration and the magnitudes.
    fn record(&self, kind: u8, clipped: bool, counts: [i128; 2], magnitudes: [i64; 2]) -> Vec<u8> {
        let mut b = vec![kind, clipped as u8, 0, 0];
        counts.iter().for_each(|&x| put(&mut b, self.edition.count, x));
        magnitudes.iter().for_each(|&x| put(&mut b, 4, x as i128));
        b
    }

    /// Takes one sample; gives the records due. V may pass its end here.
    fn sample(&mut self, x: i16) -> Vec<u8> {
        self.sum += x as i64 * x as i64;
        self.clipped |= is_clipped(x);
        self.count += 1;
        if self.count < self.s.m {
            return Vec::new();
        }
        let records = if self.whole {
            let r = root(self.s.m, self.last + self.sum);
            self.value(r, self.last_clipped || self.clipped)
        } else {
            Vec::new()
        };
        self.last = self.sum;
        self.last_clipped = self.clipped;
        self.whole = true;
        self.sum = 0;
        self.clipped = false;
        self.count = 0;
        records
    }

    /// Takes one value, clipped or not.
    fn value(&mut self, r: i64, clipped: bool) -> Vec<u8> {
        let s = self.s;
        let i = self.v + 1;
        let mut records = Vec::new();
        let dip_or_swell_stood = self.events[0].start > 0 || self.events[1].start > 0;
        let mut dip_or_swell_begins = false;

        // The dip, the swell, the interruption.
        for (e, level) in [s.d, s.w, s.i].into_iter().enumerate() {
            let was = self.events[e];
            let stood = was.start > 0;
            let stands = if e == 1 {
                10_000 * r > level * s.u || (stood && 10_000 * r > (level - s.g) * s.u)
            } else {
                10_000 * r < level * s.u || (stood && 10_000 * r < (level + s.g) * s.u)
            };
            self.events[e] = match (stood, stands) {
                (false, false) => NO_EVENT,
                (false, true) => Event { start: i, magnitude: r, clipped },
                (true, true) => Event {
                    start: was.start,
                    magnitude: if e == 1 { was.magnitude.max(r) } else { was.magnitude.min(r) },
                    clipped: was.clipped || clipped,
                },
                (true, false) => {
                    let (counts, magnitudes) = ([was.start, i - was.start], [was.magnitude, 0]);
                    records.extend(self.record(e as u8 + 1, was.clipped, counts, magnitudes));
                    NO_EVENT
                }
            };
            dip_or_swell_begins |= e < 2 && !stood && stands;
        }

        // The window.
        let before: i64 = self.kept.iter().map(|x| x.0).sum();
        self.kept.push((r, clipped));
        let leaving = if self.kept.len() as i64 > s.n { Some(self.kept.remove(0)) } else { None };
        let a: i64 = self.kept.iter().map(|x| x.0).sum();
        let calm =
            |t: i64| self.kept.iter().all(|x| 10_000 * (s.n * x.0 - a).abs() <= t * s.n * s.u);
        self.v = i;

        // The signal and the change.
        let n = s.n as i128;
        if i < n {
        } else if self.phase < 2 {
            self.phase = if calm(s.t) { 2 } else { 1 };
        } else if self.phase == 2 {
            if !calm(s.t) {
                let drops = dip_or_swell_stood || dip_or_swell_begins;
                self.phase = 3;
                self.change =
                    Change { k: i, before, stand: if drops { i } else { 0 }, ..NO_CHANGE };
            }
        } else {
            let mut change = self.change;
            if i - n >= change.k {
                let (value, mark) = leaving.unwrap();
                change.greatest = change.greatest.max((s.n * value - change.before).abs());
                change.clipped |= mark;
            }
            if change.stand == 0 && dip_or_swell_begins {
                change.stand = i;
            }
            if i > change.k + n && calm(s.t - s.h) {
                if change.stand == 0 || change.stand > i - n {
                    let counts = [change.k, i - n - change.k];
                    let magnitudes = [change.greatest, (a - change.before).abs()];
                    records.extend(self.record(4, change.clipped, counts, magnitudes));
                }
                self.phase = 2;
                change = NO_CHANGE;
            }
            self.change = change;
        }
        debug_assert!(r <= TOP);
        records
    }

    /// Takes samples up to the first that cannot be taken; writes their records, and the reply.
    fn feed(&mut self, samples: &[u8], records: &mut [u8], reply: &mut [u8]) {
        let (mut taken, mut written, mut why) = (0u64, 0usize, 0u64);
        let Edition { end, record, .. } = *self.edition;
        for x in samples.chunks_exact(2) {
            let x = i16::from_le_bytes([x[0], x[1]]);
            if self.count + 1 < self.s.m {
                // It completes no half-cycle, so it is always taken.
                self.sample(x);
                taken += 1;
                continue;
            }
            let mut next = self.clone();
            let due = next.sample(x);
            if next.v > end {
                why = 2;
                break;
            }
            let to = written + due.len();
            if to > records.len() / record * record {
                why = 1;
                break;
            }
            records[written..to].copy_from_slice(&due);
            written = to;
            taken += 1;
            *self = next;
        }
        for (at, x) in [(0, taken), (8, (written / record) as u64), (16, why)] {
            reply[at..at + 8].copy_from_slice(&x.to_le_bytes());
        }
    }
}

/// 8 to 11 for the image, then 12 for the samples; else 0.
fn refusal(edition: &Edition, image: &[u8], samples: &[u8]) -> u32 {
    match (edition.restore)(image) {
        0 if samples.len() % 2 != 0 => 12,
        number => number,
    }
}

/// Begin, by the stepper.
pub fn begin(settings: &[u8], image: &mut [u8]) -> u32 {
    let s = match rules::settings(settings) {
        Ok(s) => s,
        Err(number) => return number,
    };
    if image.len() < IMAGE {
        return 7;
    }
    image[..IMAGE].copy_from_slice(&State::fresh(s).image());
    0
}

/// Advance, by the stepper.
pub fn advance(
    image: &[u8],
    samples: &[u8],
    new_image: &mut [u8],
    records: &mut [u8],
    reply: &mut [u8],
) -> u32 {
    advance_in(&THIS, image, samples, new_image, records, reply)
}

/// Advance in an edition.
pub fn advance_in(
    edition: &'static Edition,
    image: &[u8],
    samples: &[u8],
    new_image: &mut [u8],
    records: &mut [u8],
    reply: &mut [u8],
) -> u32 {
    let number = refusal(edition, image, samples);
    if number != 0 {
        return number;
    }
    if new_image.len() < edition.image {
        return 7;
    }
    if reply.len() < 24 {
        return 13;
    }
    let mut state = State::of(edition, image);
    state.feed(samples, records, reply);
    new_image[..edition.image].copy_from_slice(&state.image());
    0
}

/// Trial, by the stepper: what is fed is the image's copy, and nothing is saved.
pub fn trial(image: &[u8], samples: &[u8], scratch: &mut [u8], reply: &mut [u8]) -> u32 {
    let number = refusal(&THIS, image, samples);
    if number != 0 {
        return number;
    }
    if reply.len() < 24 {
        return 13;
    }
    State::of(&THIS, image).feed(samples, scratch, reply);
    0
}
