//! The logger: a gatherer, the window of the last values with its sum, the phase, and the three
//! standing events; each half, value, change and event with the mark of clipped samples. Feed does
//! not allocate.

use crate::engineer::{Fed, Looked};
use crate::limits::Limits;
use crate::room::{head, Record, Room, RECORD};
use crate::squares::{root, Part, Sample};

/// Most values that are kept.
pub const PLACES: usize = 120;
/// V's end.
pub const END: u64 = (1 << 63) - 1;

/// A value, and whether one of its samples is clipped.
#[derive(Clone, Copy)]
pub struct Value {
    pub r: u32,
    pub clipped: bool,
}

impl Value {
    const NONE: Value = Value { r: 0, clipped: false };
}

/// An event that stands if its start is above 0.
#[derive(Clone, Copy)]
pub struct Event {
    pub start: u64,
    pub magnitude: u32,
    pub clipped: bool,
}

impl Event {
    pub const NONE: Event = Event { start: 0, magnitude: 0, clipped: false };

    /// After value i: while it stands it keeps the least r, or the greatest, and the marks.
    pub fn with(
        self,
        i: u64,
        x: Value,
        begins: bool,
        ends: bool,
        pick: fn(u32, u32) -> u32,
    ) -> Event {
        match self.start {
            0 if begins => Event { start: i, magnitude: x.r, clipped: x.clipped },
            0 => Event::NONE,
            _ if ends => Event::NONE,
            start => Event {
                start,
                magnitude: pick(self.magnitude, x.r),
                clipped: self.clipped | x.clipped,
            },
        }
    }

    /// The record due at value i, if that ended it.
    pub fn record(self, kind: u32, i: u64, after: Event) -> Option<Record> {
        let ended = self.start > 0 && after.start == 0;
        ended.then(|| Record {
            head: head(kind, self.clipped),
            start: self.start,
            duration: i - self.start,
            first: self.magnitude,
            second: 0,
        })
    }
}

/// What a change in progress carries. `stand` is k also for a dip or swell that stood at k − 1.
#[derive(Clone, Copy)]
pub struct Change {
    pub k: u64,
    pub before: u32,
    pub greatest: u32,
    pub stand: u64,
    pub clipped: bool,
}

impl Change {
    pub const NONE: Change = Change { k: 0, before: 0, greatest: 0, stand: 0, clipped: false };
}

#[derive(Clone, Copy)]
pub enum Phase {
    Filling,
    NeverSteady,
    Steady,
    Change(Change),
}

#[derive(Clone)]
pub struct Logger {
    pub limits: Limits,
    /// The gatherer: the half in progress, and the last whole half.
    pub count: usize,
    pub part: Part,
    pub last: Part,
    pub whole: bool,
    /// V; the last values, at most N, oldest first, the rest 0; their marks alike; and their sum.
    pub v: u64,
    pub window: [u32; PLACES],
    pub marks: [u8; PLACES],
    pub window_sum: u32,
    pub phase: Phase,
    pub dip: Event,
    pub swell: Event,
    pub interruption: Event,
}

impl Logger {
    /// Start: refusals 1 to 6; else a logger that has taken no sample.
    pub fn start(settings: &[u8]) -> Result<Logger, u32> {
        Ok(Logger {
            limits: Limits::new(settings)?,
            count: 0,
            part: Part::NONE,
            last: Part::NONE,
            whole: false,
            v: 0,
            window: [0; PLACES],
            marks: [0; PLACES],
            window_sum: 0,
            phase: Phase::Filling,
            dip: Event::NONE,
            swell: Event::NONE,
            interruption: Event::NONE,
        })
    }

    /// Feed over sample bytes; `room` takes the records.
    pub fn feed(&mut self, block: &[Sample], room: &mut [u8]) -> Fed {
        let mut room = Room { bytes: room, used: 0 };
        let (taken, why) = self.take(block, &mut room);
        Fed { taken: taken as u64, written: (room.used / RECORD) as u64, why }
    }

    /// Trial: feed on a copy.
    pub fn trial(&self, block: &[Sample], scratch: &mut [u8]) -> Fed {
        self.clone().feed(block, scratch)
    }

    /// Takes half-cycle by half-cycle: the samples taken, and why no more.
    fn take(&mut self, block: &[Sample], room: &mut Room) -> (usize, u64) {
        let mut taken = 0;
        loop {
            let rest = &block[taken..];
            let missing = self.limits.m - self.count;
            if rest.len() < missing {
                self.part = self.part.with(rest);
                self.count += rest.len();
                return (block.len(), 0);
            }
            let half = self.part.with(&rest[..missing]);
            if let Err(why) = self.half(half, room) {
                // The sample that would end the half-cycle cannot be taken.
                self.part = self.part.with(&rest[..missing - 1]);
                self.count += missing - 1;
                return (taken + missing - 1, why);
            }
            taken += missing;
        }
    }

    /// Ends a half-cycle, or says why not and changes nothing.
    fn half(&mut self, half: Part, room: &mut Room) -> Result<(), u64> {
        if self.whole {
            if self.v == END {
                return Err(2);
            }
            let mean = 128 * (self.last.sum + half.sum) / self.limits.m as u64;
            let r = root(mean, self.newest() as u64) as u32;
            if !self.value(Value { r, clipped: self.last.clipped | half.clipped }, room) {
                return Err(1);
            }
        }
        self.count = 0;
        self.part = Part::NONE;
        self.last = half;
        self.whole = true;
        Ok(())
    }

    /// Takes a value, unless its records do not fit: then nothing changes.
    fn value(&mut self, x: Value, room: &mut Room) -> bool {
        let l = &self.limits;
        let i = self.v + 1;
        let r = x.r;
        let (dip, swell, interruption) = (self.dip, self.swell, self.interruption);
        let new_dip = dip.with(i, x, r < l.dip.0, r >= l.dip.1, u32::min);
        let new_swell = swell.with(i, x, r > l.swell.0, r <= l.swell.1, u32::max);
        let (below, above) = (r < l.interruption.0, r >= l.interruption.1);
        let new_interruption = interruption.with(i, x, below, above, u32::min);
        let begins = new_dip.start == i || new_swell.start == i;

        let leaving = if self.v >= l.n as u64 { self.oldest() } else { Value::NONE };
        let sum = self.window_sum + r - leaving.r;
        let (phase, change) = self.signal(r, leaving, sum, begins);
        let due = [
            dip.record(1, i, new_dip),
            swell.record(2, i, new_swell),
            interruption.record(3, i, new_interruption),
            change,
        ];
        if !room.write(due) {
            return false;
        }

        (self.dip, self.swell, self.interruption) = (new_dip, new_swell, new_interruption);
        self.phase = phase;
        self.push(x);
        self.window_sum = sum;
        self.v = i;
        true
    }

    /// The phase after value V + 1, r, and the record of the change that it closes. `leaving` leaves
    /// the window, whose sum is then `sum`.
    fn signal(&self, r: u32, leaving: Value, sum: u32, begins: bool) -> (Phase, Option<Record>) {
        let n = self.limits.n as u64;
        let i = self.v + 1;
        let stand = if begins { i } else { 0 };
        let phase = match self.phase {
            Phase::Filling if i < n => Phase::Filling,
            Phase::Change(mut c) => {
                // Value i − N leaves the window; it belongs to the change from k on.
                let left = i - n;
                if left >= c.k {
                    c.greatest = c.greatest.max((n as u32 * leaving.r).abs_diff(c.before));
                    c.clipped |= leaving.clipped;
                }
                if c.stand == 0 {
                    c.stand = stand;
                }
                if left > c.k && self.calm(r, sum, self.limits.calm_back) {
                    let shown = c.stand == 0 || c.stand > left;
                    let record = Record {
                        head: head(4, c.clipped),
                        start: c.k,
                        duration: left - c.k,
                        first: c.greatest,
                        second: sum.abs_diff(c.before),
                    };
                    return (Phase::Steady, shown.then_some(record));
                }
                Phase::Change(c)
            }
            _ if self.calm(r, sum, self.limits.calm) => Phase::Steady,
            Phase::Steady => {
                let before = self.window_sum;
                // What stands after V drops the change as what first stands at k does.
                let stood = self.dip.start > 0 || self.swell.start > 0;
                let stand = if stood { i } else { stand };
                Phase::Change(Change { k: i, before, greatest: 0, stand, clipped: false })
            }
            Phase::Filling | Phase::NeverSteady => Phase::NeverSteady,
        };
        (phase, None)
    }

    /// Whether the window with r, whose sum is then `sum`, has every N × value within `far` of it.
    fn calm(&self, r: u32, sum: u32, far: u32) -> bool {
        let n = self.limits.n;
        if (n as u32 * r).abs_diff(sum) > far {
            return false;
        }
        let lowest = sum.saturating_sub(far).div_ceil(n as u32);
        let highest = (sum + far) / n as u32;
        let first = if self.v >= n as u64 { 1 } else { 0 };
        let others = &self.window[first..][..n - 1];
        others.iter().fold(true, |calm, &x| calm & (lowest <= x) & (x <= highest))
    }

    /// The oldest value that is kept, in a full window.
    fn oldest(&self) -> Value {
        Value { r: self.window[0], clipped: self.marks[0] == 1 }
    }

    /// A value joins the window.
    fn push(&mut self, x: Value) {
        let n = self.limits.n;
        let mut place = self.used();
        if place == n {
            self.window.copy_within(1..n, 0);
            self.marks.copy_within(1..n, 0);
            place = n - 1;
        }
        self.window[place] = x.r;
        self.marks[place] = x.clipped as u8;
    }

    /// How many values are kept.
    fn used(&self) -> usize {
        self.v.min(self.limits.n as u64) as usize
    }

    /// r(V), or 0.
    fn newest(&self) -> u32 {
        match self.used() {
            0 => 0,
            used => self.window[used - 1],
        }
    }

    pub fn look(&self) -> Looked {
        let full = self.used() == self.limits.n;
        Looked {
            v: self.v,
            r: self.newest() as u64,
            a: if full { self.window_sum as u64 } else { 0 },
            phase: match self.phase {
                Phase::Filling => 0,
                Phase::NeverSteady => 1,
                Phase::Steady => 2,
                Phase::Change(_) => 3,
            },
            stand: [self.dip.start > 0, self.swell.start > 0, self.interruption.start > 0],
        }
    }
}
