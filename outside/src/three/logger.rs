//! The logger of three phases: for each channel a gatherer, the window of the last values and its own
//! signal; jointly the mark of each value, the phase, and the three standing events.

use super::{Channel, Looked, CHANNELS};
use crate::engineer::Fed;
use crate::limits::Limits;
use crate::logger::{Event, Value, END, PLACES};
use crate::room::{head, Record, Room, RECORD};
use crate::squares::{root, Part, Sample};

/// A channel's own signal.
#[derive(Clone, Copy, PartialEq, Eq)]
enum Signal {
    NeverTrue,
    True,
    /// False since this value.
    False(u64),
}

/// The last N values of a channel, value i in place (i − 1) mod N, with their sum.
#[derive(Clone, Copy)]
struct Window {
    places: [u32; PLACES],
    sum: u32,
    signal: Signal,
}

impl Window {
    const EMPTY: Window = Window { places: [0; PLACES], sum: 0, signal: Signal::NeverTrue };

    /// With value i, which takes the place of value i − N.
    fn with(mut self, i: u64, r: u32, l: &Limits) -> Window {
        let n = l.n as u64;
        let place = &mut self.places[((i - 1) % n) as usize];
        self.sum = self.sum - *place + r;
        *place = r;
        if i >= n {
            self.signal = match self.signal {
                Signal::False(k) if i - n > k && self.calm(l.n, l.calm_back) => Signal::True,
                Signal::False(k) => Signal::False(k),
                _ if self.calm(l.n, l.calm) => Signal::True,
                Signal::True => Signal::False(i),
                Signal::NeverTrue => Signal::NeverTrue,
            };
        }
        self
    }

    /// Whether no N × value is further than this from the sum.
    fn calm(&self, n: usize, far: u32) -> bool {
        self.places[..n].iter().all(|&x| (n as u32 * x).abs_diff(self.sum) <= far)
    }
}

/// What a joint change in progress carries: k, each channel's sum at k − 1, the greatest difference
/// in any channel, where a joint dip or swell first stood, or k for one that stood at k − 1, and the
/// mark.
#[derive(Clone, Copy)]
struct Change {
    k: u64,
    before: [u32; CHANNELS],
    greatest: u32,
    stand: u64,
    clipped: bool,
}

#[derive(Clone, Copy)]
enum Phase {
    Filling,
    NeverSteady,
    Steady,
    Change(Change),
}

#[derive(Clone)]
pub struct Logger {
    limits: Limits,
    /// The gatherers, which all have the same count.
    count: usize,
    parts: [Part; CHANNELS],
    lasts: [Part; CHANNELS],
    whole: bool,
    v: u64,
    windows: [Window; CHANNELS],
    /// Whether a joint value is clipped, in the windows' places.
    marks: [bool; PLACES],
    phase: Phase,
    dip: Event,
    swell: Event,
    interruption: Event,
}

impl Logger {
    /// Start: refusals 1 to 6; else a logger that has taken no sample.
    pub fn start(settings: &[u8]) -> Result<Logger, u32> {
        Ok(Logger {
            limits: Limits::new(settings)?,
            count: 0,
            parts: [Part::NONE; CHANNELS],
            lasts: [Part::NONE; CHANNELS],
            whole: false,
            v: 0,
            windows: [Window::EMPTY; CHANNELS],
            marks: [false; PLACES],
            phase: Phase::Filling,
            dip: Event::NONE,
            swell: Event::NONE,
            interruption: Event::NONE,
        })
    }

    /// Feed; `room` takes the records. Refusal 14.
    pub fn feed(&mut self, block: &[Sample], room: &mut [u8]) -> Result<Fed, u32> {
        let (triples, []) = block.as_chunks::<CHANNELS>() else { return Err(14) };
        let mut room = Room { bytes: room, used: 0 };
        let (taken, why) = self.take(triples, &mut room);
        let written = (room.used / RECORD) as u64;
        Ok(Fed { taken: (CHANNELS * taken) as u64, written, why })
    }

    /// Takes half-cycle by half-cycle: the triples taken, and why no more.
    fn take(&mut self, triples: &[[Sample; CHANNELS]], room: &mut Room) -> (usize, u64) {
        let mut taken = 0;
        loop {
            let rest = &triples[taken..];
            let missing = self.limits.m - self.count;
            if rest.len() < missing {
                self.gather(rest);
                return (triples.len(), 0);
            }
            let halves = self.with(&rest[..missing]);
            if let Err(why) = self.halves(halves, room) {
                // The triple that would end the half-cycles cannot be taken.
                self.gather(&rest[..missing - 1]);
                return (taken + missing - 1, why);
            }
            taken += missing;
        }
    }

    /// The halves in progress with further triples.
    fn with(&self, triples: &[[Sample; CHANNELS]]) -> [Part; CHANNELS] {
        std::array::from_fn(|c| {
            let own: Vec<Sample> = triples.iter().map(|x| x[c]).collect();
            self.parts[c].with(&own)
        })
    }

    fn gather(&mut self, triples: &[[Sample; CHANNELS]]) {
        self.parts = self.with(triples);
        self.count += triples.len();
    }

    /// Ends the three half-cycles, or says why not and changes nothing.
    fn halves(&mut self, halves: [Part; CHANNELS], room: &mut Room) -> Result<(), u64> {
        if self.whole {
            if self.v == END {
                return Err(2);
            }
            let r = std::array::from_fn(|c| {
                let mean = 128 * (self.lasts[c].sum + halves[c].sum) / self.limits.m as u64;
                root(mean, 0) as u32
            });
            let clipped = self.lasts.iter().chain(&halves).any(|x| x.clipped);
            if !self.value(r, clipped, room) {
                return Err(1);
            }
        }
        self.count = 0;
        self.parts = [Part::NONE; CHANNELS];
        self.lasts = halves;
        self.whole = true;
        Ok(())
    }

    /// Takes a value of each channel, unless the records do not fit: then nothing changes.
    fn value(&mut self, r: [u32; CHANNELS], clipped: bool, room: &mut Room) -> bool {
        let l = self.limits;
        let i = self.v + 1;
        let [least, greatest] = [r.into_iter().min().unwrap(), r.into_iter().max().unwrap()];
        let low = Value { r: least, clipped };
        let high = Value { r: greatest, clipped };
        // One below is the least below; all below is the greatest below.
        let dip = self.dip.with(i, low, least < l.dip.0, least >= l.dip.1, u32::min);
        let swell = self.swell.with(i, high, greatest > l.swell.0, greatest <= l.swell.1, u32::max);
        let (below, back) = (greatest < l.interruption.0, greatest >= l.interruption.1);
        let interruption = self.interruption.with(i, low, below, back, u32::min);
        let stand = if dip.start == i || swell.start == i { i } else { 0 };

        let windows = std::array::from_fn(|c| self.windows[c].with(i, r[c], &l));
        let (phase, change) = self.phase_after(&windows, stand);
        let due = [
            self.dip.record(1, i, dip),
            self.swell.record(2, i, swell),
            self.interruption.record(3, i, interruption),
            change,
        ];
        if !room.write(due) {
            return false;
        }

        (self.dip, self.swell, self.interruption) = (dip, swell, interruption);
        self.phase = phase;
        self.marks[self.place(i)] = clipped;
        self.windows = windows;
        self.v = i;
        true
    }

    /// The place of value i in the windows.
    fn place(&self, i: u64) -> usize {
        ((i - 1) % self.limits.n as u64) as usize
    }

    /// The joint phase after value V + 1, with these windows, and the record of the change that it
    /// closes; `stand` is V + 1 if a joint dip or swell first stands there, else 0.
    fn phase_after(&self, windows: &[Window; CHANNELS], stand: u64) -> (Phase, Option<Record>) {
        let n = self.limits.n as u64;
        let i = self.v + 1;
        let steady = windows.iter().all(|x| x.signal == Signal::True);
        let before = self.windows.map(|x| x.sum);
        let phase = match self.phase {
            Phase::Filling if i < n => Phase::Filling,
            Phase::Change(mut c) => {
                // Value i − N leaves the windows; it belongs to the change from k on.
                let left = i - n;
                if left >= c.k {
                    let place = self.place(i);
                    for (window, before) in self.windows.iter().zip(c.before) {
                        let scaled = n as u32 * window.places[place];
                        c.greatest = c.greatest.max(scaled.abs_diff(before));
                    }
                    c.clipped |= self.marks[place];
                }
                if c.stand == 0 {
                    c.stand = stand;
                }
                if steady {
                    let sums = windows.iter().zip(c.before);
                    let second = sums.map(|(x, before)| x.sum.abs_diff(before)).max().unwrap();
                    let record = Record {
                        head: head(4, c.clipped),
                        start: c.k,
                        duration: left - c.k,
                        first: c.greatest,
                        second,
                    };
                    let shown = c.stand == 0 || c.stand > left;
                    return (Phase::Steady, shown.then_some(record));
                }
                Phase::Change(c)
            }
            _ if steady => Phase::Steady,
            Phase::Steady => {
                // What stands after V drops the change as what first stands at k does.
                let stood = self.dip.start > 0 || self.swell.start > 0;
                let stand = if stood { i } else { stand };
                Phase::Change(Change { k: i, before, greatest: 0, stand, clipped: false })
            }
            Phase::Filling | Phase::NeverSteady => Phase::NeverSteady,
        };
        (phase, None)
    }

    pub fn look(&self) -> Looked {
        let full = self.v >= self.limits.n as u64;
        let channels = self.windows.each_ref().map(|x| Channel {
            v: self.v,
            r: if self.v > 0 { x.places[self.place(self.v)] as u64 } else { 0 },
            a: if full { x.sum as u64 } else { 0 },
        });
        let phase = match self.phase {
            Phase::Filling => 0,
            Phase::NeverSteady => 1,
            Phase::Steady => 2,
            Phase::Change(_) => 3,
        };
        let stand = [self.dip, self.swell, self.interruption].map(|x| x.start > 0);
        Looked { channels, phase, stand }
    }
}
