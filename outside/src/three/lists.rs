//! Lists of calls as the program `call_lists_three` reads them, and the text that it must print: read
//! from the three whole recordings by the engineer, and once more by the logger.
//!
//! The input is items, one behind the other: 6 bytes (the kind; what every byte of the lent buffer is
//! before the call; a number, 2 bytes; how many bytes follow, 2 bytes; low byte first), then these
//! bytes. A list is a start and its calls; a refused start has none.

use super::engineer::Engineer;
use super::logger::Logger;
use super::program::HIGH;
use super::seen::{Marks, Stands};
use super::{waves, Looked};
use crate::call_lists::{buffer, fed_line, printed, List, FEED, LOOK, ROOM, START};
use crate::engineer::Fed;
use crate::lists::about_whole_records;
use crate::rng::{one_of, Rng};
use crate::room::RECORD;
use crate::rules::{settings_bytes, Settings};
use crate::seen::KINDS;

/// The most samples that follow an item, in whole triples.
const MOST_SAMPLES: usize = 32_766;
/// The lists that the gate runs the program on in one go, by their numbers under a seed: together
/// they have everything that is counted.
const FILES_SEED: u64 = 1;
const FILES_LISTS: [u64; 7] = [6447, 6648, 7558, 9106, 10211, 11053, 14257];

/// What has been seen.
#[derive(Default)]
pub struct Tally {
    /// Items: start, feed, look, and those of another kind.
    items: [u64; 4],
    /// Refusals, 1 to 6 and 14.
    refusals: [u64; 15],
    whys: [u64; 2],
    /// Records, by kind, 1 to 4, without and with the mark; and what the marks of all have shown.
    records: [[u64; 2]; 5],
    marks: Marks,
    /// What joint dips and swells that stand before a change have shown.
    stands: Stands,
    /// Phases, and dips, swells and interruptions that stand, in what look tells.
    phases: [u64; 4],
    stand: [u64; 3],
    /// Feeds that take a part of their block, and none of it; that leave a half-cycle in progress;
    /// that have an odd last byte; and refused ones with room, and without.
    part: u64,
    nothing: u64,
    in_progress: u64,
    odd: u64,
    refused: [u64; 2],
}

impl Tally {
    /// Every count under its name.
    pub fn counts(&self) -> Vec<(String, u64)> {
        let mut list = vec![("calls".to_string(), self.items.iter().sum())];
        let mut add = |name: String, count: u64| list.push((name, count));
        for (name, count) in ["start", "feed", "look", "another kind"].iter().zip(self.items) {
            add(format!("  {name}"), count);
        }
        for number in [1, 2, 3, 4, 5, 6, 14] {
            add(format!("refused {number}"), self.refusals[number]);
        }
        for (why, count) in self.whys.into_iter().enumerate() {
            add(format!("why {why}"), count);
        }
        for (kind, name) in KINDS {
            add(format!("record {name}, mark 0"), self.records[kind][0]);
            add(format!("record {name}, mark 1"), self.records[kind][1]);
        }
        for (phase, count) in self.phases.into_iter().enumerate() {
            add(format!("look in phase {phase}"), count);
        }
        for ((_, name), count) in KINDS.iter().zip(self.stand) {
            add(format!("look, {name} stands"), count);
        }
        add("feed of a part of the block".into(), self.part);
        add("feed of nothing of the block".into(), self.nothing);
        add("feed that leaves a half-cycle in progress".into(), self.in_progress);
        add("feed with an odd last byte".into(), self.odd);
        add("feed refused, no room".into(), self.refused[0]);
        add("feed refused, room".into(), self.refused[1]);
        list.extend(self.marks.counts());
        list.extend(self.stands.counts());
        list
    }
}

/// The line of a feed: what it tells, or its refusal, and the buffer of this length as it leaves it.
fn feed_line(answer: &Result<(Fed, Vec<u8>), u32>, length: usize, fill: u8) -> String {
    match answer {
        Ok((fed, records)) => fed_line("feed", fed, &buffer(length, fill, records)) + "\n",
        Err(number) => format!("refused {number} {}\n", buffer(length, fill, &[])),
    }
}

/// The line of a look.
fn look_line(looked: &Looked) -> String {
    let channels = looked.channels.map(|x| format!("{} {} {}", x.v, x.r, x.a)).join(" ");
    let [dip, swell, interruption] = looked.stand.map(|x| x as u8);
    format!("look {channels} {} {dip} {swell} {interruption}\n", looked.phase)
}

/// A list that is being made.
struct Making<'a> {
    rng: &'a mut Rng,
    s: Settings,
    engineer: Engineer,
    list: List,
    seen: &'a mut Tally,
}

impl Making<'_> {
    /// Feeds these samples; gives how many were taken.
    fn feed(&mut self, samples: &[i16], room: usize) -> usize {
        let fill = self.rng.next() as u8;
        let mut bytes = crate::waves::bytes(samples);
        // A last odd byte is no sample.
        let odd = self.rng.chance(10);
        bytes.extend(odd.then_some(fill));
        self.list.item(FEED, fill, room, &bytes);
        let answer = self.engineer.feed(samples, room);
        self.list.text += &feed_line(&answer, room, fill);
        let seen = &mut self.seen;
        seen.items[FEED as usize] += 1;
        seen.odd += odd as u64;
        match answer {
            Ok((fed, records)) => {
                let taken = fed.taken as usize;
                let triples = self.engineer.triples() as i64;
                seen.whys[fed.why as usize] += 1;
                seen.part += (0 < taken && taken < samples.len()) as u64;
                seen.nothing += (taken == 0 && !samples.is_empty()) as u64;
                seen.in_progress += (taken > 0 && triples % self.s.m != 0) as u64;
                for x in records.chunks(RECORD) {
                    seen.records[x[0] as usize][x[1] as usize] += 1;
                }
                taken
            }
            Err(number) => {
                seen.refusals[number as usize] += 1;
                seen.refused[(room > 0) as usize] += 1;
                0
            }
        }
    }

    fn look(&mut self) {
        self.list.item(LOOK, self.rng.next() as u8, 0, &[]);
        let looked = self.engineer.look();
        self.list.text += &look_line(&looked);
        self.seen.items[LOOK as usize] += 1;
        self.seen.phases[looked.phase as usize] += 1;
        (0..3).filter(|&e| looked.stand[e]).for_each(|e| self.seen.stand[e] += 1);
    }

    /// An item that the program skips, as a call.
    fn skipped(&mut self) {
        let bytes = vec![7; self.rng.range(0, 9) as usize];
        self.list.item(self.rng.range(3, 255) as u8, 0, 7, &bytes);
        self.seen.items[3] += 1;
    }

    /// How many of so many samples a feed is given, when it is to share them with `left` calls.
    fn length(&mut self, most: i64, left: i64) -> usize {
        let m = 3 * self.s.m;
        let length = match self.rng.range(0, 9) {
            0 => self.rng.range(0, 4),
            1 => self.rng.range(0, m + 3),
            2 => one_of(&[m - 3, m, m + 3, 2 * m, m - 1, m + 1], self.rng),
            3 => m * self.rng.range(1, 30),
            4 => 3 * self.rng.range(0, 10),
            5..=6 => most,
            _ => (2 * most / left + self.rng.range(0, m)) / 3 * 3,
        };
        length.min(most).min(MOST_SAMPLES as i64) as usize
    }

    fn room(&mut self) -> usize {
        match self.rng.range(0, 9) {
            0..=1 => 0,
            2 => self.rng.range(0, 5 * RECORD as i64) as usize,
            3..=6 => about_whole_records(self.rng),
            _ => ROOM,
        }
    }

    fn calls(&mut self, calls: i64) {
        let s = self.s;
        let halves = match s.m {
            ..=16 => {
                one_of(&[self.rng.range(1, 100), self.rng.range(2 * s.n + 1, 4 * s.n)], self.rng)
            }
            17..=40 => self.rng.range(1, 2 * s.n),
            _ => self.rng.range(1, 60),
        };
        let source = waves::recording(self.rng, &s, halves);
        let mut left = &source[..];
        for j in 0..calls {
            match self.rng.range(0, 99) {
                0..=19 => self.look(),
                20..=21 => self.skipped(),
                _ => {
                    let length = self.length(left.len() as i64, calls - j);
                    let room = self.room();
                    let taken = self.feed(&left[..length], room);
                    left = &left[taken..];
                }
            }
        }
        // What is left, and what the list leaves.
        let length = left.len().min(MOST_SAMPLES);
        self.feed(&left[..length], ROOM);
        self.look();
    }
}

/// The item of a start that is not refused, before so many calls, and what its calls are made with.
fn start<'a>(
    mut list: List,
    s: Settings,
    calls: i64,
    rng: &'a mut Rng,
    seen: &'a mut Tally,
) -> Making<'a> {
    let bytes = settings_bytes(&s);
    list.item(START, rng.next() as u8, calls as usize, &bytes);
    list.text += "start\n";
    seen.items[START as usize] += 1;
    let engineer = Engineer::start(&bytes).unwrap();
    Making { rng, s, engineer, list, seen }
}

/// A dip, an interruption and a change that end with one value: with no room for the third record,
/// with room for all, and a look after each. Both events first stand after m − N.
fn three_due(rng: &mut Rng, seen: &mut Tally) -> List {
    let s = Settings { i: HIGH.d, g: 0, ..HIGH };
    let steps = [(150, 22_500), (2, 23_500), (98, 22_500), (2, 22_250), (3, 22_750)];
    let block = steps.map(|(halves, count)| vec![count; 24 * halves]).concat();
    let mut making = start(List::default(), s, 4, rng, seen);
    let taken = making.feed(&block, 3 * RECORD - 1);
    making.look();
    making.feed(&block[taken..], 3 * RECORD);
    making.look();
    assert_eq!(making.engineer.written().len(), 3 * RECORD);
    making.list
}

/// Calls on good settings, then a feed of what is left, and a look; sometimes after starts that are
/// refused, with each number.
pub fn list(rng: &mut Rng, seen: &mut Tally) -> List {
    let mut list = List::default();
    for number in 1..=if rng.chance(12) { 6 } else { 0 } {
        let bytes = waves::refused(rng, number);
        list.item(START, rng.next() as u8, rng.range(0, 3) as usize, &bytes);
        list.text += &format!("refused {number}\n");
        seen.items[START as usize] += 1;
        seen.refusals[number as usize] += 1;
    }
    let s = waves::settings(rng);
    let calls = rng.range(1, 25);
    let mut making = start(list, s, calls + 2, rng, seen);
    making.calls(calls);
    assert_eq!(making.engineer.written(), making.engineer.due());
    let readings = making.engineer.readings();
    making.seen.marks.readings(&readings);
    making.seen.stands.readings(&readings);
    making.list
}

/// Puts what the program does not read any more behind a list: where a start should stand, another
/// item, and then a start.
pub fn end(list: &mut List, kind: u8) {
    list.item(kind, 1, RECORD, &[1, 2, 3, 4, 5, 6]);
    list.item(START, 1, 0, &[1, 2, 3]);
}

/// The lists that the gate runs the program on, one behind the other, and what it does not read.
pub fn files(seen: &mut Tally) -> List {
    let mut all = List::default();
    for number in FILES_LISTS {
        all.append(list(&mut Rng::of_case(FILES_SEED, number), seen));
    }
    all.append(three_due(&mut Rng::of_case(FILES_SEED, 0), seen));
    end(&mut all, FEED);
    all
}

/// What the program prints on any input, by the logger.
pub fn by_logger(input: &[u8]) -> String {
    printed(input, Logger::start, |logger, (kind, fill, number, bytes, _)| match kind {
        FEED => {
            let mut room = vec![fill; number];
            let fed = logger.feed(bytes.as_chunks::<2>().0, &mut room);
            feed_line(&fed.map(|fed| (fed, room)), number, fill)
        }
        LOOK => look_line(&logger.look()),
        _ => String::new(),
    })
}
