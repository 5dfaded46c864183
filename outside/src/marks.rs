//! Counts of what the marks of recordings have shown, in records and in images.

use crate::images::Fields;
use crate::readings::{is_clipped, Readings};
use crate::seen::KINDS;

/// The marks of an image.
const IMAGE_MARKS: [&str; 7] =
    ["half in progress", "last half", "value", "dip", "swell", "interruption", "rvc"];

/// Numbers for each kind of record have an unused place 0.
#[derive(Default)]
pub struct Marks {
    /// Records without and with the mark.
    records: [[u64; 2]; 5],
    /// Records without the mark: the value before the start is clipped; the one after the last value
    /// of the first magnitude is; −32767, or 32766, is one of their samples.
    clipped_before: [u64; 5],
    clipped_after: [u64; 5],
    near_least: [u64; 5],
    near_greatest: [u64; 5],
    /// Records with the mark by their first value only, and by their last value only.
    by_first: [u64; 5],
    by_last: [u64; 5],
    /// Records with the mark that have one of the two clipped counts and not the other.
    by_least: [u64; 5],
    by_greatest: [u64; 5],
    /// Images where a mark is used, without and with it.
    images: [[u64; 2]; 7],
    /// Images with every mark that a recording can have at one time.
    all: u64,
    /// Images in a change without its mark: with a clipped value from k on, and V < k + N or not.
    early_change: u64,
    later_in_change: u64,
    /// Halves in progress without the mark where the next sample, which is clipped, was not taken.
    not_taken: u64,
}

impl Marks {
    /// The records of a recording.
    pub fn records(&mut self, x: &Readings) {
        for record in x.records() {
            let kind = record.kind as usize;
            let (first, last) = (record.start, record.last(x.n()));
            let samples = x.samples(first, last);
            self.records[kind][record.clipped as usize] += 1;
            if record.clipped {
                self.by_first[kind] += !x.any_clipped(first + 1, last) as u64;
                self.by_last[kind] += !x.any_clipped(first, last - 1) as u64;
                self.by_least[kind] += !samples.contains(&32_767) as u64;
                self.by_greatest[kind] += !samples.contains(&-32_768) as u64;
            } else {
                self.clipped_before[kind] += (first > 1 && x.clipped(first - 1)) as u64;
                self.clipped_after[kind] += (last < x.v() && x.clipped(last + 1)) as u64;
                self.near_least[kind] += samples.contains(&-32_767) as u64;
                self.near_greatest[kind] += samples.contains(&32_766) as u64;
            }
        }
    }

    /// The image of a recording.
    pub fn image(&mut self, x: &Fields) {
        let n = x.s.n as usize;
        let used = x.used();
        let places = &x.place_marks[..used];
        let [dip, swell, interruption, change] = x.event_marks;
        let settled = x.settled();
        let mut see = |which: usize, used: bool, mark: bool| {
            self.images[which][mark as usize] += used as u64;
        };
        see(0, x.count > 0, x.half_marks[0] == 1);
        see(1, x.whole == 1, x.half_marks[1] == 1);
        see(2, places.contains(&0), false);
        see(2, places.contains(&1), true);
        for e in 0..3 {
            see(3 + e, x.events[2 * e] > 0, x.event_marks[e] == 1);
        }
        see(6, settled, change == 1);
        let every_value = used == n && !places.contains(&0);
        let every_event = swell == 1 || (dip == 1 && interruption == 1);
        self.all += (x.half_marks == [1, 1] && every_value && every_event && change == 1) as u64;
        if x.phase == 3 && change == 0 {
            // The kept values from k on.
            let since = (x.v - x.change[0] + 1).min(n as u64) as usize;
            let clipped = x.place_marks[n - since..n].contains(&1);
            self.early_change += (clipped && !settled) as u64;
            self.later_in_change += (clipped && settled) as u64;
        }
    }

    /// The image after a feed, and the block's next sample, if there is one.
    pub fn fed(&mut self, x: &Fields, next: Option<&i16>) {
        let clipped = next.is_some_and(|&x| is_clipped(x));
        self.not_taken += (clipped && x.half_marks[0] == 0) as u64;
    }

    /// The counts of each mark of an image under their names.
    pub fn image_counts(&self) -> Vec<(String, u64)> {
        let names =
            IMAGE_MARKS.iter().flat_map(|x| [0, 1].map(|mark| format!("image: {x}, mark {mark}")));
        names.zip(self.images.into_iter().flatten()).collect()
    }

    /// Every count under its name.
    pub fn counts(&self) -> Vec<(String, u64)> {
        let mut list = self.image_counts();
        let mut add = |name: String, count: u64| list.push((name, count));
        add("image: every mark 1".into(), self.all);
        add("image: rvc, clipped before V is k + N".into(), self.early_change);
        add("image: rvc, mark 0, clipped after V - N".into(), self.later_in_change);
        add("clipped sample not taken, mark 0".into(), self.not_taken);
        for (kind, name) in KINDS {
            let name = format!("recording: {name}");
            add(format!("{name}, mark 0"), self.records[kind][0]);
            add(format!("{name}, mark 1"), self.records[kind][1]);
            add(format!("{name}, mark 0, clipped before its start"), self.clipped_before[kind]);
            add(format!("{name}, mark 0, clipped after its last value"), self.clipped_after[kind]);
            add(format!("{name}, mark 0, with -32767"), self.near_least[kind]);
            add(format!("{name}, mark 0, with 32766"), self.near_greatest[kind]);
            add(format!("{name}, mark 1 by its first value"), self.by_first[kind]);
            add(format!("{name}, mark 1 by its last value"), self.by_last[kind]);
            add(format!("{name}, mark 1 by -32768 alone"), self.by_least[kind]);
            add(format!("{name}, mark 1 by 32767 alone"), self.by_greatest[kind]);
        }
        list
    }
}
