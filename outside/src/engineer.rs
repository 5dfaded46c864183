//! The engineer: one recording, a copy of it for each accepted save, and every answer read anew.

use crate::readings::{Readings, Record};
use crate::rules::{self, Settings, END, IMAGE, RECORD};

/// What a feed tells, and a trial.
#[derive(Clone, Copy, Debug, PartialEq, Eq)]
pub struct Fed {
    pub taken: u64,
    pub written: u64,
    pub why: u64,
}

impl Fed {
    /// As a reply tells it.
    pub fn of(reply: &[u8]) -> Fed {
        let [taken, written, why] = [0, 8, 16].map(|at| rules::eight(reply, at) as u64);
        Fed { taken, written, why }
    }
}

/// What a look tells.
#[derive(Clone, Copy, Debug, PartialEq, Eq)]
pub struct Looked {
    pub v: u64,
    pub r: u64,
    pub a: u64,
    pub phase: u64,
    pub stand: [bool; 3],
}

/// One call with its arguments. Saves are named by their place among the accepted saves.
#[derive(Clone, Debug)]
pub enum Call {
    Feed { block: Vec<i16>, room: usize },
    Trial { block: Vec<i16>, room: usize },
    Look,
    Save { length: usize },
    RestoreSave { name: usize },
    RestoreBytes { bytes: Vec<u8> },
}

impl Call {
    pub fn name(&self) -> &'static str {
        match self {
            Call::Feed { .. } => "feed",
            Call::Trial { .. } => "trial",
            Call::Look => "look",
            Call::Save { .. } => "save",
            Call::RestoreSave { .. } => "restore of a save",
            Call::RestoreBytes { .. } => "restore of bytes",
        }
    }

    /// The block of a feed or a trial, and the room.
    pub fn block(&self) -> Option<(&[i16], usize)> {
        match self {
            Call::Feed { block, room } | Call::Trial { block, room } => Some((block, *room)),
            _ => None,
        }
    }
}

/// The answer to a call, with the bytes that it writes.
#[derive(Clone, Debug, PartialEq, Eq)]
pub enum Answer {
    Feed(Fed, Vec<u8>),
    Trial(Fed, Vec<u8>),
    Look(Looked),
    Save(u32, Vec<u8>),
    Restore(u32),
}

impl Answer {
    /// What a feed or a trial tells, and the records that it writes.
    pub fn told(&self) -> Option<(Fed, &[u8])> {
        match self {
            Answer::Feed(fed, records) | Answer::Trial(fed, records) => Some((*fed, records)),
            _ => None,
        }
    }
}

struct Copy {
    recording: Vec<i16>,
    written: Vec<u8>,
}

pub struct Engineer {
    s: Settings,
    recording: Vec<i16>,
    /// The bytes of the records written so far.
    written: Vec<u8>,
    saves: Vec<Copy>,
}

impl Engineer {
    /// Start: refusals 1 to 6.
    pub fn start(settings: &[u8]) -> Result<Engineer, u32> {
        let s = rules::settings(settings)?;
        Ok(Engineer { s, recording: Vec::new(), written: Vec::new(), saves: Vec::new() })
    }

    pub fn call(&mut self, call: &Call) -> Answer {
        match call {
            Call::Feed { block, room } => {
                let (fed, bytes) = self.feed(block, *room);
                Answer::Feed(fed, bytes)
            }
            Call::Trial { block, room } => {
                let (fed, bytes) = self.trial(block, *room);
                Answer::Trial(fed, bytes)
            }
            Call::Look => Answer::Look(self.look()),
            Call::Save { length } => match self.save(*length) {
                Ok(bytes) => Answer::Save(0, bytes),
                Err(number) => Answer::Save(number, Vec::new()),
            },
            Call::RestoreSave { name } => {
                self.recording = self.saves[*name].recording.clone();
                self.written = self.saves[*name].written.clone();
                Answer::Restore(0)
            }
            Call::RestoreBytes { bytes } => {
                let number = rules::restore(bytes);
                assert_ne!(number, 0, "bytes that no save named may only be refused ones");
                Answer::Restore(number)
            }
        }
    }

    /// How many values a recording of this many samples has.
    fn values_of(&self, samples: usize) -> i64 {
        (samples as i64 / self.s.m - 1).max(0)
    }

    /// Feed; `room` is the number of lent bytes. It tells and writes what a trial does, and that is
    /// kept.
    pub fn feed(&mut self, block: &[i16], room: usize) -> (Fed, Vec<u8>) {
        let (fed, written) = self.trial(block, room);
        self.recording.extend(&block[..fed.taken as usize]);
        self.written.extend(&written);
        (fed, written)
    }

    /// Trial; `room` is the number of lent bytes. Nothing is kept.
    pub fn trial(&self, block: &[i16], room: usize) -> (Fed, Vec<u8>) {
        let room = room / RECORD;
        let old = self.recording.len();
        let v = self.values_of(old);
        let mut all = self.recording.clone();
        all.extend(block);
        let records = Readings::of(self.s, &all).records();
        // The records due at the values that the first n samples of the block complete. What is
        // due at a value does not hang on later samples, so one reading serves every n.
        let due = |n: usize| -> Vec<Record> {
            let to = self.values_of(old + n);
            records.iter().filter(|x| v < x.due && x.due <= to).copied().collect()
        };
        let within = |n: usize| i128::from(self.values_of(old + n)) <= END;
        let fits = |n: usize| due(n).len() <= room && within(n);
        let mut taken = block.len();
        while !fits(taken) {
            taken -= 1;
        }
        let written: Vec<u8> = due(taken).iter().flat_map(|x| x.bytes()).collect();
        let why = if taken == block.len() {
            0
        } else if !within(taken + 1) {
            2
        } else {
            1
        };
        let count = (written.len() / RECORD) as u64;
        (Fed { taken: taken as u64, written: count, why }, written)
    }

    /// The readings of the recording.
    pub fn readings(&self) -> Readings<'_> {
        Readings::of(self.s, &self.recording)
    }

    pub fn look(&self) -> Looked {
        let x = self.readings();
        let v = x.v();
        Looked {
            v: v as u64,
            r: if v > 0 { x.r(v) as u64 } else { 0 },
            a: if v >= self.s.n { x.a(v) as u64 } else { 0 },
            phase: x.phase() as u64,
            stand: x.stand(),
        }
    }

    /// Save into a buffer of `length` bytes: the image, or refusal 7.
    pub fn save(&mut self, length: usize) -> Result<Vec<u8>, u32> {
        if length < IMAGE {
            return Err(7);
        }
        let image = self.image();
        self.saves.push(Copy { recording: self.recording.clone(), written: self.written.clone() });
        Ok(image)
    }

    /// The image of the recording.
    pub fn image(&self) -> Vec<u8> {
        self.readings().image()
    }

    /// The bytes of the records written so far.
    pub fn written(&self) -> &[u8] {
        &self.written
    }

    /// The bytes of all records of the recording due at values up to V.
    pub fn due(&self) -> Vec<u8> {
        self.readings().records().iter().flat_map(|x| x.bytes()).collect()
    }

    /// How many changes of the recording ended without a record.
    pub fn changes_dropped(&self) -> usize {
        let x = self.readings();
        let recorded = x.records().iter().filter(|x| x.kind == 4).count();
        x.changes().len() - recorded
    }
}
