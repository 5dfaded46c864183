//! The engineer of three phases: one recording for each channel, and every answer read anew.

use super::readings::Readings;
use super::{Channel, Looked, CHANNELS};
use crate::engineer::Fed;
use crate::readings::Record;
use crate::rules::{self, Settings, END, RECORD};

pub struct Engineer {
    s: Settings,
    recordings: [Vec<i16>; CHANNELS],
    /// The bytes of the records written so far.
    written: Vec<u8>,
}

/// Each channel's samples of whole triples.
pub fn apart(triples: &[i16]) -> [Vec<i16>; CHANNELS] {
    std::array::from_fn(|c| triples.chunks_exact(CHANNELS).map(|x| x[c]).collect())
}

/// The readings of whole triples.
pub fn readings(s: Settings, recordings: &[Vec<i16>; CHANNELS]) -> Readings<'_> {
    Readings::of(s, recordings.each_ref().map(|x| &x[..]))
}

impl Engineer {
    /// Start: refusals 1 to 6.
    pub fn start(settings: &[u8]) -> Result<Engineer, u32> {
        let s = rules::settings(settings)?;
        Ok(Engineer { s, recordings: Default::default(), written: Vec::new() })
    }

    /// How many values recordings of this many triples have.
    fn values_of(&self, triples: usize) -> i64 {
        (triples as i64 / self.s.m - 1).max(0)
    }

    /// Feed; `room` is the number of lent bytes. Refusal 14.
    pub fn feed(&mut self, block: &[i16], room: usize) -> Result<(Fed, Vec<u8>), u32> {
        if block.len() % CHANNELS != 0 {
            return Err(14);
        }
        let room = room / RECORD;
        let triples = block.len() / CHANNELS;
        let old = self.recordings[0].len();
        let v = self.values_of(old);
        let mut all = self.recordings.clone();
        for (recording, more) in all.iter_mut().zip(apart(block)) {
            recording.extend(more);
        }
        let records = readings(self.s, &all).records();
        // The records due at the values that the first n triples of the block complete. What is due
        // at a value does not hang on later samples, so one reading serves every n.
        let due = |n: usize| -> Vec<Record> {
            let to = self.values_of(old + n);
            records.iter().filter(|x| v < x.due && x.due <= to).copied().collect()
        };
        let within = |n: usize| i128::from(self.values_of(old + n)) <= END;
        let fits = |n: usize| due(n).len() <= room && within(n);
        let mut taken = triples;
        while !fits(taken) {
            taken -= 1;
        }
        let written: Vec<u8> = due(taken).iter().flat_map(|x| x.bytes()).collect();
        let why = if taken == triples {
            0
        } else if !within(taken + 1) {
            2
        } else {
            1
        };
        for (recording, more) in self.recordings.iter_mut().zip(apart(block)) {
            recording.extend(&more[..taken]);
        }
        self.written.extend(&written);
        let count = (written.len() / RECORD) as u64;
        Ok((Fed { taken: (CHANNELS * taken) as u64, written: count, why }, written))
    }

    /// The readings of the three recordings.
    pub fn readings(&self) -> Readings<'_> {
        readings(self.s, &self.recordings)
    }

    pub fn look(&self) -> Looked {
        let x = self.readings();
        let v = x.v();
        let channels = x.channels().each_ref().map(|channel| Channel {
            v: v as u64,
            r: if v > 0 { channel.r(v) as u64 } else { 0 },
            a: if v >= self.s.n { channel.a(v) as u64 } else { 0 },
        });
        Looked { channels, phase: x.phase() as u64, stand: x.stand() }
    }

    /// How many triples have been taken.
    pub fn triples(&self) -> usize {
        self.recordings[0].len()
    }

    /// The bytes of the records written so far.
    pub fn written(&self) -> &[u8] {
        &self.written
    }

    /// The bytes of all records of the recordings due at values up to V.
    pub fn due(&self) -> Vec<u8> {
        self.readings().records().iter().flat_map(|x| x.bytes()).collect()
    }
}
