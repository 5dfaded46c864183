//! Three phases: samples in turn a, b, c under one set of settings, and joint records.
//!
//! Two readings of the paper, written apart from each other:
//! - the engineer (`engineer`, `readings`): keeps the three whole recordings, reads all anew;
//! - the logger (`logger`): small state, half-cycle by half-cycle.

pub mod engineer;
pub mod readings;

pub mod logger;

pub mod program;

// What the binaries share: random recordings and how they are compared.
pub mod cases;
pub mod lists;
pub mod seen;
pub mod waves;

/// The channels a, b, c.
pub const CHANNELS: usize = 3;

/// What a look tells of one channel.
#[derive(Clone, Copy, Debug, PartialEq, Eq)]
pub struct Channel {
    pub v: u64,
    pub r: u64,
    pub a: u64,
}

/// What a look tells: each channel, the joint phase, and which joint events stand.
#[derive(Clone, Copy, Debug, PartialEq, Eq)]
pub struct Looked {
    pub channels: [Channel; CHANNELS],
    pub phase: u64,
    pub stand: [bool; 3],
}
