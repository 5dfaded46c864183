//! An outside implementation of the supply logger's measuring part.
//!
//! Three readings of one paper, written apart from each other:
//! - the engineer (`engineer`, `readings`, `rules`): keeps the whole recording, reads all anew;
//! - the stepper (`stepper`): goes on from any accepted image, one sample at a time, naively;
//! - the logger (`logger`, `limits`, `room`, `squares`, `image`, `host`): small state, half-cycle by
//!   half-cycle.
//!
//! And the same for three phases (`three`). The count of a day is read twice (`days`, `day_seen`), and so
//! is the converter (`convert`, `convert_seen`) from and to the earlier edition (`earlier`).

pub mod engineer;
pub mod readings;
pub mod rules;

pub mod earlier;
pub mod editions;

pub mod stepper;

pub mod host;
pub mod image;
pub mod limits;
pub mod logger;
pub mod room;
pub mod squares;

pub mod program;

pub mod three;

pub mod days;

pub mod convert;

#[cfg(feature = "proved")]
pub mod ffi;

// What the binaries share: random cases and how they are compared.
pub mod arguments;
pub mod by_logger;
pub mod call_lists;
pub mod cases;
pub mod clips;
pub mod convert_cases;
pub mod convert_hosts;
pub mod convert_seen;
pub mod day_cases;
pub mod day_hosts;
pub mod day_seen;
pub mod entries;
pub mod far;
pub mod guard;
pub mod hosts;
pub mod images;
pub mod lists;
pub mod marks;
pub mod moved;
pub mod pairs;
pub mod programs;
pub mod rng;
pub mod seen;
pub mod stands;
pub mod trials;
pub mod waves;
