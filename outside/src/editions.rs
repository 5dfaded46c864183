//! This edition and the earlier one side by side, for what is read and written in both.

use crate::{earlier, rules};

pub struct Edition {
    /// Bytes of a number that counts values: V, k, the first stand, a start, a duration.
    pub count: usize,
    pub record: usize,
    pub image: usize,
    /// V's end.
    pub end: i128,
    pub table: fn() -> Vec<u8>,
    /// Restore's answer to any bytes: 0 accepted, else 8 to 11.
    pub restore: fn(&[u8]) -> u32,
}

pub static THIS: Edition = Edition {
    count: 8,
    record: rules::RECORD,
    image: rules::IMAGE,
    end: rules::END,
    table: rules::table,
    restore: rules::restore,
};

pub static EARLIER: Edition = Edition {
    count: 4,
    record: earlier::RECORD,
    image: earlier::IMAGE,
    end: earlier::END,
    table: earlier::table,
    restore: earlier::restore,
};
