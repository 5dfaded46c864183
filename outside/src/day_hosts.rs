//! The count of a day on every implementation at once, in guarded buffers.

use crate::days::{self, REPLY};
use crate::guard::Guarded;
use crate::hosts::{demand, first_difference, Outcome, Run};

type CountDay = fn(&[u8], &[u8], u64, u32, u64, &mut [u8]) -> u32;

/// An implementation of the call.
pub struct Counter {
    pub name: &'static str,
    pub count_day: CountDay,
}

/// The outside reading and, with the feature, the proved library.
pub fn counters() -> Vec<Counter> {
    vec![
        Counter { name: "days", count_day: days::count_day },
        #[cfg(feature = "proved")]
        Counter { name: "proved", count_day: crate::ffi::count_day },
    ]
}

/// What a call is given.
#[derive(Clone)]
pub struct Asked {
    pub settings: Vec<u8>,
    pub records: Vec<u8>,
    pub z: u64,
    pub above: u32,
    pub day: u64,
    /// Bytes of the buffer that is lent for the reply.
    pub reply: usize,
}

impl Asked {
    /// In words.
    pub fn text(&self) -> String {
        let Asked { settings, records, z, above, day, reply } = self;
        let lengths = [settings.len(), records.len(), *reply];
        format!("z {z}, above {above}, day {day}, lengths {lengths:?}")
    }
}

impl Run<'_> {
    /// The call on every implementation: all must leave the same, a number and the reply's bytes,
    /// and change nothing else.
    pub fn count_day(&mut self, x: &Asked, fill: u8) -> Outcome<(u32, Vec<u8>)> {
        self.seen.call("count_day");
        let before = Guarded::filled(x.reply, fill);
        let mut agreed: Option<(u32, Vec<u8>)> = None;
        for Counter { name, count_day } in counters() {
            let settings = Guarded::new(&x.settings);
            let records = Guarded::new(&x.records);
            let mut reply = Guarded::filled(x.reply, fill);
            let number =
                count_day(settings.get(), records.get(), x.z, x.above, x.day, reply.get_mut());
            let given = settings.get() == x.settings && records.get() == x.records;
            let guards = [&settings, &records, &reply].iter().all(|x| x.holds());
            demand(given && guards, || format!("count_day by {name}: bytes outside changed"))?;
            // How many bytes of the reply may have changed: none where the call refused.
            let used = if number == 0 { REPLY } else { 0 };
            demand(used <= x.reply && reply.get()[used..] == before.get()[used..], || {
                format!("count_day by {name} gives {number}: the reply changed after byte {used}")
            })?;
            let left = (number, reply.get().to_vec());
            if let Some(agreed) = &agreed {
                demand(*agreed == left, || {
                    let (a, b) = (agreed.0, left.0);
                    let bytes = first_difference(&agreed.1, &left.1);
                    format!("count_day by {name}: numbers {a} and {b}, reply {bytes}")
                })?;
            }
            agreed = Some(left);
        }
        Ok(agreed.unwrap())
    }
}
