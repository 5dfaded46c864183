//! The converter on every implementation at once, in guarded buffers.

use crate::convert;
use crate::editions::{Edition, EARLIER, THIS};
use crate::guard::Guarded;
use crate::hosts::{demand, first_difference, Outcome, Run};

/// The converter's calls.
#[derive(Clone, Copy, Debug, PartialEq, Eq, PartialOrd, Ord)]
pub enum Way {
    Records,
    RecordsBack,
    Image,
    ImageBack,
}

pub const WAYS: [Way; 4] = [Way::Records, Way::RecordsBack, Way::Image, Way::ImageBack];

impl Way {
    pub fn name(self) -> &'static str {
        ["records", "records back", "image", "image back"][self as usize]
    }

    pub fn of_records(self) -> bool {
        matches!(self, Way::Records | Way::RecordsBack)
    }

    pub fn goes_back(self) -> bool {
        matches!(self, Way::RecordsBack | Way::ImageBack)
    }

    /// The other way, of the same.
    pub fn reversed(self) -> Way {
        WAYS[self as usize ^ 1]
    }

    /// The edition that it goes from.
    pub fn from(self) -> &'static Edition {
        if self.goes_back() {
            &THIS
        } else {
            &EARLIER
        }
    }

    /// The edition that it goes to.
    pub fn to(self) -> &'static Edition {
        self.reversed().from()
    }
}

pub type Convert = fn(&[u8], &mut [u8]) -> u32;

/// An implementation of the calls, in the order of `WAYS`.
pub struct Converter {
    pub name: &'static str,
    pub calls: [Convert; 4],
}

/// The outside reading and, with the feature, the proved library.
pub fn converters() -> Vec<Converter> {
    vec![
        Converter {
            name: "convert",
            calls: [convert::records, convert::records_back, convert::image, convert::image_back],
        },
        #[cfg(feature = "proved")]
        Converter {
            name: "proved",
            calls: [
                crate::ffi::convert_records,
                crate::ffi::convert_records_back,
                crate::ffi::convert_image,
                crate::ffi::convert_image_back,
            ],
        },
    ]
}

/// What a call is given.
#[derive(Clone)]
pub struct Asked {
    pub way: Way,
    pub given: Vec<u8>,
    /// Bytes of the buffer that is lent for the output.
    pub output: usize,
}

impl Run<'_> {
    /// The call on every implementation: all must leave the same, a number and the output's bytes,
    /// and change nothing else.
    pub fn convert(&mut self, x: &Asked, fill: u8) -> Outcome<(u32, Vec<u8>)> {
        self.seen.call("convert");
        let before = Guarded::filled(x.output, fill);
        let mut agreed: Option<(u32, Vec<u8>)> = None;
        for Converter { name, calls } in converters() {
            let given = Guarded::new(&x.given);
            let mut output = Guarded::filled(x.output, fill);
            let number = calls[x.way as usize](given.get(), output.get_mut());
            let at = format!("{} by {name} gives {number}", x.way.name());
            let whole = given.get() == x.given && given.holds() && output.holds();
            demand(whole, || format!("{at}: bytes outside changed"))?;
            let refused = number > 0 && output.get() != before.get();
            demand(!refused, || format!("{at}, and the output changed"))?;
            let left = (number, output.get().to_vec());
            if let Some(agreed) = &agreed {
                demand(*agreed == left, || {
                    let bytes = first_difference(&agreed.1, &left.1);
                    format!("{at}, not {}; output {bytes}", agreed.0)
                })?;
            }
            agreed = Some(left);
        }
        Ok(agreed.unwrap())
    }
}
