//! Begin, advance and trial on every implementation at once, in guarded buffers.

use crate::engineer::Engineer;
use crate::guard::Guarded;
use crate::rng::Rng;
use crate::rules::{self, IMAGE, RECORD};
use crate::seen::Seen;
use crate::{host, stepper};

type Begin = fn(&[u8], &mut [u8]) -> u32;
type Advance = fn(&[u8], &[u8], &mut [u8], &mut [u8], &mut [u8]) -> u32;
type Trial = fn(&[u8], &[u8], &mut [u8], &mut [u8]) -> u32;

/// An implementation of begin, advance and trial.
pub struct Host {
    pub name: &'static str,
    pub begin: Begin,
    pub advance: Advance,
    pub trial: Trial,
}

/// The stepper, the logger and, with the feature, the proved library.
pub fn hosts() -> Vec<Host> {
    vec![
        Host {
            name: "stepper",
            begin: stepper::begin,
            advance: stepper::advance,
            trial: stepper::trial,
        },
        Host { name: "logger", begin: host::begin, advance: host::advance, trial: host::trial },
        #[cfg(feature = "proved")]
        Host {
            name: "proved",
            begin: crate::ffi::begin,
            advance: crate::ffi::advance,
            trial: crate::ffi::trial,
        },
    ]
}

/// What an advance leaves: the number and every byte of the three buffers. A trial has no image.
#[derive(PartialEq, Eq)]
pub struct Left {
    pub number: u32,
    pub image: Vec<u8>,
    pub records: Vec<u8>,
    pub reply: Vec<u8>,
}

impl Left {
    /// The reply's number `at`: 0 taken, 1 written, 2 why.
    pub fn reply(&self, at: usize) -> u64 {
        rules::eight(&self.reply, 8 * at) as u64
    }

    /// The records written, after an accepted call.
    pub fn written(&self) -> &[u8] {
        &self.records[..RECORD * self.reply(1) as usize]
    }
}

/// Lengths of the buffers lent to advance. The record buffer is a trial's scratch buffer.
#[derive(Clone, Copy, Debug)]
pub struct Lengths {
    pub image: usize,
    pub records: usize,
    pub reply: usize,
}

/// The buffers that are lent to be written: for the new image, the records, the reply.
fn lent(l: Lengths, fill: u8) -> [Guarded; 3] {
    [
        Guarded::filled(l.image, fill),
        Guarded::filled(l.records, fill ^ 0x55),
        Guarded::filled(l.reply, fill ^ 0x33),
    ]
}

/// A call with an image and samples, and what it is lent.
type OnImage = fn(&Host, [&[u8]; 2], [&mut [u8]; 3]) -> u32;

/// What a check gives: a difference is told in words.
pub type Outcome<T> = Result<T, String>;

pub fn demand(holds: bool, text: impl FnOnce() -> String) -> Outcome<()> {
    if holds {
        Ok(())
    } else {
        Err(text())
    }
}

/// Where two byte strings first differ.
pub fn first_difference(a: &[u8], b: &[u8]) -> String {
    match a.iter().zip(b).position(|(x, y)| x != y) {
        Some(at) => format!("byte {at}: {} and {}", a[at], b[at]),
        None => format!("lengths {} and {}", a.len(), b.len()),
    }
}

/// The implementations, the event programs to run if there are any, and what has been seen.
pub struct Run<'a> {
    pub hosts: &'a [Host],
    pub program: Option<&'a str>,
    pub program_three: Option<&'a str>,
    pub seen: &'a mut Seen,
}

impl Run<'_> {
    /// Begin on every host, in guarded buffers: all must leave the same.
    pub fn begin(&mut self, settings: &[u8], length: usize, fill: u8) -> Outcome<(u32, Vec<u8>)> {
        self.seen.call("begin");
        let mut agreed: Option<(u32, Vec<u8>)> = None;
        for host in self.hosts {
            let given = Guarded::new(settings);
            let mut image = Guarded::filled(length, fill);
            let number = (host.begin)(given.get(), image.get_mut());
            let whole = given.holds() && given.get() == settings && image.holds();
            demand(whole, || format!("begin by {}: bytes outside changed", host.name))?;
            let left = (number, image.get().to_vec());
            if let Some(agreed) = &agreed {
                demand(*agreed == left, || {
                    let (a, b) = (agreed.0, left.0);
                    let bytes = first_difference(&agreed.1, &left.1);
                    format!("begin by {}: numbers {a} and {b}, image {bytes}", host.name)
                })?;
            }
            agreed = Some(left);
        }
        let left = agreed.unwrap();
        let mut expected = Guarded::filled(length, fill).get().to_vec();
        if left.0 == 0 {
            let fresh = Engineer::start(settings).map_err(|x| format!("engineer refuses {x}"))?;
            expected[..IMAGE].copy_from_slice(&fresh.image());
        }
        demand(left.1 == expected, || "begin: the buffer is not as it should be".into())?;
        if left.0 > 0 {
            self.seen.begin_refusals[left.0 as usize] += 1;
        }
        Ok(left)
    }

    /// Advance on every host: all must leave the same.
    pub fn advance(&mut self, image: &[u8], samples: &[u8], l: Lengths, fill: u8) -> Outcome<Left> {
        self.seen.call("advance");
        let call: OnImage = |host, [image, samples], [new, records, reply]| {
            (host.advance)(image, samples, new, records, reply)
        };
        let left = self.on_image("advance", call, [image, samples], l, fill)?;
        match left.number {
            0 => self.seen.fed.add(left.reply(2), left.written()),
            number => self.seen.advance_refusals[number as usize] += 1,
        }
        Ok(left)
    }

    /// Trial on every host: all must leave the same. It has no new image.
    pub fn trial(&mut self, image: &[u8], samples: &[u8], l: Lengths, fill: u8) -> Outcome<Left> {
        self.seen.call("try");
        let l = Lengths { image: 0, ..l };
        let call: OnImage = |host, [image, samples], [_, scratch, reply]| {
            (host.trial)(image, samples, scratch, reply)
        };
        let left = self.on_image("trial", call, [image, samples], l, fill)?;
        self.seen.tries.trial(samples, &l, &left);
        Ok(left)
    }

    /// Advance; in some cases also a trial of the same block with a scratch buffer like the record
    /// buffer, which must leave the same records and reply, and advance again, which must do as before:
    /// a call that kept something would show.
    pub fn advance_and_try(
        &mut self,
        rng: &mut Rng,
        image: &[u8],
        samples: &[u8],
        l: Lengths,
        fill: u8,
    ) -> Outcome<Left> {
        let left = self.advance(image, samples, l, fill)?;
        if rng.chance(10) {
            let tried = self.trial(image, samples, l, fill)?;
            demand(tried.records == left.records && tried.reply == left.reply, || {
                let records = first_difference(&tried.records, &left.records);
                let reply = first_difference(&tried.reply, &left.reply);
                format!("a trial and advance: records {records}, reply {reply}; {l:?}")
            })?;
            let again = self.advance(image, samples, l, fill)?;
            demand(again == left, || "advance does not do the same after a trial".into())?;
            self.seen.tries.alike(&left);
        }
        Ok(left)
    }

    /// A call on every host, in guarded buffers: all must leave the same, and change nothing but what
    /// they are to write.
    fn on_image(
        &self,
        name: &str,
        call: OnImage,
        [image, samples]: [&[u8]; 2],
        l: Lengths,
        fill: u8,
    ) -> Outcome<Left> {
        let mut agreed: Option<Left> = None;
        for host in self.hosts {
            let given = [Guarded::new(image), Guarded::new(samples)];
            let mut lent = lent(l, fill);
            let number = call(
                host,
                given.each_ref().map(Guarded::get),
                lent.each_mut().map(Guarded::get_mut),
            );
            let whole = given[0].get() == image && given[1].get() == samples;
            let guards = given.iter().chain(&lent).all(|x| x.holds());
            demand(whole && guards, || format!("{name} by {}: bytes outside changed", host.name))?;
            let [new, records, reply] = lent.map(|x| x.get().to_vec());
            let left = Left { number, image: new, records, reply };
            if let Some(agreed) = &agreed {
                demand(*agreed == left, || {
                    format!(
                        "{name} by {}: numbers {} and {}, image {}, records {}, reply {}; {l:?}",
                        host.name,
                        agreed.number,
                        left.number,
                        first_difference(&agreed.image, &left.image),
                        first_difference(&agreed.records, &left.records),
                        first_difference(&agreed.reply, &left.reply),
                    )
                })?;
            }
            agreed = Some(left);
        }
        let left = agreed.unwrap();
        // How many bytes of each buffer may have changed: none where the call refused.
        let mut used = [0; 3];
        if left.number == 0 {
            used = [IMAGE.min(l.image), left.written().len(), 24];
            // With room for four records only V's end can keep a sample out.
            let stuck = left.reply(0) == 0 && left.reply(2) == 1 && l.records >= 4 * RECORD;
            demand(!stuck, || "no sample taken, with room for four records".into())?;
        }
        let buffers = [&left.image, &left.records, &left.reply];
        for ((buffer, before), used) in buffers.into_iter().zip(lent(l, fill)).zip(used) {
            demand(buffer[used..] == before.get()[used..], || {
                format!("{name} gives {}: a buffer changed after byte {used}", left.number)
            })?;
        }
        Ok(left)
    }
}
