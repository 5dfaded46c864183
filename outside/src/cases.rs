//! Random cases: settings, lists of calls, counts of a day, conversions, images, damaged images. Each is
//! run on every implementation, and the first difference is told.

use crate::editions::THIS;
use crate::hosts::{demand, Lengths, Outcome, Run};
use crate::images::{self, Fields};
use crate::lists::recording;
use crate::logger::Logger;
use crate::moved::Moved;
use crate::readings::{Readings, Record};
use crate::rng::{one_of, Rng};
use crate::rules::{self, settings_bytes, Settings, IMAGE, RECORD};
use crate::{clips, pairs, stands, waves};

/// What several advances have come to: the samples taken, the records written, the image.
struct Advanced {
    taken: u64,
    written: Vec<u8>,
    image: Vec<u8>,
}

impl Run<'_> {
    /// One case.
    pub fn case(&mut self, rng: &mut Rng) -> Outcome<()> {
        match rng.range(0, 99) {
            0..=9 => self.settings_case(rng),
            10..=44 => self.list_case(rng),
            45..=47 => self.day_case(rng),
            48..=49 => self.convert_case(rng),
            50..=74 => self.image_case(rng),
            75..=76 => self.stands_case(rng),
            77..=78 => self.far_case(rng),
            79..=90 => self.damaged_case(rng),
            91..=95 => self.program_case(rng),
            _ => self.three_case(rng),
        }
    }

    /// Start and begin on good and bad settings.
    fn settings_case(&mut self, rng: &mut Rng) -> Outcome<()> {
        let bytes = if rng.chance(15) {
            settings_bytes(&waves::settings(rng))
        } else {
            waves::bad_settings(rng)
        };
        self.seen.call("start");
        let number = rules::settings(&bytes).err().unwrap_or(0);
        let by_logger = Logger::start(&bytes).err().unwrap_or(0);
        demand(number == by_logger, || format!("start: numbers {number} and {by_logger}"))?;
        let length = one_of(&[IMAGE, IMAGE, IMAGE + 1, 900, 0, 1, 764, IMAGE - 1], rng);
        let (begun, _) = self.begin(&bytes, length, rng.next() as u8)?;
        let expected = if number == 0 && length < IMAGE { 7 } else { number };
        demand(begun == expected, || format!("begin gives {begun}, not {expected}"))
    }

    /// Advances from an accepted image, built directly or saved and then changed.
    fn image_case(&mut self, rng: &mut Rng) -> Outcome<()> {
        let s = waves::settings(rng);
        let image = match rng.range(0, 9) {
            0 => pairs::pair(rng, &THIS, s).accepted.bytes(),
            1..=2 => {
                let saved = recorded(rng, &s);
                let changed = changed_byte(rng, &saved);
                if rules::restore(&changed) == 0 {
                    changed
                } else {
                    saved
                }
            }
            _ => images::accepted(rng, s),
        };
        let s = Fields::of(&image).s;
        let halves = one_of(&[1, 3, 30, s.n + 5, 2 * s.n + 5], rng);
        let halves = if s.m > 40 { halves.min(s.n + 5) } else { halves };
        let samples = clips::wave(rng, &s, halves);
        self.advances(rng, &image, &samples)?;
        Ok(())
    }

    /// Advances from an image as versions 2.0 and 2.1 saved it in a change, or from a steady one that no
    /// recording gives, with events that stand before a step.
    fn stands_case(&mut self, rng: &mut Rng) -> Outcome<()> {
        let s = waves::settings(rng);
        match version_before(rng, s) {
            Some((image, samples, record)) if rng.chance(50) => {
                let records = self.advances(rng, &image.bytes(), &samples)?.written;
                let change = stands::change(&records, record.start as u64);
                demand(change.is_none_or(|x| x == record.bytes()), || {
                    format!("the record of the change is {change:?}, not {record:?}")
                })?;
                self.seen.stands.version_before(&image, &records);
            }
            _ => {
                let (image, samples) = images::before_a_step(rng, s);
                self.advances(rng, &image.bytes(), &samples)?;
            }
        }
        Ok(())
    }

    /// Advances from the image of a recording, moved on so that V passes 2^32 − 1 or comes to its end:
    /// what is written, and the image come to, are the recording's, moved on as far.
    fn far_case(&mut self, rng: &mut Rng) -> Outcome<()> {
        let (s, samples) = recording(rng);
        let Some(x) = Moved::of(rng, &THIS, s, &samples) else { return Ok(()) };
        let to = self.advances(rng, &x.image(0).bytes(), x.left())?;
        x.demand(to.taken, &to.written, &to.image)
    }

    /// Advances over samples from an accepted image, block by block.
    fn advances(&mut self, rng: &mut Rng, image: &[u8], samples: &[i16]) -> Outcome<Advanced> {
        demand(rules::restore(image) == 0, || "the built image is not accepted".into())?;
        self.kept_image(image)?;
        let first = Fields::of(image);
        let s = first.s;
        let mut image = image.to_vec();
        let mut written = Vec::new();
        let samples = waves::bytes(samples);
        let mut left = &samples[..];
        for _ in 0..rng.range(1, 5) {
            let most = left.len() as i64 / 2;
            let length = one_of(&[most, most, rng.range(0, most), s.m.min(most), 1.min(most)], rng);
            let lengths = Lengths {
                image: IMAGE + one_of(&[0, 0, 1, 80], rng),
                records: some_room(rng),
                reply: 24 + one_of(&[0, 0, 1, 40], rng),
            };
            let fill = rng.next() as u8;
            let block = &left[..2 * length as usize];
            let x = self.advance_and_try(rng, &image, block, lengths, fill)?;
            self.seen.built += 1;
            demand(x.number == 0, || format!("an accepted image gives {}", x.number))?;
            demand(rules::restore(&x.image[..IMAGE]) == 0, || "the new image is refused".into())?;
            left = &left[2 * x.reply(0) as usize..];
            written.extend(x.written());
            self.seen.far.feed(&image, &x.image, x.written(), x.reply(2));
            image = x.image[..IMAGE].to_vec();
            self.kept_image(&image)?;
        }
        self.seen.stands.accepted(&first, &written);
        Ok(Advanced { taken: (samples.len() - left.len()) as u64 / 2, written, image })
    }

    /// The logger of an accepted image looks as its bodies say, and saves the same image.
    fn kept_image(&mut self, image: &[u8]) -> Outcome<()> {
        self.seen.call("restore");
        self.seen.call("look");
        let logger = Logger::from_image(image).map_err(|x| format!("logger refuses {x}"))?;
        demand(image_of(&logger) == image, || "restore and save give another image".into())?;
        let (looked, expected) = (logger.look(), Fields::of(image).look());
        demand(looked == expected, || format!("look gives {looked:?}, not {expected:?}"))
    }

    /// Advances and trials with one thing, or several, that must be refused.
    fn damaged_case(&mut self, rng: &mut Rng) -> Outcome<()> {
        let s = waves::settings(rng);
        let good = match rng.range(0, 2) {
            0 => recorded(rng, &s),
            _ => images::accepted(rng, s),
        };
        for _ in 0..12 {
            let image = match rng.range(0, 9) {
                0..=3 => damaged(rng, &good),
                4..=6 => self.at_a_rule(rng, s)?,
                _ => good.clone(),
            };
            let number = rules::restore(&image);
            self.seen.call("restore");
            let by_logger = Logger::from_image(&image).err().unwrap_or(0);
            demand(number == by_logger, || format!("restore: numbers {number} and {by_logger}"))?;
            let mut samples = waves::bytes(&clips::wave(rng, &s, 2));
            if rng.chance(30) {
                samples.pop();
            }
            let lengths = Lengths {
                image: one_of(&[IMAGE, IMAGE, IMAGE, IMAGE + 1, IMAGE - 1, 0, 24], rng),
                records: one_of(&[0, RECORD - 1, RECORD, 4 * RECORD], rng),
                reply: one_of(&[24, 24, 24, 25, 23, 0, 8], rng),
            };
            let fill = rng.next() as u8;
            let advanced = self.advance(&image, &samples, lengths, fill)?.number;
            let tried = self.trial(&image, &samples, lengths, fill)?.number;
            // The order 8 to 11, 12, 7, 13. A trial has no new image, and no 7.
            let image = (number, number > 0);
            let odd = (12, samples.len() % 2 == 1);
            let (room, reply) = ((7, lengths.image < IMAGE), (13, lengths.reply < 24));
            let orders =
                [(advanced, vec![image, odd, room, reply]), (tried, vec![image, odd, reply])];
            for (number, order) in orders {
                let expected = order.iter().find(|x| x.1).map_or(0, |x| x.0);
                demand(number == expected, || format!("number {number}, not {expected}"))?;
            }
        }
        Ok(())
    }

    /// An image that breaks one rule of 11, or the nearest one that does not.
    fn at_a_rule(&mut self, rng: &mut Rng, s: Settings) -> Outcome<Vec<u8>> {
        let pair = pairs::pair(rng, &THIS, s);
        let broken = rng.chance(50);
        let image = if broken { pair.broken } else { pair.accepted }.bytes();
        let (number, expected) = (rules::restore(&image), if broken { 11 } else { 0 });
        demand(number == expected, || format!("{}: {number}, not {expected}", pair.rule))?;
        self.seen.rule(pair.rule, broken);
        Ok(image)
    }
}

/// Room for records: none, whole ones, a byte less, any, or enough.
fn some_room(rng: &mut Rng) -> usize {
    let record = RECORD as i64;
    let whole = record * rng.range(0, 4);
    let any = rng.range(0, 10 * record);
    let enough = 200 * record;
    one_of(&[0, whole, whole, (whole - 1).max(0), any, enough, enough], rng) as usize
}

/// The logger's image.
pub fn image_of(logger: &Logger) -> Vec<u8> {
    let mut image = vec![0; IMAGE];
    logger.save(&mut image).unwrap();
    image
}

/// The image of a random recording.
fn recorded(rng: &mut Rng, s: &Settings) -> Vec<u8> {
    let halves = rng.range(0, 3 * s.n);
    let samples = waves::bytes(&clips::wave(rng, s, halves));
    let cut = rng.range(0, samples.len() as i64 / 2) as usize;
    let mut logger = Logger::start(&settings_bytes(s)).unwrap();
    logger.feed(&samples.as_chunks::<2>().0[..cut], &mut vec![0; 4 * RECORD * 800]);
    image_of(&logger)
}

/// An image in a change that versions 2.0 and 2.1 recorded, since they did not ask what stood at k − 1,
/// as it was saved then; the samples after it; and the record.
fn version_before(rng: &mut Rng, s: Settings) -> Option<(Fields, Vec<i16>, Record)> {
    let samples = waves::recovery_wave(rng, &s);
    let x = Readings::of(s, &samples);
    let mut changes = x.changes().into_iter();
    let (k, m) = changes.find(|&(k, m)| x.dip_or_swell_stands(k - 1) && !x.begins_in(k, m))?;
    let record = x.change_record(k, m);
    let halves = rng.range(k + 1, m);
    let saved = (halves * s.m + rng.range(0, s.m - 1)) as usize;
    let x = Readings::of(s, &samples[..saved]);
    let image = Fields::of(&x.image()).but(|image| image.change[3] = x.first_stand(k) as u64);
    Some((image, samples[saved..].to_vec(), record))
}

/// One byte changed, anywhere.
fn changed_byte(rng: &mut Rng, image: &[u8]) -> Vec<u8> {
    let mut bytes = image.to_vec();
    let at = rng.range(0, bytes.len() as i64 - 1) as usize;
    bytes[at] ^= if rng.chance(50) { 1 << rng.range(0, 7) } else { rng.range(1, 255) as u8 };
    bytes
}

/// Damaged in one way: a byte, the length, the settings, or a rule of 11.
pub fn damaged(rng: &mut Rng, image: &[u8]) -> Vec<u8> {
    let mut bytes = image.to_vec();
    match rng.range(0, 9) {
        0..=2 => changed_byte(rng, image),
        3 => {
            let lengths = [0, 1, 32, 68, 620, 764, IMAGE - 1, IMAGE + 1, 2 * IMAGE];
            bytes.resize(one_of(&lengths, rng), 0);
            bytes
        }
        4 => {
            bytes[rng.range(0, 31) as usize] ^= 1 << rng.range(0, 7);
            bytes
        }
        5 => {
            let mut bad = waves::bad_settings(rng);
            bad.resize(36, 0);
            bytes[32..68].copy_from_slice(&bad);
            bytes
        }
        _ => pairs::pair(rng, &THIS, Fields::of(image).s).broken.bytes(),
    }
}
