//! Random calls of the converter: lists of records and images of either edition at the limits of what
//! is accepted and of what fits back, or with one thing, or several, that must be refused; images at
//! each rule of 11; records and images of recordings; and images that go on in both editions,
//! and in this one beyond the earlier edition's end.

use crate::convert_hosts::{Asked, Way};
use crate::convert_seen::Sight;
use crate::editions::{Edition, EARLIER, THIS};
use crate::engineer::Fed;
use crate::entries::Entry;
use crate::guard::Guarded;
use crate::hosts::{demand, first_difference, Left, Lengths, Outcome, Run};
use crate::images::{accepted_in, Fields, FOUR_BYTES};
use crate::logger::END;
use crate::moved::Moved;
use crate::readings::Readings;
use crate::rng::{one_of, Rng};
use crate::rules::{Settings, IMAGE, RECORD};
use crate::{clips, lists, pairs, stepper, waves};

impl Run<'_> {
    /// Several calls of each kind.
    pub fn convert_case(&mut self, rng: &mut Rng) -> Outcome<()> {
        for _ in 0..20 {
            let way = one_of(&[Way::Records, Way::RecordsBack], rng);
            let given = list(rng, way);
            self.convert_at_limits(rng, way, given)?;
        }
        for _ in 0..12 {
            let way = one_of(&[Way::Image, Way::ImageBack], rng);
            let given = image(rng, way);
            self.convert_at_limits(rng, way, given)?;
        }
        for _ in 0..8 {
            self.convert_at_a_rule(rng)?;
        }
        self.convert_recorded(rng)?;
        for _ in 0..3 {
            self.convert_and_go_on(rng)?;
        }
        Ok(())
    }

    /// A call with an output as long as needed, longer or too short.
    fn convert_at_limits(&mut self, rng: &mut Rng, way: Way, given: Vec<u8>) -> Outcome<()> {
        let mut x = Asked { way, given, output: 0 };
        let needed = Sight::of(&x).needed();
        let short = needed.saturating_sub(1);
        let too_short = [short, short, 0, rng.up_to(short as u64) as usize];
        let enough = [needed, needed, needed + 1, needed + 2, needed + 100];
        x.output = one_of(if rng.chance(75) { &enough } else { &too_short[..] }, rng);
        self.convert_asked(rng, &x)?;
        Ok(())
    }

    /// An image that breaks one rule of 11 in its edition, or the nearest one that does not.
    fn convert_at_a_rule(&mut self, rng: &mut Rng) -> Outcome<()> {
        let way = one_of(&[Way::Image, Way::ImageBack], rng);
        let s = waves::settings(rng);
        let pair = pairs::pair(rng, way.from(), s);
        let broken = rng.chance(50);
        let fields = if broken { pair.broken } else { pair.accepted };
        let x = Asked { way, given: fields.bytes_in(way.from()), output: way.to().image };
        let number = self.convert_asked(rng, &x)?;
        demand((number == 19) == broken, || format!("{}: {number}", pair.rule))?;
        self.seen.converts.rule(way, pair.rule, broken);
        Ok(())
    }

    /// One call, which must give the first number that applies, or write what is seen in it and leave
    /// the bytes behind; and from what it writes the way back must make what it was given.
    fn convert_asked(&mut self, rng: &mut Rng, x: &Asked) -> Outcome<u32> {
        let sight = Sight::of(x);
        let fill = rng.next() as u8;
        let at = |text: String| {
            let (given, output) = (x.given.len(), x.output);
            format!("{}, {given} bytes into {output}: {text}", x.way.name())
        };
        let (number, output) = self.convert(x, fill).map_err(at)?;
        let expected = sight.applying().first().copied().unwrap_or(0);
        demand(number == expected, || at(format!("number {number}, not {expected}")))?;
        if number == 0 {
            let written = sight.written();
            let mut expected = Guarded::filled(x.output, fill).get().to_vec();
            expected[..written.len()].copy_from_slice(&written);
            demand(output == expected, || at(first_difference(&output, &expected)))?;
            let back = Asked { way: x.way.reversed(), output: x.given.len(), given: written };
            let (number, undone) = self.convert(&back, fill).map_err(at)?;
            demand(number == 0 && undone == x.given, || at(format!("the way back: {number}")))?;
            self.seen.converts.undone(x.way);
        }
        self.seen.converts.call(&sight);
        Ok(number)
    }

    /// What a call that nothing refuses writes.
    fn converted(&mut self, rng: &mut Rng, way: Way, given: &[u8]) -> Outcome<Vec<u8>> {
        let mut x = Asked { way, given: given.to_vec(), output: 0 };
        let sight = Sight::of(&x);
        let written = sight.written();
        x.output = written.len();
        let number = self.convert_asked(rng, &x)?;
        demand(number == 0, || format!("{}: {number}", way.name()))?;
        Ok(written)
    }

    /// What the engineer writes of a recording in the one edition is what it writes in the other,
    /// converted.
    fn convert_recorded(&mut self, rng: &mut Rng) -> Outcome<()> {
        let s = some_settings(rng);
        let samples = recording(rng, &s);
        let x = Readings::of(s, &samples);
        let records = |edition: &Edition| -> Vec<u8> {
            x.records().iter().flat_map(|x| x.bytes_in(edition)).collect()
        };
        let both = [
            (Way::Records, records(&EARLIER), records(&THIS)),
            (Way::Image, x.image_in(&EARLIER), x.image_in(&THIS)),
        ];
        for (way, earlier, this) in both {
            let there = self.converted(rng, way, &earlier)? == this;
            let back = self.converted(rng, way.reversed(), &this)? == earlier;
            demand(there && back, || {
                format!("recorded {}: there {there}, back {back}", way.name())
            })?;
        }
        self.seen.converts.recorded(&x);
        Ok(())
    }

    /// What the earlier edition makes of an image and a block, this one makes of the image converted;
    /// beyond the earlier edition's last value it goes on. With an image of a recording that was moved
    /// on there, what comes of it is the recording's, moved as far.
    fn convert_and_go_on(&mut self, rng: &mut Rng) -> Outcome<()> {
        let (s, samples) = lists::recording(rng);
        let moved = Moved::of(rng, &EARLIER, s, &samples).filter(|_| rng.chance(50));
        let (earlier, samples) = match &moved {
            Some(x) => (x.image(0).bytes_in(&EARLIER), x.left().to_vec()),
            None => unmoved(rng),
        };
        let samples = waves::bytes(&samples);
        let room = one_of(&[0, 1, 2, 200, 200, 200], rng);
        let (mut new, mut records) = (vec![0; EARLIER.image], vec![0; room * EARLIER.record]);
        let mut reply = [0; 24];
        let number =
            stepper::advance_in(&EARLIER, &earlier, &samples, &mut new, &mut records, &mut reply);
        demand(number == 0, || format!("the earlier edition gives {number}"))?;
        let told = Fed::of(&reply);
        records.truncate(told.written as usize * EARLIER.record);

        // Where the earlier edition's V ends, this one is given only what that took.
        let taken = &samples[..2 * told.taken as usize];
        let (block, why) = if told.why == 2 { (taken, 0) } else { (&samples[..], told.why) };
        let image = self.converted(rng, Way::Image, &earlier)?;
        let lengths = Lengths { image: IMAGE, records: room * RECORD, reply: 24 };
        let mut left = self.advance_and_try(rng, &image, block, lengths, 3)?;
        let new = self.converted(rng, Way::Image, &new)?;
        let same = left.number == 0
            && Fed::of(&left.reply) == Fed { why, ..told }
            && left.written() == self.converted(rng, Way::Records, &records)?
            && left.image == new;
        demand(same, || "the converted image goes on as another logger".into())?;
        self.seen.converts.went_on.add(told.why, left.written());

        if told.why == 2 {
            let rest = &samples[taken.len()..];
            left = self.convert_and_pass(rng, [&image, &new], [&samples, rest], left.written())?;
        }
        if let Some(x) = moved {
            x.demand(left.reply(0), left.written(), &left.image)?;
            self.seen.converts.passed_recorded += (told.why == 2) as u64;
        }
        Ok(())
    }

    /// The image converted at the earlier edition's last value goes on with the rest of a block, and
    /// comes to what the first image does with the whole block, which this gives.
    fn convert_and_pass(
        &mut self,
        rng: &mut Rng,
        [first, last]: [&[u8]; 2],
        [whole, rest]: [&[u8]; 2],
        before: &[u8],
    ) -> Outcome<Left> {
        // No value has more than four records.
        let last_fields = Fields::of(last);
        let values = whole.len() / 2 / last_fields.s.m as usize + 1;
        let lengths = Lengths { image: IMAGE, records: 4 * RECORD * values, reply: 24 };
        let beyond = self.advance_and_try(rng, last, rest, lengths, 5)?;
        let all = self.advance_and_try(rng, first, whole, lengths, 5)?;
        demand(beyond.number == 0 && all.number == 0, || {
            format!("beyond 2^32 - 1: numbers {} and {}", beyond.number, all.number)
        })?;
        let records = [before, beyond.written()].concat();
        let told = |block: &[u8], records: &[u8]| {
            let (taken, written) = (block.len() / 2, records.len() / RECORD);
            Fed { taken: taken as u64, written: written as u64, why: 0 }
        };
        let same = Fed::of(&beyond.reply) == told(rest, beyond.written())
            && Fed::of(&all.reply) == told(whole, &records)
            && all.written() == records
            && all.image == beyond.image;
        demand(same, || "beyond 2^32 - 1 the converted image goes on as another logger".into())?;
        let (from, to) = (last_fields.v, Fields::of(&beyond.image).v);
        demand(from == FOUR_BYTES && to > from, || format!("V goes from {from} to {to}"))?;
        self.seen.converts.passed(&last_fields, beyond.written());
        Ok(all)
    }
}

/// An image of the earlier edition, of a recording or built directly, and samples that follow.
fn unmoved(rng: &mut Rng) -> (Vec<u8>, Vec<i16>) {
    let s = some_settings(rng);
    if rng.chance(50) {
        let samples = recording(rng, &s);
        let (first, rest) = samples.split_at(rng.up_to(samples.len() as u64) as usize);
        (Readings::of(s, first).image_in(&EARLIER), rest.to_vec())
    } else {
        let halves = one_of(&[1, 3, 30, s.n + 5], rng);
        let image = accepted_in(rng, &EARLIER, s).bytes_in(&EARLIER);
        (image, clips::wave(rng, &s, halves))
    }
}

/// Settings, half of them such that marks come often.
fn some_settings(rng: &mut Rng) -> Settings {
    if rng.chance(50) {
        clips::settings(rng)
    } else {
        waves::settings(rng)
    }
}

/// The samples of a recording.
fn recording(rng: &mut Rng, s: &Settings) -> Vec<i16> {
    let most = if s.m <= 40 { 4 * s.n } else { 2 * s.n };
    let halves = rng.range(0, most);
    let mut samples = clips::wave(rng, s, halves);
    samples.truncate(samples.len() - rng.range(0, s.m.min(samples.len() as i64)) as usize);
    samples
}

/// A list of records that most often nothing refuses.
fn list(rng: &mut Rng, way: Way) -> Vec<u8> {
    if rng.chance(5) {
        // The other edition's, in a length that is of whole records in both.
        let other = way.to();
        return (0..140 / other.record).flat_map(|_| entry(rng).bytes_in(other)).collect();
    }
    let count = one_of(&[0, 1, 1, 2, 3, 6, 20], rng);
    let mut list: Vec<Entry> = (0..count).map(|_| entry(rng)).collect();
    if count > 0 {
        for _ in 0..one_of(&[0, 0, 0, 1, 1, 2], rng) {
            let at = one_of(&[0, count - 1, rng.range(0, count - 1)], rng) as usize;
            spoil_entry(rng, way, &mut list[at]);
        }
    }
    let mut bytes: Vec<u8> = list.iter().flat_map(|x| x.bytes_in(way.from())).collect();
    if rng.chance(8) {
        let most = way.from().record as i64 - 1;
        let more = one_of(&[1, most, rng.range(1, most)], rng) as usize;
        bytes.extend(vec![one_of(&[0, 1, 4], rng); more]);
    }
    bytes
}

/// A record that is accepted in both editions; its numbers are anything.
fn entry(rng: &mut Rng) -> Entry {
    let mut number = || {
        let any = rng.next() >> 32;
        one_of(&[0, 1, FOUR_BYTES, FOUR_BYTES, 1 << 31, any, any, any], rng)
    };
    let [start, duration, first, second] = [number(), number(), number(), number()];
    Entry {
        kind: rng.range(1, 4) as u8,
        mark: rng.range(0, 1) as u8,
        zeros: [0; 2],
        start,
        duration,
        first: first as u32,
        second: second as u32,
    }
}

/// Puts into a record one thing that is refused, or, on the way back, a number that does not fit.
fn spoil_entry(rng: &mut Rng, way: Way, x: &mut Entry) {
    let great = rng.next() | 1 << rng.range(32, 63);
    let great = one_of(&[FOUR_BYTES + 1, FOUR_BYTES + 1, 1 << 63, u64::MAX, u64::MAX, great], rng);
    match rng.range(0, if way.goes_back() { 9 } else { 5 }) {
        0..=1 => x.kind = one_of(&[0, 5, 255, rng.range(5, 255) as u8], rng),
        2..=3 => x.mark = one_of(&[2, 255, rng.range(2, 255) as u8], rng),
        4 => x.zeros[0] = one_of(&[1, 255], rng),
        5 => x.zeros[1] = one_of(&[1, 255], rng),
        6..=7 => x.start = great,
        _ => x.duration = great,
    }
}

/// An image that most often nothing refuses.
fn image(rng: &mut Rng, way: Way) -> Vec<u8> {
    let (from, to) = (way.from(), way.to());
    let s = waves::settings(rng);
    let mut bytes = match rng.range(0, 19) {
        0..=1 => accepted_in(rng, to, s).bytes_in(to),
        2..=3 if way.goes_back() => {
            // V above its end, and nothing else.
            let x = accepted_in(rng, from, s);
            let v = one_of(&[END + 1, END + 1, u64::MAX, u64::MAX, rng.next() | 1 << 63], rng);
            x.but(|x| x.v = v).bytes_in(from)
        }
        // Numbers of the earlier edition, which fit back.
        4..=9 => accepted_in(rng, &EARLIER, s).bytes_in(from),
        _ => accepted_in(rng, from, s).bytes_in(from),
    };
    for _ in 0..one_of(&[0, 0, 0, 0, 1, 1, 2], rng) {
        spoil_image(rng, way, &mut bytes);
    }
    bytes
}

/// Damages an image in one way: its length, its table, its settings, or any bit.
fn spoil_image(rng: &mut Rng, way: Way, bytes: &mut Vec<u8>) {
    if bytes.is_empty() {
        return;
    }
    let length = way.from().image;
    let at = rng.up_to(bytes.len() as u64 - 1) as usize;
    match rng.range(0, 9) {
        0 => bytes.resize(one_of(&[length - 1, length + 1, 0, 1, 32, 620], rng), 0),
        1..=2 if bytes.len() > 32 => bytes[..32].copy_from_slice(&(way.to().table)()),
        3 if bytes.len() > 32 => bytes[at % 32] ^= 1 << rng.range(0, 7),
        4..=6 if bytes.len() > 68 => {
            let mut bad = waves::bad_settings(rng);
            bad.resize(36, 0);
            bytes[32..68].copy_from_slice(&bad);
        }
        _ => bytes[at] ^= 1 << rng.range(0, 7),
    }
}
