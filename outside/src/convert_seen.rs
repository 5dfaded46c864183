//! What a call of the converter must tell and write, read another way than in `convert`: by all that
//! applies, and by numbers instead of bytes; an earlier image is accepted where this edition accepts its
//! numbers. And counts of what such calls have shown.

use crate::convert_hosts::{Asked, Way, WAYS};
use crate::entries::Entry;
use crate::images::{Fields, FOUR_BYTES};
use crate::logger::{Logger, END};
use crate::pairs::{pairs, rules};
use crate::readings::Readings;
use crate::rules::{self, Q, RECORD};
use crate::seen::{Told, KINDS};
use std::collections::BTreeMap;

/// A call, and what it is given as numbers.
pub struct Sight<'a> {
    asked: &'a Asked,
    /// The whole records of a list.
    records: Vec<Entry>,
    /// The numbers of an image that has its edition's length and good settings.
    fields: Option<Fields>,
}

/// What is wrong with a record, by its first four bytes.
fn wrongs(r: &Entry) -> usize {
    [r.has_bad_kind(), r.mark > 1, r.zeros[0] > 0, r.zeros[1] > 0]
        .into_iter()
        .filter(|x| *x)
        .count()
}

/// The numbers of a record that do not fit back.
fn greats(r: &Entry) -> usize {
    [r.start, r.duration].into_iter().filter(|&x| x > FOUR_BYTES).count()
}

/// The one record for which this is 1, with its place; none if it is not 0 for all the others.
fn only(records: &[Entry], count: fn(&Entry) -> usize) -> Option<(usize, &Entry)> {
    let at = records.iter().position(|x| count(x) > 0)?;
    let total: usize = records.iter().map(count).sum();
    (total == 1).then(|| (at, &records[at]))
}

impl<'a> Sight<'a> {
    pub fn of(asked: &'a Asked) -> Sight<'a> {
        let (from, given) = (asked.way.from(), &asked.given);
        let (mut records, mut fields) = (Vec::new(), None);
        if asked.way.of_records() {
            let whole = given.chunks_exact(from.record);
            records = whole.map(|x| Entry::of_in(from, x)).collect();
        } else if given.len() == from.image && rules::settings(&given[32..68]).is_ok() {
            fields = Some(Fields::of_in(from, given));
        }
        Sight { asked, records, fields }
    }

    /// The numbers that apply, in their order.
    pub fn applying(&self) -> Vec<u32> {
        let back = self.asked.way.goes_back();
        let all = [
            (19, !self.good()),
            (18, back && self.counts().iter().any(|&x| x > FOUR_BYTES)),
            (7, self.asked.output < self.needed()),
        ];
        all.into_iter().filter(|x| x.1).map(|x| x.0).collect()
    }

    /// What must be written where nothing applies.
    pub fn written(&self) -> Vec<u8> {
        let to = self.asked.way.to();
        let records = self.records.iter().flat_map(|x| x.bytes_in(to));
        let image = self.fields.iter().flat_map(|x| x.bytes_in(to));
        records.chain(image).collect()
    }

    /// How long the output must be.
    pub fn needed(&self) -> usize {
        let to = self.asked.way.to();
        if self.asked.way.of_records() {
            to.record * self.records.len()
        } else {
            to.image
        }
    }

    /// Whether its own edition's rules hold.
    fn good(&self) -> bool {
        if self.asked.way.of_records() {
            return self.whole() && self.records.iter().all(|x| wrongs(x) == 0);
        }
        let table = (self.asked.way.from().table)();
        self.fields.is_some() && self.asked.given.starts_with(&table) && self.numbers_good()
    }

    /// Whether an image's numbers are accepted, under whichever table.
    fn numbers_good(&self) -> bool {
        self.fields.as_ref().is_some_and(|x| Logger::from_image(&x.bytes()).is_ok())
    }

    /// Whether a list is of whole records.
    fn whole(&self) -> bool {
        self.rest() == 0
    }

    /// The bytes behind the whole records of a list.
    fn rest(&self) -> usize {
        self.asked.given.len() % self.asked.way.from().record
    }

    /// All numbers that count values.
    fn counts(&self) -> Vec<u64> {
        let records = self.records.iter().flat_map(|x| [x.start, x.duration]);
        let image = self
            .fields
            .iter()
            .flat_map(|x| [x.v, x.change[0], x.change[3], x.events[0], x.events[2], x.events[4]]);
        records.chain(image).collect()
    }

    /// Whether a record of the list is so.
    fn any(&self, is: fn(&Entry) -> bool) -> bool {
        self.records.iter().any(is)
    }

    /// Whether the image's numbers are so.
    fn image(&self, are: fn(&Fields) -> bool) -> bool {
        self.fields.as_ref().is_some_and(are)
    }

    /// Whether only this is wrong with whole records.
    fn wrong(&self, is: fn(&Entry) -> bool) -> bool {
        self.whole() && only(&self.records, wrongs).is_some_and(|x| is(x.1))
    }

    /// Whether only this does not fit back.
    fn great(&self, is: fn(&Entry) -> bool) -> bool {
        only(&self.records, greats).is_some_and(|x| is(x.1))
    }

    /// Whether only the first, or only the last of several records has something that counts here.
    fn at_end(&self, last: bool, count: fn(&Entry) -> usize) -> bool {
        let place = if last { self.records.len().wrapping_sub(1) } else { 0 };
        self.records.len() > 1 && only(&self.records, count).is_some_and(|x| x.0 == place)
    }

    /// Whether the one wrong record stands so to the one that does not fit back.
    fn places(&self, stand: fn(&usize, &usize) -> bool) -> bool {
        let [wrong, great] = [wrongs, greats].map(|count| only(&self.records, count));
        wrong.zip(great).is_some_and(|(wrong, great)| stand(&wrong.0, &great.0))
    }

    /// Whether it is a good list, or a good image, of the other edition.
    fn of_the_other(&self) -> bool {
        let Asked { way, given, .. } = self.asked;
        let other = Asked { way: way.reversed(), given: given.clone(), output: 0 };
        !given.is_empty() && Sight::of(&other).good()
    }

    /// Whether nothing but the table is wrong, and it is the other edition's or not.
    fn wrong_table(&self, of_the_other: bool) -> bool {
        let Asked { way, given, .. } = self.asked;
        let [own, other] = [way.from(), way.to()].map(|x| given.starts_with(&(x.table)()));
        !own && self.numbers_good() && other == of_the_other
    }

    /// Whether the settings are refused with this number.
    fn settings(&self, number: u32) -> bool {
        let Asked { way, given, .. } = self.asked;
        given.len() == way.from().image && rules::settings(&given[32..68]) == Err(number)
    }

    /// Whether V is this, and nothing else is wrong: with V at its end the image is accepted.
    fn wrong_v(&self, v: u64) -> bool {
        self.fields
            .as_ref()
            .is_some_and(|x| x.v == v && rules::restore(&x.but(|x| x.v = END).bytes()) == 0)
    }
}

type OfCall = fn(&Sight) -> bool;

/// What a call that is accepted (0) or refused with a number can show: any.
const ANY: &[(u32, &str, OfCall)] = &[
    (0, "output of the length needed", |x| x.asked.output == x.needed()),
    (0, "output one byte longer", |x| x.asked.output == x.needed() + 1),
    (0, "output more bytes longer", |x| x.asked.output > x.needed() + 1),
    (7, "output one byte too short", |x| x.asked.output + 1 == x.needed()),
    (7, "no output", |x| x.asked.output == 0),
];

/// One of records.
const RECORDS: &[(u32, &str, OfCall)] = &[
    (0, "no record", |x| x.records.is_empty()),
    (0, "no record, no output", |x| x.records.is_empty() && x.asked.output == 0),
    (0, "one record", |x| x.records.len() == 1),
    (0, "several records", |x| x.records.len() > 1),
    (0, "dip", |x| x.any(|r| r.kind == 1)),
    (0, "swell", |x| x.any(|r| r.kind == 2)),
    (0, "interruption", |x| x.any(|r| r.kind == 3)),
    (0, "rvc", |x| x.any(|r| r.kind == 4)),
    (0, "mark 0", |x| x.any(|r| r.mark == 0)),
    (0, "mark 1", |x| x.any(|r| r.mark == 1)),
    (0, "start 0", |x| x.any(|r| r.start == 0)),
    (0, "start 2^32 - 1", |x| x.any(|r| r.start == FOUR_BYTES)),
    (0, "duration 0", |x| x.any(|r| r.duration == 0)),
    (0, "duration 2^32 - 1", |x| x.any(|r| r.duration == FOUR_BYTES)),
    (0, "start + duration above 4 bytes", |x| x.any(|r| r.start + r.duration > FOUR_BYTES)),
    (0, "first 2^32 - 1", |x| x.any(|r| r.first == u32::MAX)),
    (0, "second 2^32 - 1", |x| x.any(|r| r.second == u32::MAX)),
    (19, "one byte too many", |x| x.rest() == 1),
    (19, "one byte too few", |x| x.rest() + 1 == x.asked.way.from().record),
    (19, "kind 0", |x| x.wrong(|r| r.kind == 0)),
    (19, "kind 5", |x| x.wrong(|r| r.kind == 5)),
    (19, "kind 255", |x| x.wrong(|r| r.kind == 255)),
    (19, "mark 2", |x| x.wrong(|r| r.mark == 2)),
    (19, "mark 255", |x| x.wrong(|r| r.mark == 255)),
    (19, "byte 2 not zero", |x| x.wrong(|r| r.zeros[0] > 0)),
    (19, "byte 3 not zero", |x| x.wrong(|r| r.zeros[1] > 0)),
    (19, "in the first of several records", |x| x.whole() && x.at_end(false, wrongs)),
    (19, "in the last of several records", |x| x.whole() && x.at_end(true, wrongs)),
    (19, "the other edition's, of whole length", |x| x.whole() && x.of_the_other()),
];

/// One of records that goes back.
const RECORDS_BACK: &[(u32, &str, OfCall)] = &[
    (18, "start 2^32", |x| x.great(|r| r.start == FOUR_BYTES + 1)),
    (18, "start 2^64 - 1", |x| x.great(|r| r.start == u64::MAX)),
    (18, "duration 2^32", |x| x.great(|r| r.duration == FOUR_BYTES + 1)),
    (18, "duration 2^64 - 1", |x| x.great(|r| r.duration == u64::MAX)),
    (18, "in the first of several records", |x| x.at_end(false, greats)),
    (18, "in the last of several records", |x| x.at_end(true, greats)),
    (19, "in a later record than 18", |x| x.places(usize::gt)),
    (19, "in an earlier record than 18", |x| x.places(usize::lt)),
    (19, "in the same record as 18", |x| x.places(usize::eq)),
    (19, "one byte too many, and 18", |x| x.rest() == 1 && x.any(|r| greats(r) > 0)),
];

/// One of images.
const IMAGES: &[(u32, &str, OfCall)] = &[
    (0, "N 100", |x| x.image(|x| x.s.n == 100)),
    (0, "N 120", |x| x.image(|x| x.s.n == 120)),
    (0, "phase 0", |x| x.image(|x| x.phase == 0)),
    (0, "phase 1", |x| x.image(|x| x.phase == 1)),
    (0, "phase 2", |x| x.image(|x| x.phase == 2)),
    (0, "phase 3", |x| x.image(|x| x.phase == 3)),
    (0, "dip stands", |x| x.image(|x| x.events[0] > 0)),
    (0, "swell stands", |x| x.image(|x| x.events[2] > 0)),
    (0, "interruption stands", |x| x.image(|x| x.events[4] > 0)),
    (0, "half in progress", |x| x.image(|x| x.count > 0)),
    (0, "first stand", |x| x.image(|x| x.change[3] > 0)),
    (0, "mark of the half in progress", |x| x.image(|x| x.half_marks[0] == 1)),
    (0, "mark of the last half", |x| x.image(|x| x.half_marks[1] == 1)),
    (0, "mark of a value", |x| x.image(|x| x.place_marks.contains(&1))),
    (0, "mark of the dip", |x| x.image(|x| x.event_marks[0] == 1)),
    (0, "mark of the swell", |x| x.image(|x| x.event_marks[1] == 1)),
    (0, "mark of the interruption", |x| x.image(|x| x.event_marks[2] == 1)),
    (0, "mark of the change", |x| x.image(|x| x.event_marks[3] == 1)),
    (0, "V 0", |x| x.image(|x| x.v == 0)),
    (0, "V N - 1", |x| x.image(|x| x.v == x.s.n as u64 - 1)),
    (0, "V N", |x| x.image(|x| x.v == x.s.n as u64)),
    (0, "V 2^32 - 2", |x| x.image(|x| x.v == FOUR_BYTES - 1)),
    (0, "V 2^32 - 1", |x| x.image(|x| x.v == FOUR_BYTES)),
    (0, "k 2^32 - 1", |x| x.image(|x| x.change[0] == FOUR_BYTES)),
    (0, "first stand 2^32 - 1", |x| x.image(|x| x.change[3] == FOUR_BYTES)),
    (0, "dip since 2^32 - 1", |x| x.image(|x| x.events[0] == FOUR_BYTES)),
    (0, "swell since 2^32 - 1", |x| x.image(|x| x.events[2] == FOUR_BYTES)),
    (0, "interruption since 2^32 - 1", |x| x.image(|x| x.events[4] == FOUR_BYTES)),
    (19, "no byte", |x| x.asked.given.is_empty()),
    (19, "one byte too few", |x| x.asked.given.len() + 1 == x.asked.way.from().image),
    (19, "one byte too many", |x| x.asked.given.len() == x.asked.way.from().image + 1),
    (19, "the other edition's", |x| x.of_the_other()),
    (19, "the other edition's table", |x| x.wrong_table(true)),
    (19, "another table", |x| x.wrong_table(false)),
    (19, "settings refused 2", |x| x.settings(2)),
    (19, "settings refused 3", |x| x.settings(3)),
    (19, "settings refused 4", |x| x.settings(4)),
    (19, "settings refused 5", |x| x.settings(5)),
    (19, "settings refused 6", |x| x.settings(6)),
];

/// One of images that goes back.
const IMAGE_BACK: &[(u32, &str, OfCall)] = &[
    (18, "V 2^32", |x| x.image(|x| x.v == FOUR_BYTES + 1)),
    (18, "V 2^32 + 1", |x| x.image(|x| x.v == FOUR_BYTES + 2)),
    (18, "V 2^63 - 2", |x| x.image(|x| x.v == END - 1)),
    (18, "V 2^63 - 1", |x| x.image(|x| x.v == END)),
    (18, "V alone", |x| x.counts().iter().filter(|&&x| x > FOUR_BYTES).count() == 1),
    (18, "also k", |x| x.image(|x| x.change[0] > FOUR_BYTES)),
    (18, "also the first stand", |x| x.image(|x| x.change[3] > FOUR_BYTES)),
    (18, "also the dip's start", |x| x.image(|x| x.events[0] > FOUR_BYTES)),
    (18, "also the swell's start", |x| x.image(|x| x.events[2] > FOUR_BYTES)),
    (18, "also the interruption's start", |x| x.image(|x| x.events[4] > FOUR_BYTES)),
    (19, "V 2^63", |x| x.wrong_v(END + 1)),
    (19, "V 2^64 - 1", |x| x.wrong_v(u64::MAX)),
];

/// What a call of this way can show.
fn shows(way: Way) -> Vec<(u32, &'static str, OfCall)> {
    let parts = match way {
        Way::Records => [ANY, RECORDS, &[]],
        Way::RecordsBack => [ANY, RECORDS, RECORDS_BACK],
        Way::Image => [ANY, IMAGES, &[]],
        Way::ImageBack => [ANY, IMAGES, IMAGE_BACK],
    };
    parts.concat()
}

/// All that can apply to a call of this way at once, one number or several.
fn orders(way: Way) -> &'static [&'static [u32]] {
    if way.goes_back() {
        &[&[19], &[18], &[7], &[19, 18], &[19, 7], &[18, 7], &[19, 18, 7]]
    } else {
        &[&[19], &[7], &[19, 7]]
    }
}

/// What the calls have shown.
#[derive(Default)]
pub struct ConvertSeen {
    /// Calls, by all that applied.
    orders: BTreeMap<(Way, Vec<u32>), u64>,
    /// By the names above, with the number.
    shown: BTreeMap<(Way, u32, &'static str), u64>,
    /// Rules of 11 that an image's edition has, each broken alone, and the nearest accepted image.
    rules: BTreeMap<(Way, &'static str), [u64; 2]>,
    /// Those that the way back undid.
    undone: BTreeMap<Way, u64>,
    /// What the engineer wrote in both editions: images by phase, those with a dip, swell or
    /// interruption that stands, and with a clipped value; and records by kind.
    images: [u64; 4],
    stand: [u64; 3],
    clipped: u64,
    records: [u64; 5],
    /// What the earlier edition told and wrote from an image, and this one from the converted one.
    pub went_on: Told,
    /// Images converted at the earlier edition's last value that went on beyond it: all, those held to a
    /// moved recording, those in which a dip, swell or interruption stood, and in a change; and the
    /// records, by kind.
    passed: u64,
    pub passed_recorded: u64,
    passed_stand: [u64; 3],
    passed_change: u64,
    passed_records: [u64; 5],
}

impl ConvertSeen {
    /// A call that was answered as it must be.
    pub fn call(&mut self, x: &Sight) {
        let way = x.asked.way;
        let applying = x.applying();
        let number = applying.first().copied().unwrap_or(0);
        for (of, name, shows) in shows(way) {
            let count = self.shown.entry((way, of, name)).or_default();
            *count += (of == number && shows(x)) as u64;
        }
        *self.orders.entry((way, applying)).or_default() += 1;
    }

    /// An image at a rule, which is broken or not.
    pub fn rule(&mut self, way: Way, rule: &'static str, broken: bool) {
        self.rules.entry((way, rule)).or_default()[!broken as usize] += 1;
    }

    /// A call whose output the other way made what was given.
    pub fn undone(&mut self, way: Way) {
        *self.undone.entry(way).or_default() += 1;
    }

    /// A recording whose records and image were converted.
    pub fn recorded(&mut self, x: &Readings) {
        self.images[x.phase() as usize] += 1;
        (0..3).for_each(|e| self.stand[e] += x.stand()[e] as u64);
        self.clipped += x.any_clipped((x.v() - x.n()).max(0) + 1, x.v()) as u64;
        x.records().iter().for_each(|record| self.records[record.kind as usize] += 1);
    }

    /// An image converted at the earlier edition's last value, which went on and left these records.
    pub fn passed(&mut self, x: &Fields, records: &[u8]) {
        self.passed += 1;
        (0..3).for_each(|e| self.passed_stand[e] += (x.events[2 * e] > 0) as u64);
        self.passed_change += (x.phase == 3) as u64;
        records.chunks_exact(RECORD).for_each(|x| self.passed_records[x[0] as usize] += 1);
    }

    /// Every count under its name.
    pub fn counts(&self) -> Vec<(String, u64)> {
        let mut list = Vec::new();
        for way in WAYS {
            let mut add = |name: String, count: Option<&u64>| {
                let name = format!("convert {}: {name}", way.name());
                list.push((name, count.copied().unwrap_or(0)));
            };
            add("undone by the way back".into(), self.undone.get(&way));
            for order in orders(way) {
                let names: Vec<String> = order.iter().map(u32::to_string).collect();
                add(names.join(" before "), self.orders.get(&(way, order.to_vec())));
            }
            for (number, name, _) in shows(way) {
                let of = if number > 0 { format!("{number}, ") } else { String::new() };
                add(format!("{of}{name}"), self.shown.get(&(way, number, name)));
            }
            if !way.of_records() {
                for rule in rules(&pairs(way.from(), Q)) {
                    let counts = self.rules.get(&(way, rule)).copied().unwrap_or_default();
                    add(format!("19 by {rule}"), Some(&counts[0]));
                    add(format!("not 19 by {rule}"), Some(&counts[1]));
                }
            }
        }
        let mut add = |name: String, count: u64| list.push((format!("converted: {name}"), count));
        for (phase, count) in self.images.into_iter().enumerate() {
            add(format!("recorded image in phase {phase}"), count);
        }
        for ((_, name), count) in KINDS.iter().zip(self.stand) {
            add(format!("recorded image, {name} stands"), count);
        }
        add("recorded image, clipped value".into(), self.clipped);
        for (kind, name) in KINDS {
            add(format!("recorded {name}"), self.records[kind]);
        }
        list.extend(self.went_on.counts("converted image goes on: "));
        let passes = "converted image passes 2^32 - 1";
        list.push((passes.into(), self.passed));
        list.push((format!("{passes}, of a moved recording"), self.passed_recorded));
        for ((_, name), count) in KINDS.iter().zip(self.passed_stand) {
            list.push((format!("{passes}, {name} stands"), count));
        }
        list.push((format!("{passes} in a change"), self.passed_change));
        for (kind, name) in KINDS {
            list.push((format!("{passes}: record {name} after it"), self.passed_records[kind]));
        }
        list
    }
}
