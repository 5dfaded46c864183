//! Lists of calls as the program `call_lists` reads them, and the text that it must print: read from
//! the whole recording by the engineer, and after a restore of accepted bytes, which have no
//! recording, by the stepper. The form of the input stands in the head of the program's source.

use crate::arguments::Arguments;
use crate::engineer::{Call, Engineer, Fed, Looked};
use crate::far::Far;
use crate::images::{self, Fields};
use crate::lists::{after_trial, next_call};
use crate::marks::Marks;
use crate::programs::{pieces, written};
use crate::readings::{energy, has_clipped};
use crate::rng::{one_of, Rng};
use crate::room::RECORD;
use crate::rules::{self, settings_bytes, Settings, IMAGE, Q};
use crate::seen::{tell, Told, KINDS};
use crate::stands::Stands;
use crate::trials::InLists;
use crate::{clips, stepper, waves};
use std::process::exit;

/// The most samples that follow an item, and the saves that the program keeps.
const MOST_SAMPLES: usize = 32_767;
pub const PLACES: usize = 16;
/// The longest record buffer: enough for most blocks, and not too much to print.
pub const ROOM: usize = 14 * RECORD;
/// The lists that the gate runs the program on in one go, by their numbers under a seed: together
/// they have everything that is counted.
const FILES_SEED: u64 = 1;
const FILES_LISTS: [u64; 22] = [
    535, 1156, 1855, 2373, 2454, 4019, 4662, 15311, 20100, 21984, 30930, 37862, 40140, 46659,
    46851, 48655, 51198, 52132, 54138, 70211, 85684, 88845,
];

/// The kinds of item, in the program's numbers.
pub const START: u8 = 0;
pub const FEED: u8 = 1;
pub const LOOK: u8 = 2;
pub const SAVE: u8 = 3;
pub const RESTORE_SAVE: u8 = 4;
pub const RESTORE_BYTES: u8 = 5;
pub const GATHER: u8 = 6;
pub const TRIAL: u8 = 7;

/// What has been seen.
#[derive(Default)]
pub struct Tally {
    /// Items, by kind.
    items: [u64; 8],
    /// Refusals, 1 to 11.
    refusals: [u64; 12],
    /// What feeds have told and written, what trials have, and what else those have shown.
    fed: Told,
    tried: Told,
    trials: InLists,
    /// The marks of images.
    marks: Marks,
    /// What dips and swells that stand before a change have shown.
    stands: Stands,
    /// What feeds about the end of 4 bytes and at V's end have shown.
    far: Far,
    /// Phases, and dips, swells and interruptions that stand, in what look tells.
    phases: [u64; 4],
    stand: [u64; 3],
    /// Restores of a save that set the logger back, and of accepted bytes.
    set_back: u64,
    accepted: u64,
    /// Gathers that leave the half in progress, and the last half, without and with the mark.
    gathered: [[u64; 2]; 2],
    /// Items that the program skips.
    skipped: [u64; 3],
}

impl Tally {
    /// Every count under its name.
    pub fn counts(&self) -> Vec<(String, u64)> {
        let items = [
            "start",
            "feed",
            "look",
            "save",
            "restore of a save",
            "restore of bytes",
            "gather",
            "trial",
        ];
        let mut list = vec![("calls".to_string(), self.items.iter().sum())];
        let mut add = |name: String, count: u64| list.push((name, count));
        for (name, count) in items.iter().zip(self.items) {
            add(format!("  {name}"), count);
        }
        for number in 1..=11 {
            add(format!("refused {number}"), self.refusals[number]);
        }
        add("restores that set back".into(), self.set_back);
        add("restores of accepted bytes".into(), self.accepted);
        for (phase, count) in self.phases.into_iter().enumerate() {
            add(format!("look in phase {phase}"), count);
        }
        for ((_, name), count) in KINDS.iter().zip(self.stand) {
            add(format!("look, {name} stands"), count);
        }
        let halves = ["half in progress", "last half"];
        for (name, [without, with]) in halves.iter().zip(self.gathered) {
            add(format!("gather, {name}, mark 0"), without);
            add(format!("gather, {name}, mark 1"), with);
        }
        let items = ["restore of no save", "gather of no half-cycle", "item of another kind"];
        for (name, count) in items.iter().zip(self.skipped) {
            add(format!("skipped: {name}"), count);
        }
        list.extend(self.fed.counts(""));
        list.extend(self.tried.counts("trial: "));
        list.extend(self.trials.counts());
        list.extend(self.marks.image_counts());
        list.extend(self.stands.recording_counts());
        list.extend(self.far.often_counts());
        list
    }
}

/// What answers the calls.
struct Measure {
    engineer: Engineer,
    recordings: usize,
    /// The image of what the calls have left.
    image: Vec<u8>,
    /// Whether it comes from accepted bytes that were restored, and the stepper goes on from it.
    held: bool,
    /// Each accepted save: its place among the engineer's saves, if it is one, and its image.
    saves: Vec<(Option<usize>, Vec<u8>)>,
}

impl Measure {
    fn of(engineer: Engineer) -> Measure {
        let image = engineer.image();
        Measure { engineer, recordings: 0, image, held: false, saves: Vec::new() }
    }

    fn feed(&mut self, block: &[i16], room: usize) -> (Fed, Vec<u8>) {
        if !self.held {
            let answer = self.engineer.feed(block, room);
            self.image = self.engineer.image();
            return answer;
        }
        let (mut new, mut records, mut reply) = (vec![0; IMAGE], vec![0; room], [0; 24]);
        let samples = waves::bytes(block);
        assert_eq!(stepper::advance(&self.image, &samples, &mut new, &mut records, &mut reply), 0);
        self.image = new;
        fed(records, reply)
    }

    fn trial(&self, block: &[i16], room: usize) -> (Fed, Vec<u8>) {
        if !self.held {
            return self.engineer.trial(block, room);
        }
        let (mut scratch, mut reply) = (vec![0; room], [0; 24]);
        let samples = waves::bytes(block);
        assert_eq!(stepper::trial(&self.image, &samples, &mut scratch, &mut reply), 0);
        fed(scratch, reply)
    }

    fn look(&self) -> Looked {
        if self.held {
            Fields::of(&self.image).look()
        } else {
            self.engineer.look()
        }
    }

    fn save(&mut self, length: usize) -> Result<Vec<u8>, u32> {
        if length < IMAGE {
            return Err(7);
        }
        let place = (!self.held).then_some(self.recordings);
        if !self.held {
            assert_eq!(self.engineer.save(length).as_ref(), Ok(&self.image));
            self.recordings += 1;
        }
        self.saves.push((place, self.image.clone()));
        Ok(self.image.clone())
    }

    fn restore_save(&mut self, name: usize) {
        let (place, image) = &self.saves[name];
        self.image = image.clone();
        self.held = place.is_none();
        if let Some(name) = *place {
            self.engineer.call(&Call::RestoreSave { name });
        }
    }

    fn restore_bytes(&mut self, bytes: &[u8]) -> u32 {
        let number = rules::restore(bytes);
        if number == 0 {
            self.image = bytes.to_vec();
            self.held = true;
        }
        number
    }
}

/// What the stepper told in its reply, and the records that it wrote.
fn fed(mut records: Vec<u8>, reply: [u8; 24]) -> (Fed, Vec<u8>) {
    let fed = Fed::of(&reply);
    records.truncate(RECORD * fed.written as usize);
    (fed, records)
}

/// A list: the program's input, and the text that it must print.
#[derive(Default)]
pub struct List {
    pub input: Vec<u8>,
    pub text: String,
}

/// The line of a feed or a trial: what it tells, and the buffer as it leaves it.
pub fn fed_line(name: &str, fed: &Fed, buffer: &str) -> String {
    format!("{name} {} {} {} {buffer}", fed.taken, fed.written, fed.why)
}

/// The line of a look.
pub fn look_line(looked: &Looked) -> String {
    let Looked { v, r, a, phase, stand } = looked;
    let [dip, swell, interruption] = stand.map(|x| x as u8);
    format!("look {v} {r} {a} {phase} {dip} {swell} {interruption}")
}

pub fn hex(bytes: &[u8]) -> String {
    bytes.iter().map(|x| format!("{x:02x}")).collect()
}

/// A buffer of this length, every byte of it `fill`, with bytes written at its start.
pub fn buffer(length: usize, fill: u8, written: &[u8]) -> String {
    let mut bytes = vec![fill; length];
    bytes[..written.len()].copy_from_slice(written);
    hex(&bytes)
}

/// An item: its kind, fill, number and bytes, and the input after it.
type Item<'a> = (u8, u8, usize, &'a [u8], &'a [u8]);

/// What a program of lists prints on any input: `start` gives who answers, or the refusal, and `item`
/// the text of a call.
pub fn printed<A>(
    mut input: &[u8],
    start: impl Fn(&[u8]) -> Result<A, u32>,
    item: impl Fn(&mut A, Item) -> String,
) -> String {
    let mut text = String::new();
    while let Some((START, _, calls, settings, rest)) = next_item(input) {
        input = rest;
        let mut answering = match start(settings) {
            Ok(answering) => answering,
            Err(number) => {
                text += &format!("refused {number}\n");
                continue;
            }
        };
        text += "start\n";
        for _ in 0..calls {
            let Some(next) = next_item(input) else { return text };
            input = next.4;
            text += &item(&mut answering, next);
        }
    }
    text
}

/// One item; none where the input has no whole one.
fn next_item(input: &[u8]) -> Option<Item<'_>> {
    let (&[kind, fill, a, b, c, d], rest) = input.split_first_chunk::<6>()?;
    let (number, length) = (u16::from_le_bytes([a, b]), u16::from_le_bytes([c, d]));
    let (bytes, rest) = rest.split_at_checked(length as usize)?;
    Some((kind, fill, number as usize, bytes, rest))
}

impl List {
    /// What differs first between the text that was printed and the list's.
    pub fn difference(&self, printed: &str) -> Option<String> {
        if printed == self.text {
            return None;
        }
        let mut lines = printed.lines();
        for (j, line) in self.text.lines().enumerate() {
            let other = lines.next().unwrap_or("the end");
            if line != other {
                return Some(format!("line {}: {other}\nnot {line}", j + 1));
            }
        }
        Some("more lines, or no end of the last one".into())
    }

    /// What differs first in what the program prints on the list, given in random pieces.
    pub fn program_difference(&self, program: &str, rng: &mut Rng) -> Option<String> {
        match written(program, &self.input, &pieces(rng, self.input.len())) {
            Ok(text) => self.difference(&text.printed),
            Err(text) => Some(text),
        }
    }

    /// The same list without its trials.
    pub fn without_trials(&self) -> List {
        let mut list = List::default();
        let (mut input, mut trials) = (&self.input[..], 0);
        while let Some((kind, fill, number, bytes, rest)) = next_item(input) {
            input = rest;
            if kind == TRIAL {
                trials += 1;
            } else {
                list.item(kind, fill, number, bytes);
            }
        }
        // The start has the number of calls.
        let calls = u16::from_le_bytes([self.input[2], self.input[3]]) - trials;
        list.input[2..4].copy_from_slice(&calls.to_le_bytes());
        let lines = self.text.split_inclusive('\n');
        list.text = lines.filter(|line| !line.starts_with("trial ")).collect();
        list
    }

    /// Another list behind this one.
    pub fn append(&mut self, list: List) {
        self.input.extend(list.input);
        self.text += &list.text;
    }

    /// Writes the program's input in the gate, and what it must write.
    pub fn write(&self, folder: &str) {
        std::fs::write(format!("{folder}/stdin"), &self.input)
            .expect("the input cannot be written");
        std::fs::write(format!("{folder}/stdout"), &self.text).expect("the text cannot be written");
    }

    pub fn item(&mut self, kind: u8, fill: u8, number: usize, bytes: &[u8]) {
        self.input.extend([kind, fill]);
        for x in [number, bytes.len()] {
            self.input.extend(u16::try_from(x).unwrap().to_le_bytes());
        }
        self.input.extend(bytes);
    }

    /// A start that is not refused, with so many calls, and what answers them.
    fn start(&mut self, s: &Settings, calls: usize, fill: u8, seen: &mut Tally) -> Measure {
        let settings = settings_bytes(s);
        self.item(START, fill, calls, &settings);
        self.text += "start\n";
        seen.items[START as usize] += 1;
        seen.trials.apart();
        Measure::of(Engineer::start(&settings).unwrap())
    }

    /// A call, and the answer to it; gives how many samples feed took.
    fn call(&mut self, call: Call, fill: u8, measure: &mut Measure, seen: &mut Tally) -> usize {
        let (mut taken, mut told) = (0, None);
        let image = measure.image.clone();
        let (kind, line) = match &call {
            Call::Feed { block, room } | Call::Trial { block, room } => {
                let mut bytes = waves::bytes(block);
                // A last odd byte is no sample.
                bytes.extend((fill % 8 == 0).then_some(fill));
                let (kind, (fed, records), shown) = if let Call::Feed { .. } = call {
                    (FEED, measure.feed(block, *room), &mut seen.fed)
                } else {
                    (TRIAL, measure.trial(block, *room), &mut seen.tried)
                };
                self.item(kind, fill, *room, &bytes);
                shown.add(fed.why, &records);
                told = Some(fed);
                if kind == FEED {
                    taken = fed.taken as usize;
                    seen.far.feed(&image, &measure.image, &records, fed.why);
                }
                (kind, fed_line(call.name(), &fed, &buffer(*room, fill, &records)))
            }
            Call::Look => {
                self.item(LOOK, fill, 0, &[]);
                let looked = measure.look();
                seen.phases[looked.phase as usize] += 1;
                (0..3).filter(|&e| looked.stand[e]).for_each(|e| seen.stand[e] += 1);
                (LOOK, look_line(&looked))
            }
            Call::Save { length } => {
                self.item(SAVE, fill, *length, &[]);
                let (number, image) = match measure.save(*length) {
                    Ok(image) => (0, image),
                    Err(number) => (number, Vec::new()),
                };
                if number == 0 {
                    let fields = Fields::of(&image);
                    seen.marks.image(&fields);
                    if !measure.held {
                        seen.stands.image(&measure.engineer.readings(), &fields);
                    }
                }
                seen.refusals[number as usize] += 1;
                (SAVE, format!("save {number} {}", buffer(*length, fill, &image)))
            }
            Call::RestoreSave { name } => {
                self.item(RESTORE_SAVE, fill, *name, &[]);
                measure.restore_save(*name);
                seen.set_back += (measure.image != image) as u64;
                (RESTORE_SAVE, "restore 0".into())
            }
            Call::RestoreBytes { bytes } => {
                self.item(RESTORE_BYTES, fill, 0, bytes);
                let number = measure.restore_bytes(bytes);
                seen.refusals[number as usize] += 1;
                seen.accepted += (number == 0) as u64;
                (RESTORE_BYTES, format!("restore {number}"))
            }
        };
        seen.items[kind as usize] += 1;
        seen.trials.call(&call, told, &image);
        self.text += &line;
        self.text.push('\n');
        taken
    }

    /// An item that the program skips.
    fn skipped(&mut self, rng: &mut Rng, saves: usize, seen: &mut Tally) {
        let which = rng.range(0, 2);
        seen.skipped[which as usize] += 1;
        seen.trials.apart();
        match which {
            0 => {
                self.item(RESTORE_SAVE, 0, saves + rng.range(0, 20) as usize, &[]);
                self.text += "none\n";
            }
            1 => self.item(GATHER, 0, one_of(&[0, 257, 65_535], rng), &[1; 40]),
            _ => self.item(rng.range(8, 255) as u8, 0, 7, &[7; 7]),
        }
    }

    /// The gatherer, sample by sample and by parts: both must hold what the samples' halves are.
    fn gather(&mut self, samples: &[i16], m: usize, seen: &mut Tally) {
        self.item(GATHER, 0, m, &waves::bytes(samples));
        seen.items[GATHER as usize] += 1;
        seen.trials.apart();
        let halves = samples.len() / m;
        let rest = &samples[halves * m..];
        let last = if halves > 0 { &samples[(halves - 1) * m..halves * m] } else { &[] };
        let sums = format!("{} {} {}", rest.len(), energy(rest), energy(last));
        let marks = [has_clipped(rest), has_clipped(last)];
        seen.gathered[0][marks[0] as usize] += (!rest.is_empty()) as u64;
        seen.gathered[1][marks[1] as usize] += (halves > 0) as u64;
        let [whole, mark, last_mark] = [halves > 0, marks[0], marks[1]].map(|x| x as u8);
        let state = format!("{sums} {whole} {mark} {last_mark} {halves}");
        self.text += &format!("samples {state}\nparts {state}\n");
    }
}

/// A list: most often of calls on good settings, and then a look and a save.
pub fn list(rng: &mut Rng, seen: &mut Tally) -> List {
    let bytes = if rng.chance(15) {
        waves::bad_settings(rng)
    } else {
        settings_bytes(&waves::settings(rng))
    };
    let fill = rng.next() as u8;
    let mut list = List::default();
    match rules::settings(&bytes) {
        Err(number) => {
            list.item(START, fill, 0, &bytes);
            seen.items[START as usize] += 1;
            seen.refusals[number as usize] += 1;
            list.text = format!("refused {number}\n");
        }
        Ok(s) => {
            let calls = rng.range(1, 25);
            let mut measure = list.start(&s, calls as usize + 2, fill, seen);
            make_calls(rng, &s, calls, &mut list, &mut measure, seen);
            // What the list leaves: the readings, and every byte of the image.
            list.call(Call::Look, fill, &mut measure, seen);
            list.call(Call::Save { length: IMAGE }, fill, &mut measure, seen);
            if !measure.held {
                assert_eq!(measure.engineer.written(), measure.engineer.due());
                seen.stands.recording(&measure.engineer.readings());
            }
        }
    }
    list
}

/// The samples of the event program's example.
pub fn example_samples() -> Vec<i16> {
    [[100; 24].to_vec(), [50; 16].to_vec(), [100; 24].to_vec()].concat()
}

/// The event program's example: tried with no room and with more than enough, and fed with room for
/// its record.
fn example(seen: &mut Tally) -> List {
    let block = example_samples();
    let trial = |room| Call::Trial { block: block.clone(), room };
    let feed = Call::Feed { block: block.clone(), room: RECORD };
    let calls = [trial(0), trial(RECORD + 5), feed, Call::Look];
    let mut list = List::default();
    let mut measure = list.start(&Q, calls.len(), 0, seen);
    for call in calls {
        list.call(call, 0xa5, &mut measure, seen);
    }
    list
}

/// The lists that the gate runs the program on, one behind the other.
pub fn files(seen: &mut Tally) -> List {
    let mut all = example(seen);
    for number in FILES_LISTS {
        all.append(list(&mut Rng::of_case(FILES_SEED, number), seen));
    }
    all
}

/// Bytes that restore accepts: the same logger just before an end of what counts values, or any.
fn accepted(rng: &mut Rng, s: &Settings, image: &[u8]) -> Vec<u8> {
    let moved = images::before_an_end(rng, &Fields::of(image), 2 * s.n);
    match moved {
        Some(x) if rng.chance(50) => x.bytes(),
        _ => images::accepted(rng, *s),
    }
}

fn make_calls(
    rng: &mut Rng,
    s: &Settings,
    calls: i64,
    list: &mut List,
    measure: &mut Measure,
    seen: &mut Tally,
) {
    let halves = match s.m {
        ..=16 => rng.range(1, 5 * s.n),
        17..=40 => rng.range(1, 3 * s.n),
        _ => rng.range(1, s.n + 20),
    };
    let mut source = clips::wave(rng, s, halves);
    // In some lists, bytes that no save gives and that restore accepts.
    let strange = rng.chance(25);
    let mut last = None;
    for j in 0..calls {
        if source.is_empty() && rng.chance(40) {
            let halves = rng.range(1, s.n);
            source = clips::wave(rng, s, halves);
        }
        let fill = rng.next() as u8;
        let saves = measure.saves.len().min(PLACES);
        match rng.range(0, 99) {
            0..=4 => {
                let length = rng.range(0, source.len().min(3000) as i64) as usize;
                let m = one_of(&[s.m, s.m, 8, 256, rng.range(1, 256)], rng) as usize;
                list.gather(&source[..length], m, seen);
                continue;
            }
            5 => {
                list.skipped(rng, saves, seen);
                continue;
            }
            _ => {}
        }
        let call = if strange && rng.chance(15) {
            Call::RestoreBytes { bytes: accepted(rng, s, &measure.image) }
        } else {
            after_trial(rng, last)
                .unwrap_or_else(|| next_call(rng, s, &source, saves, &measure.image, calls - j))
        };
        let mut call = match call {
            Call::RestoreBytes { bytes } if !strange && rules::restore(&bytes) == 0 => Call::Look,
            other => other,
        };
        if let Call::Feed { block, room } | Call::Trial { block, room } = &mut call {
            block.truncate(MOST_SAMPLES);
            *room = ROOM.min(*room);
        }
        last = Some(call.clone());
        let taken = list.call(call, fill, measure, seen);
        source.drain(..taken);
    }
}

/// Runs a program on random lists, the one that is asked for or so many of a seed, and tells what
/// they have shown. `difference` makes and runs one; where it finds a difference, that is told under
/// the caller's name, and the end is with 1.
pub fn compare<T: Default>(
    name: &str,
    mut args: Arguments,
    difference: impl Fn(&mut Rng, &str, &mut T) -> Option<String>,
    counts: impl Fn(&T) -> Vec<(String, u64)>,
) {
    let require_all = args.flag("--require-all", 0).is_some();
    let one_list = args.flag("--list", 2);
    let Some(program) = args.flag("--program", 1).map(|x| x[0].clone()) else { args.usage() };
    let mut seen = T::default();
    let mut run = |seed: u64, number: u64| {
        if let Some(text) = difference(&mut Rng::of_case(seed, number), &program, &mut seen) {
            println!("different: {text}");
            println!("replay: {name} --list {seed} {number} --program {program}");
            exit(1)
        }
    };
    if let Some(words) = one_list {
        args.numbers(0);
        run(args.number(&words[0]), args.number(&words[1]));
        println!("1 lists, 0 different");
        return;
    }
    let numbers = args.numbers(2);
    let (lists, seed) = (numbers[0], numbers[1]);
    for number in 0..lists {
        run(seed, number);
    }
    let all_seen = tell(&counts(&seen));
    if require_all && !all_seen {
        exit(1);
    }
    println!("{lists} lists, 0 different");
}
