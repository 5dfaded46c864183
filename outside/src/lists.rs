//! Lists of calls with named saves: the engineer and the logger, call by call.

use crate::cases::{damaged, image_of};
use crate::engineer::{Answer, Call, Engineer};
use crate::guard::Guarded;
use crate::hosts::{demand, first_difference, Lengths, Outcome, Run};
use crate::images::Fields;
use crate::logger::Logger;
use crate::rng::{one_of, Rng};
use crate::rules::{self, settings_bytes, Settings, IMAGE, RECORD};
use crate::{clips, waves};

/// What a list of calls has left so far.
#[derive(Default)]
struct List {
    /// Image and records written, for each accepted save.
    saves: Vec<(Vec<u8>, Vec<u8>)>,
    written: Vec<u8>,
}

impl Run<'_> {
    /// A list of calls: the engineer and the logger, and every feed and trial through the hosts too.
    pub fn list_case(&mut self, rng: &mut Rng) -> Outcome<()> {
        let (s, mut source) = recording(rng);
        let bytes = settings_bytes(&s);
        self.seen.call("start");
        let mut engineer = Engineer::start(&bytes).map_err(|x| format!("engineer refuses {x}"))?;
        let mut logger = Logger::start(&bytes).map_err(|x| format!("logger refuses {x}"))?;
        let (_, image) = self.begin(&bytes, IMAGE, 7)?;
        demand(image == engineer.image(), || "begin's image is not the engineer's".into())?;

        let mut list = List::default();
        let calls = rng.range(1, 30);
        // In some lists one more, which takes all the samples that are left.
        let rest = rng.chance(50) as i64;
        let mut last = None;
        self.seen.trials.apart();
        for j in 0..calls + rest {
            let images = list.saves.iter().map(|x| &x.0[..]);
            let base = images.last().map_or(Fields::fresh(s).bytes(), |x| x.to_vec());
            let call = if j < calls {
                after_trial(rng, last).unwrap_or_else(|| {
                    next_call(rng, &s, &source, list.saves.len(), &base, calls - j)
                })
            } else {
                // A value has four records at most.
                let room = 4 * RECORD * (source.len() / s.m as usize + 1);
                Call::Feed { block: source.clone(), room }
            };
            let call = match call {
                // Bytes that would be accepted have no place in the claim's lists.
                Call::RestoreBytes { bytes } if rules::restore(&bytes) == 0 => Call::Look,
                other => other,
            };
            let at = |text: String| format!("{s:?}, call {j} ({}): {text}", describe(&call));
            let answer = engineer.call(&call);
            if let Answer::Save(0, image) = &answer {
                self.seen.stands.image(&engineer.readings(), &Fields::of(image));
            }
            let image = image_of(&logger);
            self.run_call(&mut logger, &call, &answer, &mut list, rng).map_err(at)?;
            let after = image_of(&logger);
            self.by_hosts(&image, &after, &call, &answer, rng).map_err(at)?;
            if let (Call::Feed { block, .. }, Answer::Feed(fed, _)) = (&call, &answer) {
                self.seen.marks.fed(&Fields::of(&after), block.get(fed.taken as usize));
                source.drain(..fed.taken as usize);
            }
            self.seen.trials.call(&call, answer.told().map(|x| x.0), &image);
            last = Some(call);
        }
        let written = engineer.written();
        demand(written == engineer.due(), || "records written are not those due".into())?;
        demand(written == list.written, || "the logger's records are not those due".into())?;
        demand(engineer.image() == image_of(&logger), || "the last images differ".into())?;
        self.seen.dropped += engineer.changes_dropped() as u64;
        let (readings, image) = (engineer.readings(), Fields::of(&engineer.image()));
        self.seen.marks.records(&readings);
        self.seen.marks.image(&image);
        self.seen.stands.recording(&readings);
        self.seen.stands.image(&readings, &image);
        Ok(())
    }

    /// One call on the logger, compared with the engineer's answer.
    fn run_call(
        &mut self,
        logger: &mut Logger,
        call: &Call,
        answer: &Answer,
        list: &mut List,
        rng: &mut Rng,
    ) -> Outcome<()> {
        let fill = rng.next() as u8;
        match (call, answer) {
            (Call::Feed { block, room }, Answer::Feed(fed, records))
            | (Call::Trial { block, room }, Answer::Trial(fed, records)) => {
                self.seen.call(call.name());
                let block = waves::bytes(block);
                let block = block.as_chunks::<2>().0;
                let mut buffer = Guarded::filled(*room, fill);
                let by_logger = if let Call::Feed { .. } = call {
                    list.written.extend(records);
                    logger.feed(block, buffer.get_mut())
                } else {
                    logger.trial(block, buffer.get_mut())
                };
                demand(*fed == by_logger, || format!("{fed:?} and {by_logger:?}"))?;
                let mut expected = Guarded::filled(*room, fill).get().to_vec();
                expected[..records.len()].copy_from_slice(records);
                demand(buffer.holds() && buffer.get() == expected, || {
                    format!("records: {}", first_difference(&expected, buffer.get()))
                })
            }
            (Call::Look, Answer::Look(looked)) => {
                self.seen.call("look");
                let by_logger = logger.look();
                demand(*looked == by_logger, || format!("{looked:?} and {by_logger:?}"))
            }
            (Call::Save { length }, Answer::Save(number, image)) => {
                self.seen.call("save");
                let mut buffer = Guarded::filled(*length, fill);
                let by_logger = logger.save(buffer.get_mut()).err().unwrap_or(0);
                demand(*number == by_logger, || format!("numbers {number} and {by_logger}"))?;
                let mut expected = Guarded::filled(*length, fill).get().to_vec();
                expected[..image.len()].copy_from_slice(image);
                if *number == 0 {
                    self.seen.marks.image(&Fields::of(image));
                    list.saves.push((image.clone(), list.written.clone()));
                }
                demand(buffer.holds() && buffer.get() == expected, || {
                    format!("image: {}", first_difference(&expected, buffer.get()))
                })
            }
            (Call::RestoreSave { name }, Answer::Restore(number)) => {
                self.seen.call("restore");
                let (image, written) = list.saves[*name].clone();
                let by_logger = logger.restore(&image).err().unwrap_or(0);
                list.written = written;
                demand(*number == by_logger, || format!("numbers {number} and {by_logger}"))
            }
            (Call::RestoreBytes { bytes }, Answer::Restore(number)) => {
                self.seen.call("restore");
                let by_logger = logger.restore(bytes).err().unwrap_or(0);
                demand(*number == by_logger, || format!("numbers {number} and {by_logger}"))?;
                let lengths = Lengths { image: IMAGE, records: 0, reply: 24 };
                let by_hosts = self.advance(bytes, &[], lengths, fill)?.number;
                demand(*number == by_hosts, || format!("numbers {number} and {by_hosts}"))
            }
            _ => Err("the answer is of another call".into()),
        }
    }

    /// The same feed through advance, from the image before to the image after, or the same trial.
    fn by_hosts(
        &mut self,
        before: &[u8],
        after: &[u8],
        call: &Call,
        answer: &Answer,
        rng: &mut Rng,
    ) -> Outcome<()> {
        let Some(((block, room), (fed, records))) = call.block().zip(answer.told()) else {
            return Ok(());
        };
        let samples = waves::bytes(block);
        let lengths = Lengths { image: IMAGE, records: room, reply: 24 };
        let (left, image) = if let Call::Feed { .. } = call {
            (self.advance_and_try(rng, before, &samples, lengths, 1)?, after)
        } else {
            (self.trial(before, &samples, lengths, 1)?, &[][..])
        };
        let same = left.number == 0
            && left.image == image
            && left.records[..records.len()] == records[..]
            && [left.reply(0), left.reply(1), left.reply(2)] == [fed.taken, fed.written, fed.why];
        demand(same, || "the hosts agree, but not with the engineer".into())
    }
}

/// Settings and samples for a list: most often any, sometimes such that marks come often, or all.
pub fn recording(rng: &mut Rng) -> (Settings, Vec<i16>) {
    let s = match rng.range(0, 99) {
        0..=3 => return clips::every_mark(rng),
        4..=23 => clips::settings(rng),
        _ => waves::settings(rng),
    };
    let halves = if s.m <= 40 { rng.range(1, 7 * s.n) } else { rng.range(1, 3 * s.n) };
    (s, clips::wave(rng, &s, halves))
}

/// A call under these settings: `saves` can be named, `base` is an image to damage, and `left` calls are
/// to share what is left of the samples.
pub fn next_call(
    rng: &mut Rng,
    s: &Settings,
    source: &[i16],
    saves: usize,
    base: &[u8],
    left: i64,
) -> Call {
    let room = some_room(rng);
    match rng.range(0, 99) {
        0..=59 => {
            let most = source.len() as i64;
            let length = match rng.range(0, 9) {
                0 => rng.range(0, 2),
                1 => rng.range(0, s.m + 1),
                2 => one_of(&[s.m - 1, s.m, s.m + 1, 2 * s.m], rng),
                3 => s.m * rng.range(1, 30),
                4..=5 => most,
                _ => 2 * most / left + rng.range(0, s.m),
            };
            let block = source[..length.min(most) as usize].to_vec();
            if rng.chance(25) {
                Call::Trial { block, room }
            } else {
                Call::Feed { block, room }
            }
        }
        60..=69 => Call::Look,
        70..=84 => {
            let lengths = [0, 1, 764, IMAGE - 1, IMAGE, IMAGE, IMAGE, IMAGE, IMAGE + 1, 900];
            Call::Save { length: one_of(&lengths, rng) }
        }
        85..=92 if saves > 0 => Call::RestoreSave { name: rng.range(0, saves as i64 - 1) as usize },
        _ => Call::RestoreBytes { bytes: damaged(rng, base) },
    }
}

/// After a trial, often its block again: fed with the same room or another, or tried with another.
pub fn after_trial(rng: &mut Rng, last: Option<Call>) -> Option<Call> {
    let Some(Call::Trial { block, room }) = last else { return None };
    let other = some_room(rng);
    match rng.range(0, 9) {
        0..=2 => Some(Call::Feed { block, room }),
        3..=4 => Some(Call::Feed { block, room: other }),
        5 => Some(Call::Trial { block, room: other }),
        _ => None,
    }
}

fn some_room(rng: &mut Rng) -> usize {
    match rng.range(0, 9) {
        0 => 0,
        1 => rng.range(0, 5 * RECORD as i64) as usize,
        2..=4 => about_whole_records(rng),
        _ => 200 * RECORD,
    }
}

/// Room for a few records, most often for whole ones, or for one byte less or more.
pub fn about_whole_records(rng: &mut Rng) -> usize {
    let whole = RECORD as i64 * rng.range(0, 3);
    one_of(&[whole, whole, whole, whole - 1, whole + 1], rng).max(0) as usize
}

fn describe(call: &Call) -> String {
    match call {
        Call::Feed { block, room } | Call::Trial { block, room } => {
            format!("{} {} samples, room {room}", call.name(), block.len())
        }
        Call::Look => "look".into(),
        Call::Save { length } => format!("save {length}"),
        Call::RestoreSave { name } => format!("restore save {name}"),
        Call::RestoreBytes { bytes } => format!("restore {} bytes", bytes.len()),
    }
}
