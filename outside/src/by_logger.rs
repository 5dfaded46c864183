//! Lists of calls, answered by the logger: what the program `call_lists` prints on any input.

use crate::call_lists::{fed_line, hex, look_line, printed, PLACES};
use crate::call_lists::{FEED, GATHER, LOOK, RESTORE_BYTES, RESTORE_SAVE, SAVE, TRIAL};
use crate::logger::Logger;
use crate::rules::IMAGE;
use crate::squares::{Part, Sample};

/// A logger, and the images that it has saved.
struct Answering {
    logger: Logger,
    saves: Vec<Vec<u8>>,
}

impl Answering {
    /// What is printed of an item; nothing of one that is skipped.
    fn item(&mut self, kind: u8, fill: u8, number: usize, bytes: &[u8]) -> Option<String> {
        let Answering { logger, saves } = self;
        let mut lent = vec![fill; number];
        let samples = bytes.as_chunks::<2>().0;
        let line = match kind {
            FEED => {
                let fed = logger.feed(samples, &mut lent);
                fed_line("feed", &fed, &hex(&lent))
            }
            TRIAL => {
                let fed = logger.trial(samples, &mut lent);
                fed_line("trial", &fed, &hex(&lent))
            }
            LOOK => look_line(&logger.look()),
            SAVE => {
                let number = logger.save(&mut lent).err().unwrap_or(0);
                if number == 0 && saves.len() < PLACES {
                    saves.push(lent[..IMAGE].to_vec());
                }
                format!("save {number} {}", hex(&lent))
            }
            RESTORE_SAVE => match saves.get(number) {
                Some(image) => format!("restore {}", logger.restore(image).err().unwrap_or(0)),
                None => "none".into(),
            },
            RESTORE_BYTES => format!("restore {}", logger.restore(bytes).err().unwrap_or(0)),
            GATHER if (1..=256).contains(&number) => gathered(samples, number),
            _ => return None,
        };
        Some(line)
    }
}

/// The lines of the gatherer: samples of half-cycles of m.
fn gathered(samples: &[Sample], m: usize) -> String {
    let halves = samples.chunks_exact(m);
    let rest = halves.remainder();
    let count = halves.len();
    let last = halves.last().unwrap_or(&[]);
    let [part, last] = [rest, last].map(|x| Part::NONE.with(x));
    let marks = [count > 0, part.clipped, last.clipped].map(|x| x as u8);
    let [whole, mark, last_mark] = marks;
    let sums = format!("{} {} {}", rest.len(), part.sum, last.sum);
    let state = format!("{sums} {whole} {mark} {last_mark} {count}");
    format!("samples {state}\nparts {state}")
}

/// What the program prints on any input, by the logger.
pub fn by_logger(input: &[u8]) -> String {
    let start = |settings: &[u8]| {
        Logger::start(settings).map(|logger| Answering { logger, saves: Vec::new() })
    };
    printed(input, start, |answering, (kind, fill, number, bytes, _)| {
        answering.item(kind, fill, number, bytes).map_or(String::new(), |line| line + "\n")
    })
}
