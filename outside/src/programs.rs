//! Recordings as the event program reads them: the engineer's text, the logger's and, where a
//! program is given, what it writes.

use crate::hosts::{demand, Outcome, Run};
use crate::program::{self, Text};
use crate::rng::{one_of, Rng};
use crate::rules::settings_bytes;
use crate::{clips, waves};
use std::io::{ErrorKind, Write};
use std::process::{Command, Stdio};
use std::thread;
use std::time::Duration;

impl Run<'_> {
    /// One input: most often good settings and samples.
    pub fn program_case(&mut self, rng: &mut Rng) -> Outcome<()> {
        let s = waves::settings(rng);
        let halves = rng.range(0, if s.m <= 40 { 5 * s.n } else { 2 * s.n });
        let mut input = match rng.range(0, 9) {
            0..=7 => settings_bytes(&s),
            _ => waves::bad_settings(rng),
        };
        input.extend(waves::bytes(&clips::wave(rng, &s, halves)));
        match rng.range(0, 9) {
            0 => input.truncate(rng.range(0, 80) as usize),
            1..=3 => input.push(rng.next() as u8),
            4 => input.truncate(rng.range(0, input.len() as i64) as usize),
            _ => {}
        }
        let expected = program::by_engineer(&input);
        let text = program::by_logger(&input);
        self.seen.text(&expected.told);
        demand(text == expected, || format!("the logger's {text:?}, not {expected:?}"))?;
        let pieces = pieces(rng, input.len());
        let Some(path) = self.program else { return Ok(()) };
        let text = written(path, &input, &pieces)?;
        self.seen.programs += 1;
        demand(text == expected, || {
            format!("{path} writes {text:?}, not {expected:?}; {} bytes", input.len())
        })
    }
}

/// Lengths of the pieces that an input is given in.
pub fn pieces(rng: &mut Rng, length: usize) -> Vec<usize> {
    let most = one_of(&[length as i64, 1, 3, 37, 1000, 5000, 100_000], rng).max(1);
    let mut left = length;
    let mut list = Vec::new();
    while left > 0 {
        // After two hundred small pieces, the rest at once.
        let piece = if list.len() < 200 { rng.range(1, most) as usize } else { left };
        list.push(piece.min(left));
        left -= piece.min(left);
    }
    list
}

/// What the program writes on this input, given in these pieces.
pub fn written(path: &str, input: &[u8], pieces: &[usize]) -> Outcome<Text> {
    let cannot = |x: std::io::Error| format!("{path}: {x}");
    let mut command = Command::new(path);
    command.stdin(Stdio::piped()).stdout(Stdio::piped()).stderr(Stdio::piped());
    let mut child = command.spawn().map_err(cannot)?;
    let mut pipe = child.stdin.take().unwrap();
    thread::scope(|scope| {
        let writer = scope.spawn(move || {
            let mut left = input;
            for (j, &piece) in pieces.iter().enumerate() {
                match pipe.write_all(&left[..piece]) {
                    // A program that has refused the settings need not read on.
                    Err(x) if x.kind() == ErrorKind::BrokenPipe => return Ok(()),
                    other => other?,
                }
                left = &left[piece..];
                // Time for the program to read the first pieces one by one.
                if j < 10 {
                    thread::sleep(Duration::from_micros(30));
                }
            }
            Ok(())
        });
        let output = child.wait_with_output().map_err(cannot)?;
        writer.join().unwrap().map_err(cannot)?;
        demand(output.status.code().is_some(), || format!("{path}: {}", output.status))?;
        let text = |bytes: Vec<u8>| String::from_utf8_lossy(&bytes).into_owned();
        Ok(Text { printed: text(output.stdout), told: text(output.stderr) })
    })
}
