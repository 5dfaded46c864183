//! Recordings as the event program of three phases reads them: the engineer's text, the logger's and,
//! where a program is given, what it writes.

use super::engineer::{apart, readings};
use super::{program, waves};
use crate::hosts::{demand, Outcome, Run};
use crate::program::split;
use crate::programs::{pieces, written};
use crate::rng::Rng;
use crate::rules::{self, settings_bytes};

impl Run<'_> {
    /// One recording, or each refusal of the settings.
    pub fn three_case(&mut self, rng: &mut Rng) -> Outcome<()> {
        if rng.chance(95) {
            let input = input(rng);
            return self.three_input(rng, &input);
        }
        for number in 1..=6 {
            let input = refused(rng, number);
            self.three_input(rng, &input)?;
        }
        Ok(())
    }

    fn three_input(&mut self, rng: &mut Rng, input: &[u8]) -> Outcome<()> {
        let left = program::left_by_engineer(input);
        let by_logger = program::left_by_logger(input);
        let expected = program::text(&left);
        let seen = &mut self.seen.three;
        let (settings, rest) = split(input);
        seen.input(rest.len(), &expected);
        if let Ok(s) = rules::settings(settings) {
            let channels = apart(&program::numbers(program::triples(rest)));
            seen.readings(&readings(s, &channels));
        }
        demand(by_logger == left, || format!("the logger's {by_logger:?}, not {left:?}"))?;
        let pieces = pieces(rng, input.len());
        let Some(path) = self.program_three else { return Ok(()) };
        let text = written(path, input, &pieces)?;
        self.seen.three.programs += 1;
        demand(text == expected, || {
            format!("{path} writes {text:?}, not {expected:?}; {} bytes", input.len())
        })
    }
}

/// Good settings and triples, most often not whole ones at the end.
pub fn input(rng: &mut Rng) -> Vec<u8> {
    let s = waves::settings(rng);
    let mut input = settings_bytes(&s);
    let halves = match rng.range(0, 9) {
        0..=2 => rng.range(0, 150),
        _ if s.m > 40 => rng.range(0, 2 * s.n),
        _ => rng.range(2 * s.n + 1, 4 * s.n),
    };
    let triples = if rng.chance(5) {
        waves::equal(&crate::waves::wave(rng, &s, halves))
    } else {
        waves::recording(rng, &s, halves)
    };
    input.extend(crate::waves::bytes(&triples));
    match rng.range(0, 9) {
        0..=4 => input.extend((0..rng.range(1, 5)).map(|x| x as u8)),
        5..=6 => input.truncate(rng.range(36, input.len() as i64) as usize),
        _ => {}
    }
    input
}

/// An input whose settings are refused with this number.
fn refused(rng: &mut Rng, number: u32) -> Vec<u8> {
    if number == 1 {
        return settings_bytes(&waves::settings(rng))[..rng.range(0, 35) as usize].to_vec();
    }
    let mut input = waves::refused(rng, number);
    input.extend((0..rng.range(0, 3000)).map(|x| x as u8));
    input
}
