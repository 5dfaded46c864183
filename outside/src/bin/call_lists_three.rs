//! Runs the program `call_lists_three` on random lists of calls, always the same ones under a seed,
//! and compares what it prints with what the three whole recordings say.
//!
//! call_lists_three LISTS SEED --program PATH [--require-all]
//! call_lists_three --list SEED NUMBER --program PATH
//! call_lists_three --files FOLDER
//! call_lists_three --by-logger < LISTS

use outside::arguments::Arguments;
use outside::call_lists::compare;
use outside::rng::Rng;
use outside::three::lists::{by_logger, end, files, list, Tally};
use std::io::{stdin, Read};

const USAGE: &str = "call_lists_three LISTS SEED --program PATH [--require-all]
call_lists_three --list SEED NUMBER --program PATH
call_lists_three --files FOLDER
call_lists_three --by-logger < LISTS";

/// What differs first in what the logger, and then the program, print on one list.
fn difference(rng: &mut Rng, program: &str, seen: &mut Tally) -> Option<String> {
    let mut list = list(rng, seen);
    if rng.chance(5) {
        end(&mut list, rng.range(1, 255) as u8);
    }
    let by_logger = list.difference(&by_logger(&list.input)).map(|x| format!("the logger's {x}"));
    by_logger.or_else(|| list.program_difference(program, rng))
}

fn main() {
    let mut args = Arguments::new(USAGE);
    if let Some(words) = args.flag("--files", 1) {
        args.numbers(0);
        return files(&mut Tally::default()).write(&words[0]);
    }
    if args.flag("--by-logger", 0).is_some() {
        args.numbers(0);
        let mut input = Vec::new();
        stdin().read_to_end(&mut input).expect("standard input cannot be read");
        return print!("{}", by_logger(&input));
    }
    compare("call_lists_three", args, difference, Tally::counts)
}
