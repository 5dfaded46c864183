//! Runs the program `call_lists` on random lists of calls, always the same ones under a seed, and
//! compares what it prints with what the whole recording says.
//!
//! call_lists LISTS SEED --program PATH [--require-all]
//! call_lists --list SEED NUMBER --program PATH
//! call_lists --files FOLDER
//! call_lists --by-logger < LISTS

use outside::arguments::Arguments;
use outside::by_logger::by_logger;
use outside::call_lists::{compare, files, list, Tally};
use outside::rng::Rng;
use std::io::{stdin, Read};

const USAGE: &str = "call_lists LISTS SEED --program PATH [--require-all]
call_lists --list SEED NUMBER --program PATH
call_lists --files FOLDER
call_lists --by-logger < LISTS";

/// What differs first in what the logger prints on one list, with its trials and without them, and
/// then in what the program prints.
fn difference(rng: &mut Rng, program: &str, seen: &mut Tally) -> Option<String> {
    let list = list(rng, seen);
    let plain = list.without_trials();
    for (list, text) in [(&list, "the logger's"), (&plain, "without trials the logger's")] {
        if let Some(difference) = list.difference(&by_logger(&list.input)) {
            return Some(format!("{text} {difference}"));
        }
    }
    list.program_difference(program, rng)
}

fn main() {
    let mut args = Arguments::new(USAGE);
    if let Some(words) = args.flag("--files", 1) {
        args.numbers(0);
        return files(&mut Tally::default()).write(&words[0]);
    }
    if args.flag("--by-logger", 0).is_some() {
        args.numbers(0);
        let mut input = Vec::new();
        stdin().read_to_end(&mut input).expect("standard input cannot be read");
        return print!("{}", by_logger(&input));
    }
    compare("call_lists", args, difference, Tally::counts)
}
