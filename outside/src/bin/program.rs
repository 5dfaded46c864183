//! The event programs, by the engineer: settings and samples from standard input, text out.
//!
//! program [--three [--by-logger]] < RECORDING
//! program [--three] --files FOLDER

use outside::arguments::Arguments;
use outside::{program, three};
use std::io::{stdin, Read};

const USAGE: &str = "program [--three [--by-logger]] < RECORDING
program [--three] --files FOLDER";

/// Writes the recording that the gate runs a proved program on, and what it must print.
fn write_files(folder: &str, input: &[u8], text: &str) {
    std::fs::write(format!("{folder}/stdin"), input).expect("the recording cannot be written");
    std::fs::write(format!("{folder}/stdout"), text).expect("the text cannot be written");
}

fn main() {
    let mut args = Arguments::new(USAGE);
    let files = args.flag("--files", 1);
    let in_three = args.flag("--three", 0).is_some();
    let by_logger = in_three && args.flag("--by-logger", 0).is_some();
    args.numbers(0);
    let write = match (in_three, by_logger) {
        (false, _) => program::by_engineer,
        (true, false) => three::program::by_engineer,
        (true, true) => three::program::by_logger,
    };
    if let Some(words) = files {
        let input = if in_three { three::program::recording() } else { program::recording() };
        return write_files(&words[0], &input, &write(&input).printed);
    }
    let mut input = Vec::new();
    stdin().read_to_end(&mut input).expect("standard input cannot be read");
    let text = write(&input);
    print!("{}", text.printed);
    eprint!("{}", text.told);
}
