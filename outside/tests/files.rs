//! The recording, the lists of calls and the images that the proved programs are run on in the gate
//! hold what they are there for. `files.sh` compares them with the committed ones.

use outside::by_logger::by_logger;
use outside::call_lists::{self, Tally};
use outside::logger::Logger;
use outside::program;
use outside::rules::{self, IMAGE};
use outside::three;
use std::fs;
use std::path::Path;

fn has_lines(text: &str, starts: &[&str]) {
    for start in starts {
        assert!(text.lines().any(|line| line.starts_with(start)), "{start}");
    }
}

#[test]
fn the_recording() {
    let input = program::recording();
    let text = program::by_engineer(&input);
    assert_eq!(program::by_logger(&input), text);
    has_lines(&text.printed, &["dip ", "swell ", "interruption ", "rvc "]);
    has_lines(&text.told, &["event_log: not ended: dip"]);
    // The long dip hides the change that begins where it ends.
    has_lines(&text.printed, &["dip 527 129 1408 0"]);
    assert!(!text.printed.contains("rvc 656 "));
}

/// Everything that is counted stands in them: each call, refusal, why, phase, event and mark, and what
/// stands before and behind trials.
#[test]
fn the_lists_of_calls() {
    let mut seen = Tally::default();
    let list = call_lists::files(&mut seen);
    assert_eq!(list.difference(&by_logger(&list.input)), None);
    has_lines(&list.text, &["samples ", "parts ", "none", "trial 55 0 1 ", "feed 64 1 0 "]);
    for (name, count) in seen.counts() {
        assert!(count > 0, "{name}");
    }
}

#[test]
fn the_recording_of_three_phases() {
    let input = three::program::recording();
    let text = three::program::by_engineer(&input);
    assert_eq!(three::program::by_logger(&input), text);
    has_lines(&text.printed, &["dip ", "swell ", "interruption ", "rvc "]);
    has_lines(&text.told, &["event_log_three: not ended: dip"]);
    // The long dip in b hides the change in a, and the one that begins where it ends.
    has_lines(&text.printed, &["dip 494 229 352000 0"]);
    assert!(!text.printed.contains("rvc 614 ") && !text.printed.contains("rvc 723 "));
}

#[test]
fn the_lists_of_calls_of_three_phases() {
    let mut seen = three::lists::Tally::default();
    let list = three::lists::files(&mut seen);
    assert_eq!(list.difference(&three::lists::by_logger(&list.input)), None);
    for (name, count) in seen.counts() {
        assert!(count > 0, "{name}");
    }
}

/// The images of the Python program, read as the proved program reads them, by the rules and by the
/// logger: three readings of the refusals.
#[test]
fn the_image_vectors() {
    let folder = Path::new(env!("CARGO_MANIFEST_DIR")).join("../crates/image_vectors");
    let input = fs::read(folder.join("stdin")).unwrap();
    let text = fs::read_to_string(folder.join("stdout")).unwrap();
    let mut numbers = text.lines();
    let (good, vectors) = input.split_at(IMAGE);
    let mut image = [good, &[0; 20]].concat();
    for (j, vector) in vectors.chunks_exact(14).enumerate() {
        let two = |at: usize| u16::from_le_bytes([vector[at], vector[at + 1]]) as usize;
        let (length, offset, width) = (two(0), two(2), two(4));
        image[offset..offset + width % 128].copy_from_slice(&vector[6..6 + width % 128]);
        if width < 128 {
            let number: u32 = numbers.next().unwrap().parse().unwrap();
            let bytes = &image[..length];
            assert_eq!(rules::restore(bytes), number, "change {j}");
            assert_eq!(Logger::from_image(bytes).err().unwrap_or(0), number, "change {j}");
            image[..IMAGE].copy_from_slice(good);
        }
    }
    assert_eq!(numbers.next(), None);
}
