//! The recordings in `examples/` give the text beside them, which the top README shows.

use outside::program;
use std::fs;
use std::path::{Path, PathBuf};

fn top() -> PathBuf {
    Path::new(env!("CARGO_MANIFEST_DIR")).join("..")
}

#[test]
fn recordings_give_their_text() {
    for name in ["worked", "crusher", "busy"] {
        let input = fs::read(top().join(format!("examples/{name}.bin"))).unwrap();
        let text = fs::read_to_string(top().join(format!("examples/{name}.txt"))).unwrap();
        assert_eq!(program::by_engineer(&input).printed, text, "{name}");
        assert_eq!(program::by_logger(&input).printed, text, "{name}");
    }
}

#[test]
fn the_readme_shows_the_crusher() {
    let text = fs::read_to_string(top().join("examples/crusher.txt")).unwrap();
    let shown: String = text.lines().map(|x| format!("    {x}\n")).collect();
    assert!(fs::read_to_string(top().join("README.md")).unwrap().contains(&shown));
}
