//! The words that a program is called with.

use std::process::exit;

pub struct Arguments {
    words: Vec<String>,
    usage: &'static str,
}

impl Arguments {
    pub fn new(usage: &'static str) -> Arguments {
        Arguments { words: std::env::args().skip(1).collect(), usage }
    }

    pub fn usage(&self) -> ! {
        eprintln!("{}", self.usage);
        exit(2)
    }

    /// Takes a flag out, with the given number of words after it.
    pub fn flag(&mut self, name: &str, words: usize) -> Option<Vec<String>> {
        let at = self.words.iter().position(|x| x == name)?;
        if at + words >= self.words.len() {
            self.usage();
        }
        Some(self.words.drain(at..=at + words).skip(1).collect())
    }

    /// The number that a word is.
    pub fn number(&self, word: &str) -> u64 {
        word.parse().unwrap_or_else(|_| self.usage())
    }

    /// The words that are left, which must be so many numbers.
    pub fn numbers(&self, count: usize) -> Vec<u64> {
        if self.words.len() != count {
            self.usage();
        }
        self.words.iter().map(|x| self.number(x)).collect()
    }
}
