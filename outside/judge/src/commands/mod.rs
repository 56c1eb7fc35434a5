//! The subcommands of the program.

pub mod bench;
pub mod exchange;
pub mod fuzz;
pub mod jobs;
pub mod jobtext;
pub mod mutants;
pub mod selftest;

use std::io;
use std::process::exit;

/// An optional seed and an optional number of cases.
pub fn seeded(words: &[&str], cases: usize) -> Option<(u64, usize)> {
    match words {
        [] => Some((1, cases)),
        [seed] => Some((seed.parse().ok()?, cases)),
        [seed, cases] => Some((seed.parse().ok()?, cases.parse().ok()?)),
        _ => None,
    }
}

/// A judge as a program: its command on the words that it was started with, none
/// where they fit nothing. It ends with 0, with 1 where something failed, and with
/// 2 where nothing could be counted.
pub fn program(
    name: &str,
    usage: &str,
    command: impl FnOnce(&[&str]) -> Option<io::Result<Tally>>,
) -> ! {
    let words: Vec<String> = std::env::args().skip(1).collect();
    let words: Vec<&str> = words.iter().map(String::as_str).collect();
    match command(&words) {
        Some(Ok(tally)) => exit(i32::from(tally.close().is_err())),
        Some(Err(error)) => eprintln!("{name}: {error}"),
        None => eprintln!("{usage}"),
    }
    exit(2)
}

/// Counts comparisons and shows the first few that fail.
pub struct Tally {
    pub passed: usize,
    pub failed: usize,
}

const MOST_TOLD: usize = 5;

impl Tally {
    pub fn new() -> Self {
        Tally {
            passed: 0,
            failed: 0,
        }
    }

    /// `told` writes a failure out; it is called for the first few only.
    pub fn count(&mut self, good: bool, told: impl FnOnce() -> String) {
        if good {
            self.passed += 1;
            return;
        }
        self.failed += 1;
        if self.failed <= MOST_TOLD {
            println!("{}", told());
        }
    }

    /// One outcome beside the right one, each as `shown` writes it.
    pub fn compare<T: PartialEq>(
        &mut self,
        case: impl FnOnce() -> String,
        right: &T,
        got: &T,
        shown: impl Fn(&T) -> String,
    ) {
        self.count(right == got, || {
            let (right, got) = (shown(right), shown(got));
            format!("{}\nexpected\n{right}\ngot\n{got}", case())
        });
    }

    /// Prints the last line; an error if anything failed.
    pub fn close(&self) -> Result<(), String> {
        println!("{} passed, {} failed", self.passed, self.failed);
        match self.failed {
            0 => Ok(()),
            _ => Err("there are differences".to_string()),
        }
    }
}

impl Default for Tally {
    fn default() -> Self {
        Tally::new()
    }
}
