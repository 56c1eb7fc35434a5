//! The command line of the independent judge.

use std::path::Path;
use std::process::ExitCode;

use outside::commands::exchange::{self, Choice};
use outside::commands::{bench, fuzz, jobs, jobtext, mutants, seeded, selftest};
use outside::mutant::{Mutant, Sound};

const USAGE: &str = "usage:
  outside self [SEED] [CASES]           compare the fast and the slow program
  outside mutants [SEED] [CASES]        show that wrong versions are caught
  outside make SEED CASES | big | marked
                                        write cases for the driver
  outside judge SEED CASES | big | marked
                                        judge the driver's answers
  outside make fuzz SEED SECONDS        write damaged cases for so long
  outside judge fuzz SEED SECONDS       judge the driver's answers to them
  outside show SEED NUMBER              print one case and its outcome
  outside reach                         a job in, its printed lines out
  outside job [FILE]                    make a binary job from readable lines
  outside jobs SEED CASES DIR           write jobs DIR/000000.job ...
  outside judge-jobs SEED CASES DIR     judge the outputs DIR/000000.out ...
  outside try-jobs SEED CASES PROGRAM [ARGUMENTS]
                                        run a program on jobs and judge it
  outside fuzz-jobs SEED SECONDS PROGRAM [ARGUMENTS]
                                        run a program on damaged jobs for so long
  outside bench [ROUNDS]                time the fast program
The variable OUTSIDE_MUTANT makes self and reach use a wrong version.";

fn main() -> ExitCode {
    let words: Vec<String> = std::env::args().skip(1).collect();
    match command(&words) {
        Some(Ok(())) => ExitCode::SUCCESS,
        Some(Err(message)) => {
            eprintln!("outside: {message}");
            ExitCode::FAILURE
        }
        None => {
            eprintln!("{USAGE}");
            ExitCode::from(2)
        }
    }
}

/// None where the words fit no subcommand.
fn command(words: &[String]) -> Option<Result<(), String>> {
    let (name, rest) = words.split_first()?;
    let words: Vec<&str> = rest.iter().map(String::as_str).collect();
    Some(match (name.as_str(), words.as_slice()) {
        ("self", rest) => self_test(rest)?,
        ("mutants", rest) => {
            let (seed, cases) = seeded(rest, 6_000)?;
            mutants::run(seed, cases)
        }
        ("make", ["fuzz", seed, seconds]) => fuzz::make(seed.parse().ok()?, seconds.parse().ok()?),
        ("judge", ["fuzz", seed, _]) => fuzz::judge(seed.parse().ok()?),
        ("fuzz-jobs", [seed, seconds, _, ..]) => {
            fuzz::jobs(seed.parse().ok()?, seconds.parse().ok()?, &rest[2..])
        }
        ("make", rest) => exchange::make(choice(rest)?),
        ("judge", rest) => exchange::judge(choice(rest)?),
        ("show", [seed, number]) => selftest::show_one(seed.parse().ok()?, number.parse().ok()?),
        ("reach", []) => reach(),
        ("job", []) => jobtext::run(None),
        ("job", [file]) => jobtext::run(Some(file)),
        ("jobs", [seed, cases, dir]) => {
            jobs::make(seed.parse().ok()?, cases.parse().ok()?, Path::new(dir))
        }
        ("judge-jobs", [seed, cases, dir]) => {
            jobs::judge(seed.parse().ok()?, cases.parse().ok()?, Path::new(dir))
        }
        ("try-jobs", [seed, cases, _, ..]) => {
            jobs::drive(seed.parse().ok()?, cases.parse().ok()?, &rest[2..])
        }
        ("bench", []) => bench::run(9),
        ("bench", [rounds]) => bench::run(rounds.parse().ok()?),
        _ => return None,
    })
}

fn choice(words: &[&str]) -> Option<Choice> {
    match words {
        ["big"] | ["marked"] | [_, _] => Choice::told(words, 0),
        _ => None,
    }
}

fn self_test(words: &[&str]) -> Option<Result<(), String>> {
    let (seed, cases) = seeded(words, 20_000)?;
    Some(match Mutant::from_environment() {
        Ok(None) => selftest::run(seed, cases, Sound),
        Ok(Some(mutant)) => selftest::run(seed, cases, mutant),
        Err(message) => Err(message),
    })
}

fn reach() -> Result<(), String> {
    match Mutant::from_environment()? {
        None => jobs::reach(Sound),
        Some(mutant) => jobs::reach(mutant),
    }
}
