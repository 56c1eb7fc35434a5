//! `timetable self|mutants|make|judge [SEED [CASES]|hand|big|room]`: the timetable of RULES 26 judged from outside. `make` writes cases for the driver
//! and `judge` reads what the library answered. `hand` are the cases with a told answer, `big` the large ones, `room` those with more lines or ids than a memory; those of a seed stand behind all others but these. The last line is 'N passed, M failed'.

use std::io;
use std::process::exit;

use outside::commands::{program, seeded, Tally};
use outside::wire;
use timetable::call::{Case, Outcome};
use timetable::cases::{big, every_line, fixed, made::made, room, told, Said};
use timetable::plain::{self, RIGHT};
use timetable::{exchange, quick, wrong};

const USAGE: &str = "timetable self|mutants|make|judge [SEED [CASES]|hand|big|room]";

/// The cases that a command is about.
enum Asked {
    Hand,
    Big,
    Room,
    Seed(u64, u64),
}

fn cases(asked: &Asked) -> Box<dyn Iterator<Item = (Case, Said)>> {
    match *asked {
        Asked::Hand => Box::new(fixed::all().into_iter().chain(every_line::all())),
        Asked::Big => Box::new(big::all().into_iter()),
        Asked::Room => Box::new(room::all().into_iter()),
        Asked::Seed(seed, count) => Box::new(told().into_iter().chain((0..count).map(move |i| (made(seed, i), Said::Nothing)))),
    }
}

/// One outcome, beside the right one.
fn compare(tally: &mut Tally, case: &Case, right: &Outcome, got: &Outcome) {
    tally.compare(|| format!("{case:?}"), right, got, |outcome| format!("{outcome:?}"));
}

/// What is told of the cases, then the two programs on one another. The large ones are too many lines for the plain one.
fn own(asked: &Asked) -> Tally {
    let mut tally = Tally::new();
    for (case, said) in cases(asked) {
        let right = quick::answered(&case);
        tally.count(said.agrees(&case, &right), || format!("{case:?}\nnot as it is told\n{right:?}"));
        if !matches!(asked, Asked::Big | Asked::Room) {
            compare(&mut tally, &case, &right, &plain::answered(&case, &RIGHT));
        }
    }
    tally
}

fn mutants(asked: &Asked) -> Tally {
    let mut tally = Tally::new();
    let all: Vec<(Case, Outcome)> = cases(asked).map(|(case, _)| (quick::answered(&case), case)).map(|(right, case)| (case, right)).collect();
    for (name, rules) in wrong::ALL {
        let caught = all.iter().filter(|(case, right)| plain::answered(case, rules) != *right).take(3).count();
        tally.count(caught > 0, || format!("not caught: {name}"));
    }
    tally
}

fn judge(asked: &Asked) -> io::Result<Tally> {
    wire::judge(cases(asked).map(|(case, _)| case), exchange::get_outcome, |tally, case, (got, stray)| {
        compare(tally, case, &quick::answered(case), &got);
        if stray {
            tally.count(false, || format!("{case:?}\nchanged beside its slices, or in a text"));
        }
    })
}

fn asked(words: &[&str]) -> Option<Asked> {
    match words {
        ["hand"] => Some(Asked::Hand),
        ["big"] => Some(Asked::Big),
        ["room"] => Some(Asked::Room),
        _ => seeded(words, 20_000).map(|(seed, count)| Asked::Seed(seed, count as u64)),
    }
}

fn command(words: &[&str]) -> Option<io::Result<Tally>> {
    let (&name, rest) = words.split_first()?;
    let asked = asked(rest)?;
    Some(match name {
        "self" => Ok(own(&asked)),
        "mutants" => Ok(mutants(&asked)),
        "judge" => judge(&asked),
        "make" => wire::make(cases(&asked).map(|(case, _)| case), exchange::put_case).map(|()| exit(0)),
        _ => return None,
    })
}

fn main() {
    program("timetable", USAGE, command)
}
