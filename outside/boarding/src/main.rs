//! `boarding self|mutants|names|ordinary|make|judge [SEED [CASES]|marked|big]` and `boarding bench [ROUNDS]`: the run with a boarding time (RULES 29) judged from outside. `make` writes cases for
//! the driver and `judge` reads what the library answered. `marked` are the cases with a told answer, `big` those at the limits of the tables. `names` has
//! the wrong versions, `bench` the medians of the quick program. The last line is 'N passed, M failed'.

use std::hint::black_box;
use std::io;
use std::process::exit;
use std::time::{Duration, Instant};

use boarding::call::{Case, Outcome};
use boarding::cases::{big, by_journeys, ground, right, stream, Ground};
use boarding::mapped::Mapped;
use boarding::plain::Plain;
use boarding::quick::Quick;
use boarding::wrong::{Sound, Wrong};
use boarding::{definitions, exchange, journeys, marked, ordinary, rounds, scenes};
use outside::commands::bench::middle;
use outside::commands::exchange::Choice;
use outside::commands::{program, Tally};
use outside::records::{Settled, SETTLED};
use outside::wire;

const USAGE: &str = "boarding self|mutants|names|ordinary|make|judge [SEED [CASES]|marked|big], boarding bench [ROUNDS]";

fn cases(asked: Choice) -> Box<dyn Iterator<Item = Case>> {
    match asked {
        Choice::Marked => Box::new(marked::all().into_iter().map(|(_, case, _)| case).chain(definitions::all().into_iter().map(|(case, ..)| case))),
        Choice::Big => Box::new(big().into_iter().map(|(case, _)| case)),
        Choice::Seed(seed, count) => Box::new(stream(seed).take(count)),
    }
}

/// One outcome, beside the right one.
fn compare(tally: &mut Tally, case: &Case, right: &Outcome, got: &Outcome) {
    let small = case.small();
    let head = |outcome: &Outcome| if small { format!("{outcome:?}") } else { format!("{} {:?}", outcome.value, outcome.answer) };
    tally.compare(|| if small { format!("{case:?}") } else { "a large case".to_string() }, right, got, head);
}

/// What is told of the marked and the large cases; the programs on one another; the plain one on the journeys.
fn own(asked: Choice) -> Tally {
    let mut tally = Tally::new();
    match asked {
        Choice::Marked => {
            for (name, case, told) in marked::all() {
                for got in [case.by(&Quick(Sound)), case.by(&Mapped), case.by(&Plain)] {
                    tally.count(got == told, || format!("{name}\nexpected\n{told:?}\ngot\n{got:?}"));
                }
            }
            for (i, (case, view, want)) in definitions::all().into_iter().enumerate() {
                for got in [case.by(&Quick(Sound)), case.by(&Mapped), case.by(&Plain)] {
                    let got = view.of(&got);
                    tally.count(got == want, || format!("row {i} of the definitions\nexpected\n{want:?}\ngot\n{got:?}"));
                }
            }
        }
        Choice::Big => {
            for (number, (case, (refusal, list))) in big().into_iter().enumerate() {
                let after = right(&case);
                // Where the way it is built tells no list, and nothing stops the run before its end, rounds over all records do.
                let whole = refusal == (0, 0) && case.limit == u32::MAX;
                let list = list.or_else(|| whole.then(|| rounds::list(case.tables(), case.query, case.boarding)));
                let got: Vec<Settled> = (0..case.answered(&after).map_or(0, |six| six.settled as usize)).map(|i| Settled::read(&after.settled, i)).collect();
                let good = case.refusal(&after) == Some(refusal) && list.is_none_or(|list| list == got);
                tally.count(good, || format!("large case {number}: {:?}, not {refusal:?}, or another list", case.answered(&after)));
                compare(&mut tally, &case, &after, &case.by(&Mapped));
            }
        }
        Choice::Seed(seed, count) => {
            for case in stream(seed).take(count) {
                let quick = right(&case);
                compare(&mut tally, &case, &quick, &case.by(&Mapped));
                if case.small() {
                    compare(&mut tally, &case, &case.by(&Plain), &quick);
                }
            }
            for ground in (0..count as u64 / 10).filter_map(|index| by_journeys(seed, index)) {
                let wrong = journeys::mistimed(ground.bytes.tables(), ground.ridden.scene.query, ground.ridden.boarding);
                tally.count(wrong.is_none(), || format!("{:?}\nnot as the journeys are: vertex {wrong:?}", ground.ridden));
            }
        }
    }
    tally
}

/// Each wrong version has to differ on a case by hand, and on one of the seed.
fn mutants(seed: u64, count: usize) -> Tally {
    let mut tally = Tally::new();
    let with = |cases: Vec<Case>| -> Vec<(Outcome, Case)> { cases.into_iter().map(|case| (right(&case), case)).collect() };
    let by_hand = with(marked::all().into_iter().map(|(_, case, _)| case).collect());
    let seeded = with(stream(seed).filter(Case::small).take(count).collect());
    for &wrong in Wrong::ALL {
        for (cases, kind) in [(&by_hand, "by hand"), (&seeded, "of the seed")] {
            let caught = cases.iter().any(|(right, case)| case.by(&Quick(wrong)) != *right);
            tally.count(caught, || format!("not caught by the cases {kind}: {wrong:?}, {}", wrong.note()));
        }
    }
    tally
}

/// Both programs without a boarding time, beside the ordinary run, and at boarding times that grow.
fn usual(seed: u64, count: usize) -> Tally {
    let mut tally = Tally::new();
    for index in 0..count as u64 {
        let (ground, _) = ground(seed, index);
        let small = ground.roomy().small() && index % 4 == 0;
        let found = [
            ordinary::differs(&ground, &Quick(Sound)),
            if small { ordinary::differs(&ground, &Plain) } else { None },
            ordinary::grows(&ground, &Quick(Sound)),
            if small { ordinary::grows(&ground, &Plain) } else { None },
        ];
        let wrong = found.into_iter().flatten().next();
        tally.count(wrong.is_none(), || wrong.clone().unwrap_or_default());
    }
    tally
}

/// How long the quick program takes, with all steps and with none, which is what judging and making ready cost.
fn bench(rounds: usize) {
    println!("{rounds} rounds in ms: limit 0 and the whole run, medians, then the least of each");
    for (name, ridden) in scenes::measured() {
        let ground = Ground::new(ridden, true);
        let times = |limit: u32| {
            let case = Case { limit, settled: vec![0; SETTLED * ground.settled.len()], ..ground.roomy() };
            let once = |_| {
                let mut after = case.before();
                let start = Instant::now();
                black_box(case.call_in(&Quick(Sound), &mut after));
                start.elapsed()
            };
            let times: Vec<Duration> = (0..rounds.max(1)).map(once).collect();
            let least = times.iter().min().copied().unwrap_or_default();
            [middle(times), least].map(|time| time.as_secs_f64() * 1e3)
        };
        let ([start, least_start], [run, least_run]) = (times(0), times(u32::MAX));
        println!("{name:<50}{:>7} settled{start:>10.3}{run:>10.3}{least_start:>10.3}{least_run:>10.3}", ground.settled.len());
    }
}

fn judge(asked: Choice) -> io::Result<Tally> {
    wire::judge(cases(asked), exchange::get_outcome, |tally, case, (got, stray)| {
        compare(tally, case, &right(case), &got);
        if stray {
            tally.count(false, || "touched beside the slices, or in one that is only read".to_string());
        }
    })
}

fn command(words: &[&str]) -> Option<io::Result<Tally>> {
    let (&name, rest) = words.split_first()?;
    match (name, rest) {
        ("names", []) => {
            Wrong::ALL.iter().for_each(|wrong| println!("{wrong:?}"));
            exit(0);
        }
        ("bench", rounds) => {
            bench(rounds.first().map_or(Some(5), |rounds| rounds.parse().ok())?);
            exit(0);
        }
        _ => {}
    }
    Some(match (name, Choice::told(rest, 6_000)?) {
        ("self", asked) => Ok(own(asked)),
        ("mutants", Choice::Seed(seed, count)) => Ok(mutants(seed, count)),
        ("ordinary", Choice::Seed(seed, count)) => Ok(usual(seed, count)),
        ("judge", asked) => judge(asked),
        ("make", asked) => wire::make(cases(asked), exchange::put_case).map(|()| exit(0)),
        _ => return None,
    })
}

fn main() {
    program("boarding", USAGE, command)
}
