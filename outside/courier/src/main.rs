//! `courier self|mutants|mirror|make|judge [SEED [CASES]|marked|big]`: the courier's reach of RULES 27 judged from outside. `make` writes cases for the
//! driver and `judge` reads what the library answered. `marked` are the cases with a told answer, `big` those at the limits of the tables; with
//! `only=list,run` these have the calls named alone. The last line is 'N passed, M failed'.

use std::io;
use std::process::exit;

use courier::call::{Case, Kind, Outcome};
use courier::cases::{big, by_journeys, right, stream};
use courier::plain::Plain;
use courier::quick::Quick;
use courier::scenes::Bytes;
use courier::wrong::{Sound, Wrong};
use courier::{definitions, exchange, journeys, marked, mirror};
use outside::commands::exchange::Choice;
use outside::commands::{program, Tally};
use outside::wire;

const USAGE: &str = "courier self|mutants|mirror|make|judge [only=list|only=list,run|only=list,parts] [SEED [CASES]|marked|big]";

/// Those of the kinds that are asked for.
fn cases(asked: Choice, kinds: &'static [Kind]) -> Box<dyn Iterator<Item = Case>> {
    let own = move |case: &Case| kinds.contains(&case.kind);
    match asked {
        Choice::Marked => {
            let rows = definitions::all(&Plain).into_iter().map(|(case, ..)| case);
            Box::new(marked::all().into_iter().map(|(_, case, _)| case).chain(rows).filter(own))
        }
        Choice::Big => Box::new(big().into_iter().map(|(case, _)| case).filter(own)),
        Choice::Seed(seed, count) => Box::new(stream(seed).filter(own).take(count)),
    }
}

/// One outcome, beside the right one.
fn compare(tally: &mut Tally, case: &Case, right: &Outcome, got: &Outcome) {
    let small = case.small();
    let head = |outcome: &Outcome| if small { format!("{outcome:?}") } else { format!("{} {:?}", outcome.value, outcome.answer) };
    tally.compare(|| if small { format!("{case:?}") } else { "a large case".to_string() }, right, got, head);
}

/// What is told of the marked and the large cases; the two programs on one another; the plain one on the journeys.
fn own(asked: Choice) -> Tally {
    let mut tally = Tally::new();
    match asked {
        Choice::Marked => {
            for (name, case, told) in marked::all() {
                for got in [case.by(&Quick(Sound)), case.by(&Plain)] {
                    tally.count(got == told, || format!("{name}\nexpected\n{told:?}\ngot\n{got:?}"));
                }
            }
            for (i, (case, view, want)) in definitions::all(&Plain).into_iter().enumerate() {
                for got in [case.by(&Quick(Sound)), case.by(&Plain)] {
                    let got = view.of(&case, &got);
                    tally.count(got == want, || format!("row {i} of the definitions\nexpected\n{want:?}\ngot\n{got:?}"));
                }
            }
        }
        Choice::Big => {
            for (case, told) in big() {
                let got = case.refusal(&right(&case));
                tally.count(got == Some(told), || format!("{:?}: {got:?}, not {told:?}", case.kind));
            }
        }
        Choice::Seed(seed, count) => {
            for case in stream(seed).take(count).filter(Case::small) {
                compare(&mut tally, &case, &case.by(&Plain), &right(&case));
            }
            for scene in (0..count as u64 / 6).filter_map(|index| by_journeys(seed, index)) {
                let bytes = Bytes::of(&scene.network, None);
                let (tables, query) = (bytes.tables(), scene.query);
                let wrong = journeys::mistimed(tables, query).map(|v| format!("vertex {v}"));
                let wrong = wrong.or_else(|| journeys::uncovered(tables, query).map(|point| format!("point {point:?}")));
                tally.count(wrong.is_none(), || format!("{scene:?}\nnot as the journeys are: {wrong:?}"));
            }
        }
    }
    tally
}

fn mutants(seed: u64, count: usize) -> Tally {
    let mut tally = Tally::new();
    let seeded = stream(seed).filter(Case::small).take(count);
    let all: Vec<(Case, Outcome)> = marked::all().into_iter().map(|(_, case, _)| case).chain(seeded).map(|case| (right(&case), case)).map(|(r, c)| (c, r)).collect();
    for &wrong in Wrong::ALL {
        let caught = all.iter().any(|(case, right)| case.by(&Quick(wrong)) != *right);
        tally.count(caught, || format!("not caught: {wrong:?}, {}", wrong.note()));
    }
    tally
}

/// Both programs on networks turned round.
fn mirrored(seed: u64, count: usize) -> Tally {
    let mut tally = Tally::new();
    for index in (0..count as u64).filter(|&index| mirror::scenes(seed, index).is_some()) {
        let wrong = mirror::differs(seed, index, &Quick(Sound)).or_else(|| if index % 4 == 0 { mirror::differs(seed, index, &Plain) } else { None });
        tally.count(wrong.is_none(), || format!("{}", wrong.as_deref().unwrap_or("")));
    }
    tally
}

fn judge(asked: Choice, kinds: &'static [Kind]) -> io::Result<Tally> {
    wire::judge(cases(asked, kinds), exchange::get_outcome, |tally, case, (got, stray)| {
        compare(tally, case, &right(case), &got);
        if stray {
            tally.count(false, || "touched beside the slices, or in one that is only read".to_string());
        }
    })
}

/// The calls that are asked for, and the words behind that.
fn only<'a, 'b>(words: &'a [&'b str]) -> (&'static [Kind], &'a [&'b str]) {
    match words {
        ["only=list", rest @ ..] => (&[Kind::List], rest),
        ["only=list,run", rest @ ..] => (&[Kind::List, Kind::Run], rest),
        ["only=list,parts", rest @ ..] => (&[Kind::List, Kind::Parts], rest),
        _ => (&[Kind::List, Kind::Run, Kind::Parts], words),
    }
}

fn command(words: &[&str]) -> Option<io::Result<Tally>> {
    let (&name, rest) = words.split_first()?;
    let (kinds, rest) = only(rest);
    Some(match (name, Choice::told(rest, 6_000)?) {
        ("self", asked) => Ok(own(asked)),
        ("mutants", Choice::Seed(seed, count)) => Ok(mutants(seed, count)),
        ("mirror", Choice::Seed(seed, count)) => Ok(mirrored(seed, count)),
        ("judge", asked) => judge(asked, kinds),
        ("make", asked) => wire::make(cases(asked, kinds), exchange::put_case).map(|()| exit(0)),
        _ => return None,
    })
}

fn main() {
    program("courier", USAGE, command)
}
