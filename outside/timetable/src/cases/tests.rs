//! That the cases reach what they are made for.

use std::collections::{BTreeMap, BTreeSet};

use super::*;
use crate::{plain, quick, wrong};

fn refusal(outcome: &Outcome) -> Refusal {
    let number = |at: usize| u32::from_be_bytes(outcome.answer[at..at + 4].try_into().expect("four bytes"));
    (number(0), number(4))
}

/// What is written out by hand tells every wrong version, without a seed.
#[test]
fn told_cases_catch_every_wrong_version() {
    let all: Vec<(Case, Outcome)> = told()
        .into_iter()
        .filter(|(_, said)| !matches!(said, Said::Nothing))
        .map(|(case, _)| (quick::answered(&case), case))
        .map(|(right, case)| (case, right))
        .collect();
    let missed: Vec<&str> = wrong::ALL.iter().filter(|(_, rules)| !all.iter().any(|(case, right)| plain::answered(case, rules) != *right)).map(|version| version.0).collect();
    assert!(missed.is_empty(), "{missed:?}");
}

#[test]
fn each_refusal_at_its_first_and_last_line() {
    let mut places: BTreeMap<u32, BTreeSet<u32>> = BTreeMap::new();
    for (case, _) in every_line::all() {
        let (number, place) = refusal(&quick::answered(&case));
        places.entry(number).or_default().insert(place);
    }
    let from = |number: u32, first: u32, last: u32| assert_eq!(places[&number], (first..=last).collect(), "{number}");
    from(12, 1, 1);
    from(13, 2, 13);
    from(14, 2, 13);
    from(16, 2, 13);
    from(29, 1, 4);
    // A repeat needs a line of its trip further up, which not every line has.
    assert_eq!((places[&15].first(), places[&15].last()), (Some(&3), Some(&13)));
}

#[test]
fn every_refusal_comes_often() {
    let mut counts: BTreeMap<u32, usize> = BTreeMap::new();
    let mut hops = 0;
    for index in 0..4_000 {
        let outcome = quick::answered(&made::made(1, index));
        if outcome.value == 0 {
            *counts.entry(refusal(&outcome).0).or_default() += 1;
            hops += usize::from(outcome.answer[11] > 2);
        }
    }
    for number in [0, 1, 12, 13, 14, 15, 16, 17, 29] {
        assert!(counts.get(&number).is_some_and(|count| *count >= 60), "{number}: {counts:?}");
    }
    assert!(hops > 300, "{hops}");
}

#[test]
fn damage_reaches_every_refusal_but_room() {
    let numbers: BTreeSet<u32> = damaged::all().iter().filter(|(_, said)| matches!(said, Said::Nothing)).map(|(case, _)| refusal(&quick::answered(case)).0).collect();
    assert_eq!(numbers, [0, 12, 13, 14, 15, 16, 29].into());
}
