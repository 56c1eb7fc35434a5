//! The library and the Rust program in turn, on the same tables.

use std::hint::black_box;
use std::time::Duration;

use outside::cases::trips::widen;
use outside::commands::bench::{city_scenes, middle, own_list};
use outside::network::Scene;
use outside::outcome::{Case, Outcome};
use outside::pair::OneRun;
use outside::records::{Answer, Query, Settled, ANSWER, SETTLED};

use crate::clock::timed;
use crate::flat::{Flat, Memory};
use crate::page::{grouped, head, row};
use crate::program::{agreed, call, Program, RUST};
use crate::room::{filled, least_room, run_in};

/// The times of one kind of call: library and Rust, a pair for each round.
pub type Times = Vec<(Duration, Duration)>;

/// The times of a call, or of what is left of one, and the least of each.
#[derive(Clone)]
pub struct Spent {
    rounds: Times,
    least: [Duration; 2],
}

impl Spent {
    pub fn of(times: &Times) -> Self {
        let least = |time: fn(&(Duration, Duration)) -> Duration| {
            times.iter().map(time).min().unwrap_or_default()
        };
        Spent {
            rounds: times.clone(),
            least: [least(|pair| pair.0), least(|pair| pair.1)],
        }
    }

    /// Pairs made of the rounds of two calls, and of their least times.
    fn with(
        &self,
        other: &Spent,
        make: impl Fn((Duration, Duration), (Duration, Duration)) -> (Duration, Duration),
    ) -> Spent {
        let pairs = self.rounds.iter().zip(&other.rounds);
        let ([one, two], [three, four]) = (self.least, other.least);
        Spent {
            least: make((one, two), (three, four)).into(),
            rounds: pairs.map(|(&one, &other)| make(one, other)).collect(),
        }
    }

    /// What is left when a part is taken off, round by round: what disturbs a
    /// round disturbs both.
    pub fn less(&self, part: &Spent) -> Spent {
        self.with(part, |one, other| {
            (one.0.saturating_sub(other.0), one.1.saturating_sub(other.1))
        })
    }

    /// The library's times of this, and beside them another program's.
    pub fn beside(&self, other: &Spent) -> Spent {
        self.with(other, |one, other| (one.0, other.1))
    }

    fn middles(&self) -> [Duration; 2] {
        let side = |time: fn(&(Duration, Duration)) -> Duration| {
            middle(self.rounds.iter().map(time).collect())
        };
        [side(|pair| pair.0), side(|pair| pair.1)]
    }

    /// Library, Rust, the ratio of the rounds, the ratio of the least times.
    pub fn cells(&self) -> [String; 4] {
        let ([library, rust], [median, least]) = (self.medians(), self.ratios().map(told));
        [library, rust, median, least]
    }

    /// The library's time by the Rust program's: the median of the rounds, since
    /// what disturbs a round disturbs both, and that of the least times.
    pub fn ratios(&self) -> [f64; 2] {
        let round = |pair: &(Duration, Duration)| pair.0.as_secs_f64() / pair.1.as_secs_f64();
        let rounds = self.rounds.iter().map(round);
        let mut rounds: Vec<f64> = rounds.filter(|ratio| !ratio.is_nan()).collect();
        rounds.sort_by(f64::total_cmp);
        let middle = rounds.get(rounds.len() / 2).copied();
        let middle = middle.filter(|&ratio| ratio > 0.0 && ratio.is_finite());
        let [library, rust] = self.least;
        [middle.unwrap_or(f64::NAN), quotient(library, rust)]
    }

    /// The library's least time by that of another call.
    pub fn by(&self, other: &Spent) -> f64 {
        quotient(self.least[0], other.least[0])
    }

    /// Nanoseconds for each of so many, library and Rust, of the medians.
    pub fn each(&self, count: usize) -> [f64; 2] {
        let nanos = self.middles().map(|time| time.as_nanos() as f64);
        nanos.map(|nanos| nanos / count.max(1) as f64)
    }

    /// The medians in milliseconds, library and Rust.
    pub fn medians(&self) -> [String; 2] {
        self.middles().map(millis)
    }
}

fn millis(time: Duration) -> String {
    format!("{:.3}", time.as_secs_f64() * 1e3)
}

/// No number where nothing is left of a part beside the noise.
fn quotient(one: Duration, other: Duration) -> f64 {
    match one.is_zero() || other.is_zero() {
        true => f64::NAN,
        false => one.as_secs_f64() / other.as_secs_f64(),
    }
}

/// A ratio in a table.
pub fn told(ratio: f64) -> String {
    match ratio.is_nan() {
        true => "-".to_string(),
        false => format!("{ratio:.2}"),
    }
}

/// What a ratio may be at most, and whether it is, as it is printed.
pub fn aim(most: f64, ratio: f64) -> String {
    let kept = match (100.0 * ratio).round() {
        hundredths if hundredths.is_nan() => "-",
        hundredths if hundredths <= 100.0 * most => "yes",
        _ => "no",
    };
    format!("{most:.1}: {kept}")
}

/// One kind of call, with buffers for each program.
pub struct Stand {
    case: Case,
    library: Outcome,
    rust: Outcome,
    pub times: Times,
}

impl Stand {
    pub fn new(case: Case) -> Self {
        Stand {
            library: case.before(),
            rust: case.before(),
            case,
            times: Times::new(),
        }
    }

    /// What the library left in the round before.
    pub fn left(&self) -> &Outcome {
        &self.library
    }

    /// Calls both; who begins changes from round to round. A byte that differs
    /// in any buffer ends the whole measurement.
    pub fn round<P: Program, R: Program>(
        &mut self,
        library: &P,
        rust: &R,
        library_first: bool,
    ) -> Result<(), String> {
        let mut pair = (Duration::ZERO, Duration::ZERO);
        for turn in [library_first, !library_first] {
            match turn {
                true => pair.0 = call(library, &self.case, &mut self.library),
                false => pair.1 = call(rust, &self.case, &mut self.rust),
            }
        }
        self.times.push(pair);
        match self.library == self.rust {
            true => Ok(()),
            false => Err("the answers differ".to_string()),
        }
    }
}

/// How long each kind of call took on a network.
pub struct Measured {
    pub answer: Answer,
    /// The least held room.
    room: usize,
    check: Spent,
    start: Spent,
    pub run: Spent,
    tight: Spent,
    /// The search alone, which is the run less the check; beside the flat
    /// program in the second.
    pub search: Spent,
    pub flat: Spent,
    /// The parts of the run's list, and the run and these together.
    pub parts: Spent,
    pub both: Spent,
    /// Both beside Rust's one run, which writes the parts as it goes.
    one_run: Spent,
    /// Check and run over the same hops with their trips.
    check_trips: Spent,
    run_trips: Spent,
}

/// The flat program on a case's tables, which are parsed beforehand: one query,
/// or many in a row.
pub struct FlatStand {
    flat: Flat,
    memory: Memory,
    queries: Vec<Query>,
    lists: Vec<Settled>,
    ends: Vec<usize>,
    pub times: Times,
}

impl FlatStand {
    pub fn new(case: &Case) -> Self {
        FlatStand::many(case, vec![case.query])
    }

    pub fn many(case: &Case, queries: Vec<Query>) -> Self {
        FlatStand {
            flat: Flat::parse(case.tables()),
            memory: Memory::default(),
            queries,
            lists: Vec::new(),
            ends: Vec::new(),
            times: Times::new(),
        }
    }

    /// Searches, and holds each list against the bytes that were settled.
    pub fn round(&mut self, right: &[&[u8]]) -> Result<(), String> {
        black_box(self.flat.touch() ^ self.memory.touch());
        let (time, ()) = timed(|| self.search());
        self.times.push((Duration::ZERO, time));
        let mut begin = 0;
        let same = self.ends.iter().zip(right).all(|(&end, right)| {
            let list = &self.lists[begin..end];
            begin = end;
            let own: Vec<u8> = list.iter().flat_map(Settled::bytes).collect();
            own == *right
        });
        match same && self.ends.len() == right.len() {
            true => Ok(()),
            false => Err("a list of the flat program differs".to_string()),
        }
    }

    fn search(&mut self) {
        self.lists.clear();
        self.ends.clear();
        let flat = black_box(&self.flat);
        for &query in &self.queries {
            let list = flat.search(query, &mut self.memory);
            self.lists.extend_from_slice(list);
            self.ends.push(self.lists.len());
        }
    }
}

/// The bytes of the list that a run has settled, without the zeros behind; of
/// many runs those of each, which all have the same share of the buffer.
pub fn listed(after: &Outcome) -> Vec<&[u8]> {
    let answers = after.answer.chunks_exact(ANSWER);
    let share = after.settled.len() / SETTLED / answers.len().max(1);
    let list = |(index, answer): (usize, &[u8])| {
        let settled = Answer::read(answer).settled as usize;
        &after.settled[index * share * SETTLED..][..settled * SETTLED]
    };
    answers.enumerate().map(list).collect()
}

/// Where the run stands among the cases of `measure`.
const RUN: usize = 2;

/// The same hops in records of 20 bytes, each with a trip.
fn with_trips(mut case: Case) -> Case {
    let mut trip = 0;
    widen(&mut case, || {
        trip += 1;
        trip
    });
    case
}

pub fn measure<P: Program>(library: &P, scene: &Scene, rounds: usize) -> Result<Measured, String> {
    let room = least_room(library, scene)?;
    let run = run_in(scene, scene.network.vertices.len());
    let after = agreed(library, &run)?;
    let answer = Answer::read(&after.answer);
    let list = own_list(&after.settled, answer);
    let start = Case {
        limit: 0,
        ..run.clone()
    };
    let both = filled(scene.pair_case(u32::MAX));
    let cases = [
        scene.network.check_case(),
        start,
        run.clone(),
        run_in(scene, room),
        filled(scene.parts_case(&list)),
        both.clone(),
        with_trips(scene.network.check_case()),
        with_trips(run.clone()),
    ];
    let mut flat = FlatStand::new(&run);
    let (mut stands, mut one) = (cases.map(Stand::new), Stand::new(both));
    for round in 0..rounds {
        for stand in &mut stands {
            stand.round(library, &RUST, round % 2 == 0)?;
        }
        // The bytes of the two are those of the one run too.
        one.round(library, &OneRun, round % 2 == 0)?;
        flat.round(&listed(stands[RUN].left()))?;
    }
    let [check, start, run, tight, parts, both, check_trips, run_trips] =
        stands.map(|stand| Spent::of(&stand.times));
    let search = run.less(&check);
    Ok(Measured {
        answer,
        room,
        check,
        start,
        run,
        tight,
        flat: search.beside(&Spent::of(&flat.times)),
        search,
        parts,
        both,
        one_run: Spent::of(&one.times),
        check_trips,
        run_trips,
    })
}

pub const COLUMNS: [&str; 4] = ["library ms", "Rust ms", "ratio", "ratio of the least"];

/// What a run may take at most beside the byte-reading program, and a search
/// that settles a quarter of all or more beside the flat one.
pub const RUN_AT_MOST: Option<f64> = Some(0.9);
pub const SEARCH_AT_MOST: Option<f64> = Some(1.3);

/// The aim of a row, if it has one, and whether its ratio keeps it.
pub fn kept(most: Option<f64>, spent: &Spent) -> String {
    most.map(|most| aim(most, spent.ratios()[0]))
        .unwrap_or_default()
}

/// What the search of a network may take at most beside the flat program.
fn search_aim(name: &str, settled: usize, vertices: usize) -> Option<f64> {
    match name {
        "grid 200x200, 15 min" => Some(3.0),
        _ if 4 * settled >= vertices => SEARCH_AT_MOST,
        _ => None,
    }
}

/// Every part of the work on the city grid and on the largest network; an error
/// where answers differ.
pub fn table<P: Program>(library: &P, rounds: usize) -> Result<String, String> {
    let mut table = head(
        2,
        &[&["network", "part"], &COLUMNS[..], &["at most"]].concat(),
    );
    for (name, scene) in city_scenes() {
        let measured = measure(library, &scene, rounds).map_err(|e| format!("{name}: {e}"))?;
        let (settled, vertices) = (
            measured.answer.settled as usize,
            scene.network.vertices.len(),
        );
        let tight = format!("run, held room {}", grouped(measured.room));
        let checked = Some(if name.starts_with("grid") { 0.6 } else { 1.0 });
        let searched = search_aim(&name, settled, vertices);
        let check = &measured.check;
        let parts = [
            ("check", check, checked),
            ("run, limit 0", &measured.start, None),
            ("search: run less check", &measured.search, None),
            ("search beside the flat program", &measured.flat, searched),
            ("run", &measured.run, RUN_AT_MOST),
            (&tight, &measured.tight, RUN_AT_MOST),
            ("parts less check", &measured.parts.less(check), None),
            ("parts", &measured.parts, None),
            ("run + parts", &measured.both, None),
            ("run + parts beside one run", &measured.one_run, None),
            ("check, hops of 20 bytes", &measured.check_trips, checked),
            ("run, hops of 20 bytes", &measured.run_trips, RUN_AT_MOST),
        ];
        let name = format!("{name}, {} settled", grouped(settled));
        for (part, spent, most) in parts {
            let first = [name.clone(), part.to_string()];
            table += &row(&[&first[..], &spent.cells(), &[kept(most, spent)]].concat());
        }
    }
    Ok(table)
}

#[cfg(test)]
mod tests {
    use outside::mutant::{Mutant, Sound};

    use super::*;
    use crate::networks::{around, even_grid};
    use crate::program::Rust;

    #[test]
    fn wrong_answers_end_the_measurement() {
        let scene = around(&even_grid(7), 24, 2);
        assert!(measure(&Rust(Sound), &scene, 2).is_ok());
        let wrong = [Mutant::StrictWindow, Mutant::TailKept, Mutant::HeldReversed];
        let parts = [
            Mutant::PartsNoStart,
            Mutant::ListDistanceTight,
            Mutant::ClipTwin,
        ];
        for mutant in wrong.into_iter().chain([Mutant::LimitZero]).chain(parts) {
            assert!(measure(&Rust(mutant), &scene, 2).is_err(), "{mutant:?}");
        }
    }

    /// Each list is held against its own bytes.
    #[test]
    fn wrong_lists_end_the_measurement() {
        let cases = [2, 3].map(|minutes| around(&even_grid(7), 24, minutes).run_case(u32::MAX));
        let [short, long] = [0, 1].map(|index| cases[index].fast(Sound));
        let queries = cases.iter().map(|case| case.query).collect();
        let mut flat = FlatStand::many(&cases[0], queries);
        let both = |one: &Outcome, other: &Outcome| Outcome {
            settled: [&one.settled[..], &other.settled].concat(),
            answer: [&one.answer[..], &other.answer].concat(),
            ..one.clone()
        };
        assert!(flat.round(&listed(&both(&short, &long))).is_ok());
        assert!(flat.round(&listed(&both(&long, &short))).is_err());
        assert!(flat.round(&listed(&short)).is_err());
        assert!(flat.round(&[listed(&short)[0], &[]]).is_err());
    }

    fn times(pairs: &[(u64, u64)]) -> Times {
        let pair = |p: &(u64, u64)| (Duration::from_millis(p.0), Duration::from_millis(p.1));
        pairs.iter().map(pair).collect()
    }

    /// The medians of what is left in each round, and the least times apart.
    #[test]
    fn parts_are_taken_off() {
        let run = Spent::of(&times(&[(9, 20), (5, 31), (7, 39)]));
        assert_eq!(run.cells(), ["7.000", "31.000", "0.18", "0.25"]);
        let left = run.less(&Spent::of(&times(&[(3, 10), (4, 11), (6, 12)])));
        assert_eq!(left.cells(), ["1.000", "20.000", "0.05", "0.20"]);
        let nothing = run.less(&run);
        assert_eq!(nothing.cells(), ["0.000", "0.000", "-", "-"]);
        assert_eq!(run.each(1_000), [7_000.0, 31_000.0]);
        assert_eq!(left.beside(&run).medians(), ["1.000", "31.000"]);
        assert_eq!(told(run.by(&left)), "2.50");
        let aims = [0.3, 0.1].map(|most| kept(Some(most), &run));
        assert_eq!(aims, ["0.3: yes", "0.1: no"]);
        assert_eq!(kept(Some(1.3), &nothing), "1.3: -");
        assert_eq!([0.904, 0.906].map(|r| aim(0.9, r)), ["0.9: yes", "0.9: no"]);
        assert_eq!(kept(None, &run), "");
    }

    #[test]
    fn aims_follow_what_is_settled() {
        let aims = [
            search_aim("grid 200x200, 15 min", 424, 40_000),
            search_aim("full size, 10 min", 245, 65_536),
            search_aim("grid 200x200, 2 h", 10_000, 40_000),
        ];
        assert_eq!(aims, [Some(3.0), None, Some(1.3)]);
    }
}
