//! A thousand short queries in one call: the library and the Rust program in
//! turn, which both judge the tables once, and the flat program, which searches
//! for one query after the other.

use outside::mutant::Sound;
use outside::network::{grid_scene, Scene};
use outside::outcome::Outcome;
use outside::records::{Answer, Asked, ANSWER, HELD, SETTLED};
use outside::rng::Rng;

use crate::page::{grouped, head, row};
use crate::program::{Program, RUST};
use crate::speed::{kept, FlatStand, Spent, Stand, COLUMNS};

/// What a search may take at most beside that of the flat program.
const AT_MOST: Option<f64> = Some(3.0);

/// Held records that are enough for each of the short queries, and spare the
/// library the writing of a slot for every vertex.
const FEW: usize = 2_048;

/// So many queries all over the network, like that of the scene.
pub fn queries(scene: &Scene, count: usize) -> Vec<Asked> {
    let mut rng = Rng::new(25, count as u64);
    let one = |_| {
        let record = rng.below(scene.network.walks.len());
        let length = scene.network.walks[record].length as usize;
        let mut query = scene.query;
        query.record = record as u32;
        query.offset = rng.below(length + 1) as u32;
        Asked {
            query,
            limit: u32::MAX,
        }
    };
    (0..count).map(one).collect()
}

/// The list that each query has settled, in its share.
fn lists(after: &Outcome) -> Vec<&[u8]> {
    let answers = after.answer.chunks(ANSWER).map(Answer::read);
    let share = after.settled.len() / SETTLED / answers.len() * SETTLED;
    let counts = answers.map(|six| six.settled as usize * SETTLED);
    let shares = after.settled.chunks(share).zip(counts);
    shares.map(|(share, count)| &share[..count]).collect()
}

/// The rows of so many queries; an error where the answers differ, or a query is
/// refused.
fn measure<P: Program>(library: &P, scene: &Scene, count: usize, rounds: usize) -> Result<String, String> {
    let asked = queries(scene, count);
    let mut case = scene.runs_case(&asked);
    let after = case.fast(Sound);
    let answers: Vec<Answer> = after.answer.chunks(ANSWER).map(Answer::read).collect();
    if answers.iter().any(|six| six.refusal != 0) {
        return Err("a query is refused".to_string());
    }
    let settled: usize = answers.iter().map(|six| six.settled as usize).sum();
    let most = answers.iter().map(|six| six.settled as usize).max();
    case.settled = vec![0; most.unwrap_or(0) * count * SETTLED];
    let mut few = case.clone();
    few.held.truncate(FEW * HELD);
    let mut flat = FlatStand::many(&case, asked.iter().map(|asked| asked.query).collect());
    let mut stands = [scene.network.check_case(), case, few].map(Stand::new);
    for round in 0..rounds {
        for stand in &mut stands {
            stand.round(library, &RUST, round % 2 == 0)?;
        }
        flat.round(&lists(stands[1].left()))?;
    }
    let [check, all, few] = stands.map(|stand| Spent::of(&stand.times));
    let flat = Spent::of(&flat.times);
    let (all_searched, few_searched) = (all.less(&check), few.less(&check));
    let name = format!("{} queries, {} settled", grouped(count), grouped(settled));
    let rows = [
        ("a held record for each vertex", &all, None),
        ("the same less check", &all_searched, None),
        ("that beside the flat program", &all_searched.beside(&flat), None),
        ("2,048 held records", &few, None),
        ("the same less check", &few_searched, None),
        ("that beside the flat program", &few_searched.beside(&flat), AT_MOST),
    ];
    let line = |(part, spent, most): (&str, &Spent, Option<f64>)| {
        let first = [name.clone(), part.to_string()];
        row(&[&first[..], &spent.cells(), &[kept(most, spent)]].concat())
    };
    Ok(rows.into_iter().map(line).collect())
}

pub fn table<P: Program>(library: &P, rounds: usize) -> Result<String, String> {
    let first = ["grid 200x200, 15 min each", "room"];
    let mut table = head(2, &[&first[..], &COLUMNS[..], &["at most"]].concat());
    let scene = grid_scene(200, 40_000, 20_000, 900);
    for count in [1, 1_000] {
        table += &measure(library, &scene, count, rounds)?;
    }
    Ok(table)
}

#[cfg(test)]
mod tests {
    use outside::mutant::Mutant;

    use super::*;
    use crate::networks::{around, even_grid};
    use crate::program::Rust;

    #[test]
    fn wrong_answers_end_the_measurement() {
        let scene = around(&even_grid(7), 24, 2);
        assert!(measure(&Rust(Sound), &scene, 5, 2).is_ok());
        for mutant in [Mutant::RunsBehind, Mutant::RunsOverlap, Mutant::RunsBackward] {
            assert!(measure(&Rust(mutant), &scene, 5, 2).is_err(), "{mutant:?}");
        }
    }
}
