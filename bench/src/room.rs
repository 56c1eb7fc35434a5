//! The most vertices held after any step, asked of the library itself.

use outside::mutant::Mutant;
use outside::network::Scene;
use outside::outcome::{Case, Outcome};
use outside::records::{Answer, HELD};

use crate::program::{agreed, Program};

/// No buffer is lent with zeros, so that a byte left unwritten shows.
const LENT: u8 = 0xA5;

/// A run to its end that lends room for so many held vertices.
pub fn run_in(scene: &Scene, room: usize) -> Case {
    let mut case = scene.run_case(u32::MAX);
    case.held = vec![0; room * HELD];
    filled(case)
}

/// The case with no zeros in what it lends.
pub fn filled(mut case: Case) -> Case {
    let lent = [
        &mut case.held,
        &mut case.settled,
        &mut case.parts,
        &mut case.answer,
        &mut case.parts_answer,
        &mut case.target,
    ];
    for buffer in lent {
        buffer.fill(LENT);
    }
    case
}

/// The least held room that is not refused. Refusal 8 is given exactly if more
/// is held after some step, so this is the most that is held after any step;
/// reading the count at every step limit would take a run for each.
pub fn least_room<P: Program>(program: &P, scene: &Scene) -> Result<usize, String> {
    least_room_of(scene, |case| agreed(program, case))
}

/// The same of a run that holds on to the hopeless, by the Rust program alone.
pub fn room_without_forgetting(scene: &Scene) -> Result<usize, String> {
    least_room_of(scene, |case| Ok(case.fast(Mutant::ForgetNever)))
}

fn least_room_of(
    scene: &Scene,
    run: impl Fn(&Case) -> Result<Outcome, String>,
) -> Result<usize, String> {
    let mut case = run_in(scene, scene.network.vertices.len());
    let end = Answer::read(&run(&case)?.answer).held as usize;
    let mut refused = |room| {
        case.held = vec![LENT; room * HELD];
        let after = run(&case)?;
        match Answer::read(&after.answer).refusal {
            0 => Ok(false),
            8 => Ok(true),
            other => Err(format!("refusal {other} at held room {room}")),
        }
    };
    // The answer lies between `least` and `least + gap`, once that is enough.
    let (mut least, mut gap) = (end, 0);
    while refused(least + gap)? {
        least += gap + 1;
        gap = 2 * gap + 1;
    }
    while gap > 0 {
        let half = gap / 2;
        match refused(least + half)? {
            true => (least, gap) = (least + half + 1, gap - half - 1),
            false => gap = half,
        }
    }
    match least == 0 || refused(least - 1)? {
        true => Ok(least),
        false => Err(format!("held room {} is enough", least - 1)),
    }
}

#[cfg(test)]
mod tests {
    use outside::network::grid_scene;
    use outside::records::word;

    use super::*;
    use crate::networks::{around, spider};
    use crate::program::{Rust, RUST};

    /// The count read at every step limit.
    fn most_held(scene: &Scene) -> usize {
        let vertices = scene.network.vertices.len() as u32;
        let held = |limit| {
            let case = scene.run_case(limit);
            word(&case.slow().answer, 16) as usize
        };
        (0..=vertices).map(held).max().unwrap()
    }

    #[test]
    fn least_room_is_the_most_held() {
        for (width, duration) in [(5, 300), (7, 900), (8, 7_200)] {
            let scene = grid_scene(width, width * width, width, duration);
            assert_eq!(least_room(&RUST, &scene), Ok(most_held(&scene)));
        }
    }

    #[test]
    fn wrong_room_is_noticed() {
        let scene = around(&spider(5, 9), 0, 7);
        for mutant in [Mutant::AddBeforeDrop, Mutant::RoomAtEnd, Mutant::DropNever] {
            assert!(least_room(&Rust(mutant), &scene).is_err(), "{mutant:?}");
        }
    }
}
