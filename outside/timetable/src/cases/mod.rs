//! Cases: the ones written out by hand, feeds damaged at every byte, each refusal at every line, large ones, more lines and ids than there is room for, and those of a seed.

pub mod big;
pub mod damaged;
pub mod every_line;
pub mod feed;
pub mod fixed;
pub mod made;
pub mod room;
#[cfg(test)]
mod tests;

use crate::call::{Case, Hop, Outcome, Refusal};

/// What the rules say of a case, as far as the one who made it knows.
pub enum Said {
    /// All of it.
    Whole(Result<Vec<Hop>, Refusal>),
    /// Refusal and place, both 0 where nothing is refused.
    Refusal(Refusal),
    /// The call returns 1 and writes nothing.
    NoAnswer,
    Nothing,
}

impl Said {
    pub fn agrees(&self, case: &Case, outcome: &Outcome) -> bool {
        match self {
            Said::Whole(answered) => *outcome == case.left(answered),
            Said::Refusal((number, place)) => outcome.value == 0 && outcome.answer[..8] == crate::call::words(&[*number, *place]),
            Said::NoAnswer => *outcome == Outcome { value: 1, hops: case.hops.clone(), answer: case.answer.clone() },
            Said::Nothing => true,
        }
    }
}

/// Every case that does not depend on a seed, the large ones left out.
pub fn told() -> Vec<(Case, Said)> {
    [fixed::all(), every_line::all(), room::small(), damaged::all()].into_iter().flatten().collect()
}
