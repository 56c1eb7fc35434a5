//! What holds of trips and of the moves, whoever answers: trips change no
//! answer, and the way there and back changes no byte.

use crate::cases::trips::{fitting, narrowed};
use crate::outcome::{Call, Case, Outcome, Program};
use crate::records::Way;

/// Whether the same hops in records of 16 bytes give the same outcome. None
/// where no hops of 20 bytes are asked about.
pub fn change_nothing<P: Program>(case: &Case, after: &Outcome, program: &P) -> Option<bool> {
    let narrow = narrowed(case).filter(|case| case.call.takes_tables())?;
    Some(narrow.by(program) == *after)
}

/// Whether the way back from the target gives the source. None where nothing
/// was moved.
pub fn go_back<P: Program>(case: &Case, after: &Outcome, program: &P) -> Option<bool> {
    let Call::Move(way) = case.call else {
        return None;
    };
    let back = match way {
        Way::Forward => Way::Backward,
        Way::Backward => Way::Forward,
    };
    let returned = fitting(back, after.target.clone()).by(program);
    (after.returned == 0).then(|| returned.returned == 0 && returned.target == case.hops)
}
