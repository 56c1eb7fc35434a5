//! Wrong versions, each altered in one place: the cases must tell every one from the rules.

use crate::rules::{by_floats, Case, Outcome};

pub const ALL: [(&str, fn(&Case) -> Outcome); 7] = [
    ("the later of equals stays", later),
    ("bits compared as numbers", as_numbers),
    ("24 before 23", empty_first),
    ("only listed coordinates judged", only_listed),
    ("x and y exchanged", exchanged),
    ("of equal vertices the earlier", earlier_twin),
    ("the slice is written where it is not 24 bytes", written_short),
];

fn number(outcome: &Outcome, i: usize) -> u32 {
    u32::from_be_bytes(outcome.answer[4 * i..4 * i + 4].try_into().expect("four bytes"))
}

fn with(numbers: [u32; 6]) -> Outcome {
    Outcome { value: 0, answer: numbers.iter().flat_map(|n| n.to_be_bytes()).collect() }
}

fn refusal(outcome: &Outcome) -> Option<u32> {
    (outcome.value == 0).then(|| number(outcome, 0))
}

fn vertices(case: &Case) -> Vec<usize> {
    case.list.chunks(8).map(|e| u32::from_be_bytes([e[0], e[1], e[2], e[3]]) as usize).collect()
}

fn point(case: &Case, v: usize, axis: usize) -> u32 {
    let at = 8 * v + 4 * axis;
    u32::from_be_bytes(case.coordinates[at..at + 4].try_into().expect("four bytes"))
}

/// A right refusal stays; the frame is made anew, by whether a later pattern takes the place of an earlier one.
fn framed(case: &Case, below: fn(u32, u32) -> bool, above: fn(u32, u32) -> bool) -> Outcome {
    let right = by_floats(case);
    if refusal(&right) != Some(0) {
        return right;
    }
    let mut frame = [0; 4];
    for axis in 0..2 {
        for (i, v) in vertices(case).into_iter().enumerate() {
            let bits = point(case, v, axis);
            if i == 0 || below(bits, frame[2 * axis]) {
                frame[2 * axis] = bits;
            }
            if i == 0 || above(bits, frame[2 * axis + 1]) {
                frame[2 * axis + 1] = bits;
            }
        }
    }
    with([0, 0, frame[0], frame[1], frame[2], frame[3]])
}

fn later(case: &Case) -> Outcome {
    framed(case, |a, b| f32::from_bits(a) <= f32::from_bits(b), |a, b| f32::from_bits(a) >= f32::from_bits(b))
}

fn as_numbers(case: &Case) -> Outcome {
    framed(case, |a, b| a < b, |a, b| a > b)
}

fn empty_first(case: &Case) -> Outcome {
    let right = by_floats(case);
    if refusal(&right) == Some(23) && case.list.is_empty() {
        return with([24, 0, 0, 0, 0, 0]);
    }
    right
}

fn only_listed(case: &Case) -> Outcome {
    let right = by_floats(case);
    if refusal(&right) != Some(23) {
        return right;
    }
    let mut other = case.clone();
    let listed = vertices(case);
    for v in (0..case.coordinates.len() / 8).filter(|v| !listed.contains(v)) {
        other.coordinates[8 * v..8 * v + 8].fill(0);
    }
    by_floats(&other)
}

fn exchanged(case: &Case) -> Outcome {
    let right = by_floats(case);
    if refusal(&right) != Some(0) {
        return right;
    }
    with([0, 0, number(&right, 4), number(&right, 5), number(&right, 2), number(&right, 3)])
}

fn earlier_twin(case: &Case) -> Outcome {
    let right = by_floats(case);
    if refusal(&right) != Some(21) {
        return right;
    }
    let listed = vertices(case);
    let place = number(&right, 1) as usize;
    let first = listed.iter().position(|&v| v == listed[place]).expect("it is listed");
    with([21, first as u32, 0, 0, 0, 0])
}

fn written_short(case: &Case) -> Outcome {
    let mut right = by_floats(case);
    if right.value == 1 {
        right.answer.fill(0);
    }
    right
}
