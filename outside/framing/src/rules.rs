//! The frame by the written rules, in two ways that share the lengths of refusal 1
//! alone: `by_floats` lets the processor compare, `by_bits` orders the stored
//! patterns by sign and magnitude and looks for the earliest that nothing beats.

/// What a call gets.
#[derive(Clone, Debug)]
pub struct Case {
    pub vertices: Vec<u8>,
    pub list: Vec<u8>,
    pub coordinates: Vec<u8>,
    pub answer: Vec<u8>,
    /// An empty slice is passed as NULL.
    pub null: bool,
}

/// What a call returns, and the answer slice behind it.
#[derive(Clone, Debug, PartialEq, Eq)]
pub struct Outcome {
    pub value: u32,
    pub answer: Vec<u8>,
}

/// Refusal and place; four patterns of bits.
type Numbers = [u32; 6];

pub fn word(bytes: &[u8], at: usize) -> u32 {
    u32::from_be_bytes([bytes[at], bytes[at + 1], bytes[at + 2], bytes[at + 3]])
}

fn refused(number: u32, place: usize) -> Numbers {
    [number, place as u32, 0, 0, 0, 0]
}

/// Refusal 1.
fn bad_length(vertices: &[u8], list: &[u8], coordinates: &[u8]) -> Option<Numbers> {
    let count = vertices.len() / 12;
    if vertices.len() % 12 != 0 || count == 0 || count > 65_536 {
        return Some(refused(1, 0));
    }
    if list.len() % 8 != 0 {
        return Some(refused(1, 4));
    }
    (coordinates.len() != 8 * count).then(|| refused(1, 6))
}

/// Refusal, place and the four patterns, without a copy of the tables: the rival for speed.
pub fn frame(vertices: &[u8], list: &[u8], coordinates: &[u8]) -> [u32; 6] {
    if let Some(numbers) = bad_length(vertices, list, coordinates) {
        return numbers;
    }
    let count = vertices.len() / 12;
    let mut seen = vec![false; count];
    for (i, entry) in list.chunks_exact(8).enumerate() {
        let v = word(entry, 0) as usize;
        if v >= count || seen[v] {
            return refused(21, i);
        }
        seen[v] = true;
    }
    for (v, point) in coordinates.chunks_exact(8).enumerate() {
        if !(f32::from_bits(word(point, 0)).is_finite() && f32::from_bits(word(point, 4)).is_finite()) {
            return refused(23, v);
        }
    }
    let mut entries = list.chunks_exact(8).map(|entry| 8 * word(entry, 0) as usize);
    let Some(first) = entries.next() else {
        return refused(24, 0);
    };
    let (x, y) = (word(coordinates, first), word(coordinates, first + 4));
    let mut frame = [x, x, y, y];
    for at in entries {
        for axis in 0..2 {
            let bits = word(coordinates, at + 4 * axis);
            if f32::from_bits(bits) < f32::from_bits(frame[2 * axis]) {
                frame[2 * axis] = bits;
            }
            if f32::from_bits(bits) > f32::from_bits(frame[2 * axis + 1]) {
                frame[2 * axis + 1] = bits;
            }
        }
    }
    [0, 0, frame[0], frame[1], frame[2], frame[3]]
}

pub fn by_floats(case: &Case) -> Outcome {
    answered(case, |case| frame(&case.vertices, &case.list, &case.coordinates))
}

/// A whole number that orders finite patterns as their values are ordered; both zeros are 0.
fn key(bits: u32) -> i64 {
    let magnitude = i64::from(bits & 0x7fff_ffff);
    if bits >> 31 == 1 {
        -magnitude
    } else {
        magnitude
    }
}

/// The earliest that none beats.
fn stays(patterns: &[u32], beats: impl Fn(i64, i64) -> bool) -> u32 {
    *patterns
        .iter()
        .find(|&&bits| patterns.iter().all(|&other| !beats(key(other), key(bits))))
        .expect("one of them is not beaten")
}

pub fn by_bits(case: &Case) -> Outcome {
    answered(case, |case| {
        if let Some(numbers) = bad_length(&case.vertices, &case.list, &case.coordinates) {
            return numbers;
        }
        let listed: Vec<u32> = case.list.chunks(8).map(|entry| word(entry, 0)).collect();
        let points: Vec<[u32; 2]> = case.coordinates.chunks(8).map(|point| [word(point, 0), word(point, 4)]).collect();
        let bad_entry = (0..listed.len()).find(|&i| listed[i] as usize >= points.len() || listed[..i].contains(&listed[i]));
        if let Some(i) = bad_entry {
            return refused(21, i);
        }
        let finite = |bits: u32| bits >> 23 & 0xff != 0xff;
        if let Some(v) = points.iter().position(|&[x, y]| !(finite(x) && finite(y))) {
            return refused(23, v);
        }
        if listed.is_empty() {
            return refused(24, 0);
        }
        let axis = |axis: usize| -> Vec<u32> { listed.iter().map(|&v| points[v as usize][axis]).collect() };
        let (xs, ys) = (axis(0), axis(1));
        let (least, greatest) = (|a, b| a < b, |a, b| a > b);
        [0, 0, stays(&xs, least), stays(&xs, greatest), stays(&ys, least), stays(&ys, greatest)]
    })
}

fn answered(case: &Case, numbers: impl Fn(&Case) -> Numbers) -> Outcome {
    if case.answer.len() != 24 {
        return Outcome { value: 1, answer: case.answer.clone() };
    }
    Outcome { value: 0, answer: numbers(case).iter().flat_map(|n| n.to_be_bytes()).collect() }
}
