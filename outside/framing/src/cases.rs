//! The cases of a seed, and the fixed ones with what the rules say of them.

use crate::rules::Case;
use outside::rng::Rng;

const ZEROS: [u32; 2] = [0x0000_0000, 0x8000_0000];
/// Zeros, denormals, the normal numbers next to them, the largest finite ones, and ordinary ones: each with both signs.
const FINITE: [u32; 18] = [
    0x0000_0000, 0x8000_0000, 0x0000_0001, 0x8000_0001, 0x007f_ffff, 0x807f_ffff, 0x0080_0000, 0x8080_0000, 0x7f7f_ffff, 0xff7f_ffff,
    0x7f7f_fffe, 0xff7f_fffe, 0x3f80_0000, 0xbf80_0000, 0x4049_0fdb, 0xc049_0fdb, 0x3f80_0001, 0xbf80_0001,
];

fn words(numbers: &[u32]) -> Vec<u8> {
    numbers.iter().flat_map(|n| n.to_be_bytes()).collect()
}

/// The vertices of a list with distances, which are not looked at.
fn list_of(rng: &mut Rng, vertices: &[u32]) -> Vec<u8> {
    vertices.iter().flat_map(|&v| words(&[v, rng.draw() as u32])).collect()
}

fn finite(rng: &mut Rng) -> u32 {
    match rng.below(4) {
        0 => rng.pick(&ZEROS),
        1 | 2 => rng.pick(&FINITE),
        _ => loop {
            let bits = rng.draw() as u32;
            if bits >> 23 & 0xff != 0xff {
                break bits;
            }
        },
    }
}

/// An infinity or a NaN, of either sign: quiet or not, with any payload.
fn endless(rng: &mut Rng) -> u32 {
    let sign = (rng.below(2) as u32) << 31;
    let payload = match rng.below(4) {
        0 => 0,
        1 => rng.pick(&[1, 0x0040_0000, 0x003f_ffff, 0x007f_ffff, 0x0040_0001]),
        _ => rng.draw() as u32 & 0x007f_ffff,
    };
    sign | 0x7f80_0000 | payload
}

/// A row of vertices in any order, none twice.
fn picked(rng: &mut Rng, count: usize, of: usize) -> Vec<u32> {
    let mut all: Vec<u32> = (0..of as u32).collect();
    for i in 0..count {
        let j = i + rng.below(of - i);
        all.swap(i, j);
    }
    all.truncate(count);
    all
}

fn good(rng: &mut Rng) -> Case {
    let n = match rng.below(40) {
        0 => 300 + rng.below(200),
        1..=4 => 20 + rng.below(40),
        _ => 1 + rng.below(7),
    };
    let count = if rng.chance(8) { 0 } else if rng.chance(20) { 1 } else { rng.below(n + 1) };
    let vertices = picked(rng, count, n);
    // Few patterns, so that equals and both zeros meet often.
    let few = [finite(rng), finite(rng), rng.pick(&ZEROS), rng.pick(&ZEROS)];
    let narrow = rng.chance(50);
    let points: Vec<u32> = (0..2 * n).map(|_| if narrow { rng.pick(&few) } else { finite(rng) }).collect();
    Case {
        vertices: rng.bytes(12 * n),
        list: list_of(rng, &vertices),
        coordinates: words(&points),
        answer: rng.bytes(24),
        null: rng.chance(50),
    }
}

fn resized(rng: &mut Rng, bytes: &mut Vec<u8>) {
    let len = match rng.below(6) {
        0 => 0,
        1 => bytes.len() + 1,
        2 => bytes.len().saturating_sub(1),
        3 => bytes.len() + 8,
        4 => bytes.len().saturating_sub(8),
        _ => rng.below(40),
    };
    bytes.resize(len, 0);
}

/// One fault more.
fn damage(rng: &mut Rng, case: &mut Case) {
    let n = (case.vertices.len() / 12).max(1);
    let entries = case.list.len() / 8;
    match rng.below(11) {
        0 => resized(rng, &mut case.vertices),
        1 => resized(rng, &mut case.list),
        2 => resized(rng, &mut case.coordinates),
        3 => resized(rng, &mut case.answer),
        4 | 5 if case.coordinates.len() >= 4 => {
            let at = 4 * rng.below(case.coordinates.len() / 4);
            case.coordinates[at..at + 4].copy_from_slice(&words(&[endless(rng)]));
        }
        6 if entries > 0 => {
            let at = 8 * rng.below(entries);
            let v = rng.pick(&[n as u32, u32::MAX, n as u32 + 65_536, 0x1000_0000, 0x8000_0000]);
            case.list[at..at + 4].copy_from_slice(&words(&[v]));
        }
        7 if entries > 1 => {
            let (from, to) = (8 * rng.below(entries), 8 * rng.below(entries));
            let v = case.list[from..from + 4].to_vec();
            case.list[to..to + 4].copy_from_slice(&v);
        }
        // The zero tail of a settled buffer.
        8 => case.list.extend(vec![0; 8 * (1 + rng.below(3))]),
        9 => case.list.clear(),
        _ => {}
    }
}

pub fn made(seed: u64, index: u64) -> Case {
    let mut rng = Rng::new(seed, index);
    let mut case = good(&mut rng);
    let faults = [0, 0, 1, 1, 1, 2, 3][rng.below(7)];
    for _ in 0..faults {
        damage(&mut rng, &mut case);
    }
    case
}

/// A case of plain words, and the six numbers that the rules give it.
fn told(n: usize, vertices: &[u32], points: &[u32], numbers: [u32; 6]) -> (Case, [u32; 6]) {
    let list = vertices.iter().flat_map(|&v| words(&[v, 7])).collect();
    (Case { vertices: vec![0xa5; 12 * n], list, coordinates: words(points), answer: vec![0x5a; 24], null: false }, numbers)
}

/// The fixed cases: both zeros in both orders, denormals, the largest finite numbers, infinities and NaNs of every sign, the order of refusals, and the limits.
pub fn fixed() -> Vec<(Case, [u32; 6])> {
    const P: u32 = 0x0000_0000;
    const N: u32 = 0x8000_0000;
    let mut all = vec![
        told(2, &[0, 1], &[N, P, P, N], [0, 0, N, N, P, P]),
        told(2, &[1, 0], &[N, P, P, N], [0, 0, P, P, N, N]),
        told(3, &[2, 0, 1], &[N, N, N, N, P, P], [0, 0, P, P, P, P]),
        told(2, &[0, 1], &[1, 0x7f7f_ffff, 0x8000_0001, 0xff7f_ffff], [0, 0, 0x8000_0001, 1, 0xff7f_ffff, 0x7f7f_ffff]),
        told(2, &[0, 1], &[P, 0x007f_ffff, 1, 0x0080_0000], [0, 0, P, 1, 0x007f_ffff, 0x0080_0000]),
        told(1, &[0], &[0xbf80_0000, 0x4049_0fdb], [0, 0, 0xbf80_0000, 0xbf80_0000, 0x4049_0fdb, 0x4049_0fdb]),
        // -1 is below 1, though its bits are a larger number
        told(2, &[0, 1], &[0x3f80_0000, 0xbf80_0000, 0xbf80_0000, 0x3f80_0000], [0, 0, 0xbf80_0000, 0x3f80_0000, 0xbf80_0000, 0x3f80_0000]),
        // -2 is below -1
        told(2, &[0, 1], &[0xbf80_0000, P, 0xc000_0000, P], [0, 0, 0xc000_0000, 0xbf80_0000, P, P]),
        // 24 comes after 23, 23 after 21, and 23 looks at every vertex
        told(2, &[], &[P, P, P, P], [24, 0, 0, 0, 0, 0]),
        told(2, &[], &[P, P, P, 0x7f80_0000], [23, 1, 0, 0, 0, 0]),
        told(2, &[0], &[P, P, P, 0x7fc0_0000], [23, 1, 0, 0, 0, 0]),
        told(2, &[2], &[0x7f80_0000, P, P, P], [21, 0, 0, 0, 0, 0]),
        // of equal vertices the later
        told(3, &[1, 2, 1, 2], &[P; 6], [21, 2, 0, 0, 0, 0]),
        told(1, &[0, 0], &[P, P], [21, 1, 0, 0, 0, 0]),
        told(2, &[1, 0x1000_0001], &[P; 4], [21, 1, 0, 0, 0, 0]),
        // one zero record behind a list without vertex 0 is a vertex more
        told(2, &[1, 0], &[0x4000_0000, P, P, P], [0, 0, P, 0x4000_0000, P, P]),
        // lengths, in their order
        told(0, &[], &[], [1, 0, 0, 0, 0, 0]),
        told(1, &[0], &[P], [1, 6, 0, 0, 0, 0]),
        told(1, &[0], &[P; 4], [1, 6, 0, 0, 0, 0]),
    ];
    for bits in [0x7f80_0000, 0xff80_0000, 0x7f80_0001, 0xff80_0001, 0x7fc0_0000, 0xffc0_0000, 0x7fff_ffff, 0xffff_ffff, 0x7fbf_ffff, 0xffbf_ffff] {
        all.push(told(2, &[1], &[bits, P, P, P], [23, 0, 0, 0, 0, 0]));
        all.push(told(2, &[1], &[P, P, P, bits], [23, 1, 0, 0, 0, 0]));
    }
    let mut cut = told(2, &[0, 1], &[P; 4], [1, 4, 0, 0, 0, 0]);
    cut.0.list.pop();
    all.push(cut);
    let mut both = told(2, &[0, 1], &[P; 3], [1, 4, 0, 0, 0, 0]);
    both.0.list.push(0);
    all.push(both);
    all.extend(at_limits());
    all
}

/// 65,536 vertices, all listed, the last alone, one entry too many; one vertex more is refused.
fn at_limits() -> Vec<(Case, [u32; 6])> {
    let n = 65_536;
    let down: Vec<u32> = (0..n as u32).rev().collect();
    let points: Vec<u32> = (0..2 * n as u32).map(|i| 0x4000_0000 + i).collect();
    let end = 0x4000_0000 + 2 * n as u32;
    let mut twice = down.clone();
    twice.push(65_535);
    let mut endless = points.clone();
    endless[2 * n - 1] = 0x7f80_0000;
    let more: Vec<u32> = (0..2 * n as u32 + 2).map(|_| 0).collect();
    vec![
        told(n, &down, &points, [0, 0, 0x4000_0000, end - 2, 0x4000_0001, end - 1]),
        told(n, &[65_535], &points, [0, 0, end - 2, end - 2, end - 1, end - 1]),
        told(n, &twice, &points, [21, 65_536, 0, 0, 0, 0]),
        told(n, &[65_536], &points, [21, 0, 0, 0, 0, 0]),
        told(n, &[32_768, 0, 32_768], &points, [21, 2, 0, 0, 0, 0]),
        told(n, &[], &endless, [23, 65_535, 0, 0, 0, 0]),
        told(n + 1, &[0], &more, [1, 0, 0, 0, 0, 0]),
    ]
}
