//! Hops with trips: the same tables in records of 20 bytes, sizes that no hop
//! has, and the moves.

use super::groups::{off_length, one_of_all};
use crate::network::{Network, Scene};
use crate::outcome::{Call, Case};
use crate::records::{Way, HOP, TRIP_HOP};
use crate::rng::Rng;

/// Sizes around the two that there are, those of other records, and numbers
/// whose lower bytes are one of the two.
pub const WRONG_SIZES: [u32; 19] = [
    0,
    1,
    4,
    8,
    12,
    15,
    17,
    19,
    21,
    24,
    32,
    40,
    0x110,
    0x114,
    0x1_0010,
    0x8000_0000,
    0x8000_0014,
    u32::MAX - 15,
    u32::MAX,
];

/// Unknown, one bit alone, a time that a hop could arrive at, anything.
fn any_trip(rng: &mut Rng) -> u32 {
    match rng.below(5) {
        0 => 0,
        1 => 1 << rng.below(32),
        2 => rng.range(0, 172_800) as u32,
        3 => u32::MAX,
        _ => rng.draw() as u32,
    }
}

/// Puts a trip behind each hop of 16 bytes. Bytes behind the last whole one
/// stay behind it, and make no whole record of 20.
pub fn widen(case: &mut Case, mut trip: impl FnMut() -> u32) {
    let records = case.hops.chunks(HOP);
    case.hops = records
        .flat_map(|hop| match hop.len() {
            HOP => [hop, &trip().to_be_bytes()].concat(),
            _ => hop.to_vec(),
        })
        .collect();
    case.hop_size = TRIP_HOP as u32;
}

/// Any trips behind the hops.
pub fn any_trips(case: &mut Case, rng: &mut Rng) {
    widen(case, || any_trip(rng));
}

/// The same hops without their trips, for tables of 20 bytes.
pub fn narrowed(case: &Case) -> Option<Case> {
    let whole = case.hop_size as usize == TRIP_HOP && case.hops.len() % TRIP_HOP == 0;
    whole.then(|| Case {
        hops: case
            .hops
            .chunks(TRIP_HOP)
            .flat_map(|hop| hop[..HOP].to_vec())
            .collect(),
        hop_size: HOP as u32,
        ..case.clone()
    })
}

/// Every size, over hops of either size and over none, with nothing else
/// wrong or one slice's length.
pub fn sizes(scene: &Scene, rng: &mut Rng) -> Vec<Case> {
    let both = [HOP, TRIP_HOP].map(|size| size as u32);
    let named = WRONG_SIZES.into_iter().chain(both).chain(both);
    let mut cases = Vec::new();
    for hop_size in named {
        let mut case = one_of_all(scene, rng);
        if rng.chance(50) {
            any_trips(&mut case, rng);
        }
        match rng.below(4) {
            0 => case.hops.clear(),
            1 => off_length(&mut case, rng.below(7), rng),
            _ => {}
        }
        case.hop_size = hop_size;
        cases.push(case);
    }
    cases
}

/// A move of this source into a target of so many bytes.
pub fn move_case(way: Way, source: Vec<u8>, target: usize) -> Case {
    Case {
        call: Call::Move(way),
        hops: source,
        target: vec![0xee; target],
        ..Network::default().check_case()
    }
}

/// The same with a target as long as it has to be.
pub fn fitting(way: Way, source: Vec<u8>) -> Case {
    let target = match way {
        Way::Forward => source.len() / HOP * TRIP_HOP,
        Way::Backward => source.len() / TRIP_HOP * HOP,
    };
    move_case(way, source, target)
}

/// The hops of a scene or bytes of no meaning, which are moved as well, with
/// unknown trips where they go backward.
fn source(way: Way, scene: &Scene, rng: &mut Rng) -> Vec<u8> {
    let mut case = scene.network.check_case();
    if rng.chance(50) {
        let count = rng.below(9);
        case.hops = rng.bytes(count * HOP);
    }
    if way == Way::Backward {
        widen(&mut case, || 0);
    }
    case.hops
}

/// Both ways: good, with a trip at each record in turn, with wrong lengths.
pub fn moves(scene: &Scene, rng: &mut Rng) -> Vec<Case> {
    let mut cases = Vec::new();
    for way in [Way::Forward, Way::Backward] {
        cases.push(fitting(way, source(way, scene, rng)));
        cases.push(fitting(way, Vec::new()));
        for _ in 0..12 {
            let mut case = fitting(way, source(way, scene, rng));
            wrong_lengths(&mut case, rng);
            if way == Way::Backward && rng.chance(40) {
                put_trips(&mut case.hops, rng);
            }
            cases.push(case);
        }
    }
    let narrow = source(Way::Backward, scene, rng);
    for record in 0..narrow.len() / TRIP_HOP {
        let mut bytes = narrow.clone();
        bytes[record * TRIP_HOP + HOP + rng.below(4)] = 1 << rng.below(8);
        // What comes behind the first makes no difference.
        if rng.chance(50) {
            put_trips(&mut bytes[record * TRIP_HOP..], rng);
        }
        cases.push(fitting(Way::Backward, bytes));
    }
    cases
}

/// A trip at one whole record, if there is any.
fn put_trips(hops: &mut [u8], rng: &mut Rng) {
    let count = hops.len() / TRIP_HOP;
    if count > 0 {
        let at = rng.below(count) * TRIP_HOP + HOP;
        hops[at..at + 4].copy_from_slice(&any_trip(rng).to_be_bytes());
    }
}

/// One slice or both some bytes longer or shorter, or a target that is whole
/// records off, or as long as the source.
fn wrong_lengths(case: &mut Case, rng: &mut Rng) {
    let steps = [1, 3, 4, 12, 15, 16, 19, 20, 32, 40, 80];
    let mut off = |bytes: &mut Vec<u8>| {
        let step = rng.pick(&steps);
        match rng.chance(50) {
            true => bytes.resize(bytes.len() + step, 0),
            false => bytes.truncate(bytes.len().saturating_sub(step)),
        }
        rng.below(4)
    };
    match off(&mut case.hops) {
        0 => case.target.resize(case.hops.len(), 0xee),
        1 => {
            off(&mut case.target);
        }
        2 => {
            // The source is whole again: the target alone is wrong.
            let size = match case.call {
                Call::Move(Way::Backward) => TRIP_HOP,
                _ => HOP,
            };
            case.hops.resize(case.hops.len() / size * size, 0);
            off(&mut case.target);
        }
        _ => {}
    }
}
