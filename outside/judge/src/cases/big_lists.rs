//! Lists as long as there are vertices, over the full network.

use super::big::{full, last_vertex};
use crate::mutant::Sound;
use crate::network::Scene;
use crate::outcome::Case;
use crate::records::{PartsAnswer, Settled, PART};

/// Every vertex of the full network, mixed, at distances up to D.
fn whole_list(scene: &Scene) -> Vec<Settled> {
    let window = scene.query.duration * scene.query.speed;
    // An odd step visits every number below a power of two once.
    let entry = |i: u32| Settled {
        vertex: i.wrapping_mul(40_503) % 65_536,
        distance: i.wrapping_mul(7_919) % (window + 1),
    };
    (0..65_536).map(entry).collect()
}

/// The parts of such a list with something done to it.
pub fn listed(change: fn(Vec<Settled>) -> Vec<Settled>) -> Case {
    let scene = full();
    scene.parts_case(&change(whole_list(&scene)))
}

pub fn backwards(mut list: Vec<Settled>) -> Vec<Settled> {
    list.reverse();
    list
}

/// The list with so many part slots less than it needs.
pub fn listed_in(less: usize) -> Case {
    let mut case = listed(|list| list);
    let after = case.fast(Sound);
    let count = PartsAnswer::read(&after.parts_answer).parts as usize;
    case.parts = vec![0xee; (count - less) * PART];
    case
}

pub fn twice(mut list: Vec<Settled>) -> Vec<Settled> {
    list.push(list[65_535]);
    list
}

pub fn once_more(mut list: Vec<Settled>) -> Vec<Settled> {
    list.push(Settled {
        distance: 1,
        ..list[0]
    });
    list
}

pub fn repeat(mut list: Vec<Settled>) -> Vec<Settled> {
    list[65_535] = list[0];
    list
}

/// Puts the vertex of the first entry in this half at the place of another.
fn again(list: &mut [Settled], upper: bool, place: usize) {
    let first = list.iter().find(|e| (e.vertex >= 32_768) == upper);
    list[place].vertex = first.map_or(0, |entry| entry.vertex);
}

pub fn upper(mut list: Vec<Settled>) -> Vec<Settled> {
    again(&mut list, true, 65_535);
    list
}

pub fn upper_first(mut list: Vec<Settled>) -> Vec<Settled> {
    again(&mut list, true, 40_000);
    again(&mut list, false, 50_000);
    list
}

pub fn lower_first(mut list: Vec<Settled>) -> Vec<Settled> {
    again(&mut list, false, 40_000);
    again(&mut list, true, 50_000);
    list
}

/// Only the two vertices at the border of the halves, with one of them last.
pub fn middle(mut list: Vec<Settled>) -> Vec<Settled> {
    list.retain(|entry| !(32_767..=32_768).contains(&entry.vertex));
    let entry = |vertex| Settled {
        vertex,
        distance: 0,
    };
    list.insert(0, entry(32_767));
    list.push(entry(32_767));
    list.push(entry(32_768));
    list
}

pub fn too_high(mut list: Vec<Settled>) -> Vec<Settled> {
    list[65_535].vertex = 65_536;
    list
}

pub fn too_far(mut list: Vec<Settled>) -> Vec<Settled> {
    list[65_535].distance = 3_600 * 14 + 1;
    list
}

pub fn just_in(mut list: Vec<Settled>) -> Vec<Settled> {
    list[65_535].distance = 3_600 * 14;
    list
}

/// All of a settled buffer after 1,000 steps: vertex 0 is not among them, so
/// that the first zero record passes for it and the second is its repeat.
pub fn whole_buffer() -> Case {
    let scene = full();
    let mut case = scene.parts_case(&[]);
    case.list = scene.run_case(1_000).fast(Sound).settled;
    case
}

pub fn equal(entries: usize) -> Case {
    let entry = Settled {
        vertex: 40_000,
        distance: 5,
    };
    full().parts_case(&vec![entry; entries])
}

/// A fault of the tables behind a bad list and without room.
pub fn broken_parts() -> Case {
    let mut scene = full();
    last_vertex(&mut scene.network);
    let mut case = scene.parts_case(&repeat(whole_list(&scene)));
    case.parts.clear();
    case
}
