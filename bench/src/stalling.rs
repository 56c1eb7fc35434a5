//! Networks made to stall a search: vertices numbered at random, a line of
//! roads, and tables whose vertices all lie in one bucket of the library's
//! working table.

use outside::network::{full_scene, grid_scene, Plan, Scene};
use outside::records::{Query, Walk};
use outside::rng::Rng;

use crate::hard::plan_of;
use crate::networks::{around, even_grid, shuffled};

/// As many vertices, walks and hops as there can be.
pub const VERTICES: usize = 65_536;
const WALKS: usize = 262_144;
const HOPS: usize = 262_144;

const ARRIVAL: i32 = 36_000;

/// The longest duration, walked as fast as can be: everything is within D.
const ALL: Query = Query {
    record: 0,
    offset: 0,
    arrival: ARRIVAL,
    duration: 86_400,
    speed: 100,
};

/// The ordinary run of full size, beside which all others are measured.
pub fn ordinary() -> Scene {
    full_scene(7_200)
}

/// The same network with its vertices numbered at random, and the place where
/// it was.
fn mixed(scene: Scene) -> Scene {
    let Scene { network, mut query } = scene;
    let (plan, _) = shuffled(plan_of(network), 0);
    let old = query.record as usize;
    let place = plan.walk_order().iter().position(|&walk| walk == old);
    query.record = place.unwrap_or(0) as u32;
    Scene {
        network: plan.build(),
        query,
    }
}

pub fn mixed_city() -> Scene {
    mixed(grid_scene(200, 40_000, 20_000, 7_200))
}

pub fn mixed_full() -> Scene {
    mixed(ordinary())
}

/// A line of roads, numbered along it, with the place in its middle: two
/// vertices on either side are held.
fn line_of(vertices: usize) -> Scene {
    let mut rng = Rng::new(7, vertices as u64);
    let mut plan = Plan {
        vertices,
        ..Plan::default()
    };
    for vertex in 1..vertices {
        plan.road(vertex - 1, vertex, rng.range(50, 200) as u32);
    }
    let query = Query {
        record: plan.walks.len() as u32 / 2,
        ..ALL
    };
    Scene {
        network: plan.build(),
        query,
    }
}

pub fn line() -> Scene {
    line_of(VERTICES)
}

/// A grid of even roads, which holds few beside what it settles.
pub fn even() -> Scene {
    let middle = VERTICES / 2 + 128;
    around(&even_grid(256), middle, 1_440)
}

/// Held rooms of 256 to 511 records have so many buckets, and the lower bits of
/// a number tell its own (`table_tree::bucket`, with the mask of
/// `table_tree::mask_of`). In smaller rooms a chain is no longer than the room;
/// in larger ones fewer numbers share a bucket.
const BUCKETS: usize = 256;

/// The vertices of the first bucket.
fn members() -> Vec<usize> {
    (0..VERTICES).step_by(BUCKETS).collect()
}

/// A hop in the last hour.
fn add_hop(plan: &mut Plan, from: usize, to: usize, rng: &mut Rng) {
    let arrival = ARRIVAL - rng.range(0, 3_600) as i32;
    plan.hop(from, to, arrival - rng.range(60, 600) as i32, arrival);
}

/// Four roads and eight hops for every two vertices of the bucket: after one
/// step all of them are held, and every record looks for one of them.
pub fn bucket_of_pairs() -> Scene {
    let members = members();
    let mut rng = Rng::new(7, members.len() as u64);
    let mut plan = Plan {
        vertices: VERTICES,
        ..Plan::default()
    };
    for _ in 0..4 {
        for (index, &one) in members.iter().enumerate() {
            for &other in &members[..index] {
                plan.road(one, other, rng.range(500, 1_500) as u32);
                add_hop(&mut plan, one, other, &mut rng);
                add_hop(&mut plan, other, one, &mut rng);
            }
        }
    }
    Scene {
        network: plan.build(),
        query: ALL,
    }
}

/// Nearly all records leave 32 vertices that were met first, one in each block
/// of 2,048, and are far from the place: they are the last ones of their chain,
/// all others of it stay before them, and each record looks for one of them.
pub fn bucket_of_few() -> Scene {
    let members = members();
    let is_far = |index: usize| index % 8 == 1;
    let far: Vec<usize> = (0..256)
        .filter(|&i| is_far(i))
        .map(|i| members[i])
        .collect();
    let near: Vec<usize> = (1..256)
        .filter(|&i| !is_far(i))
        .map(|i| members[i])
        .collect();
    let (place, nowhere) = (members[0], 1);
    let mut plan = Plan {
        vertices: VERTICES,
        ..Plan::default()
    };
    plan.one_way(place, nowhere, 1);
    for &vertex in &far {
        plan.one_way(vertex, place, 100_000);
    }
    for (index, &vertex) in near.iter().enumerate() {
        plan.one_way(vertex, place, 1 + index as u32);
        // Whoever has a road to nowhere is held for ever.
        plan.one_way(vertex, nowhere, 1);
    }
    for record in 0..WALKS - plan.walks.len() {
        let (one, other) = (far[record % far.len()], near[record % near.len()]);
        plan.one_way(one, other, 100_000);
    }
    for record in 0..HOPS {
        let (one, other) = (far[record % far.len()], near[record % near.len()]);
        plan.hop(one, other, ARRIVAL, ARRIVAL + 1);
    }
    let network = plan.build();
    let from_place = |walk: &Walk| walk.from as usize == place;
    let record = network.walks.iter().position(from_place);
    let query = Query {
        record: record.unwrap_or(0) as u32,
        duration: 60,
        speed: 10,
        ..ALL
    };
    Scene { network, query }
}

#[cfg(test)]
mod tests {
    use outside::mutant::Sound;
    use outside::records::Answer;

    use super::*;
    use crate::program::RUST;
    use crate::room::{least_room, run_in};

    fn settled(scene: &Scene, room: usize) -> usize {
        let after = run_in(scene, room).fast(Sound);
        let answer = Answer::read(&after.answer);
        assert_eq!((answer.refusal, answer.finished), (0, 1));
        answer.settled as usize
    }

    #[test]
    fn numbers_at_random_change_no_distance() {
        let scene = grid_scene(20, 400, 200, 1_800);
        let list = |scene: &Scene| -> Vec<u32> {
            let after = run_in(scene, 400).fast(Sound);
            let words = after.settled.chunks_exact(8);
            words
                .map(|entry| outside::records::word(entry, 4))
                .collect()
        };
        assert_eq!(list(&mixed(scene.clone())), list(&scene));
    }

    #[test]
    fn a_line_holds_four() {
        let line = line_of(301);
        assert_eq!(settled(&line, 301), 301);
        assert_eq!(least_room(&RUST, &line), Ok(4));
    }

    /// 256 are held at most, whose numbers have the same lower bits.
    #[test]
    fn buckets_are_full() {
        for (scene, count) in [(bucket_of_pairs(), 256), (bucket_of_few(), 224)] {
            let network = &scene.network;
            assert!(network.walks.len() > WALKS - 1_100 && network.walks.len() <= WALKS);
            assert!(network.hops.len() > HOPS - 1_100 && network.hops.len() <= HOPS);
            assert_eq!(settled(&scene, 511), count);
            assert_eq!(least_room(&RUST, &scene), Ok(256));
            let mut froms = network.walks.iter().map(|walk| walk.from as usize);
            assert!(froms.all(|from| from % BUCKETS == 0));
        }
    }
}
