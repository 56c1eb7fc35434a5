//! Jobs for the printing program, good ones and damaged ones.

use super::damage::several;
use super::small;
use crate::network::{Network, Plan, Scene};
use crate::records::{Query, JOB};
use crate::rng::Rng;

fn record(kind: u32, body: &[u8]) -> Vec<u8> {
    let mut bytes = kind.to_be_bytes().to_vec();
    bytes.extend_from_slice(body);
    bytes.resize(JOB, 0);
    bytes
}

/// A query record; the duration has three bytes, the speed one.
pub fn query_record(query: Query) -> Vec<u8> {
    let mut body = Vec::new();
    body.extend(query.record.to_be_bytes());
    body.extend(query.offset.to_be_bytes());
    body.extend(query.arrival.to_be_bytes());
    body.extend((query.duration << 8 | query.speed & 0xff).to_be_bytes());
    record(4, &body)
}

fn records(scene: &Scene) -> Vec<Vec<u8>> {
    let Network {
        vertices,
        walks,
        hops,
    } = &scene.network;
    let vertices = vertices.iter().map(|v| record(1, &v.bytes()));
    let walks = walks.iter().map(|w| record(2, &w.bytes()));
    let hops = hops.iter().map(|h| record(3, &h.bytes()));
    let query = std::iter::once(query_record(scene.query));
    vertices.chain(walks).chain(hops).chain(query).collect()
}

pub fn encode(scene: &Scene) -> Vec<u8> {
    records(scene).concat()
}

/// The job of this number.
pub fn job(seed: u64, index: u64) -> Vec<u8> {
    let mut rng = Rng::new(seed ^ 0x6a6f_6273, index);
    let rng = &mut rng;
    if index % 64 == 63 {
        return crowded(index / 64, rng);
    }
    let mut scene = small::scene(rng);
    match index % 12 {
        0..=3 => encode(&scene),
        4 => {
            several(&mut scene.network, rng);
            encode(&scene)
        }
        5 => cut(encode(&scene), rng),
        6 => other_kind(records(&scene), rng).concat(),
        7 => padded(&scene, rng),
        8 => moved(records(&scene), rng).concat(),
        9 => query_count(records(&scene), rng).concat(),
        10 => far_query(&mut scene, rng),
        _ => scraps(rng),
    }
}

fn cut(mut job: Vec<u8>, rng: &mut Rng) -> Vec<u8> {
    let back = match rng.below(3) {
        0 => rng.below(job.len() + 1),
        1 => job.len() - rng.range(1, 19) as usize,
        _ => job.len() + rng.range(1, 19) as usize,
    };
    job.resize(back, 0);
    job
}

/// One or two records get a kind that is wrong there, or wrong anywhere.
fn other_kind(mut records: Vec<Vec<u8>>, rng: &mut Rng) -> Vec<Vec<u8>> {
    for _ in 0..rng.range(1, 2) {
        let kinds = [
            0,
            1,
            2,
            3,
            4,
            5,
            0x0100_0000,
            0x0001_0001,
            0x8000_0001,
            u32::MAX,
        ];
        let kind: u32 = rng.pick(&kinds);
        let at = rng.below(records.len());
        records[at][..4].copy_from_slice(&kind.to_be_bytes());
    }
    records
}

/// Something in the four bytes behind a vertex.
fn padded(scene: &Scene, rng: &mut Rng) -> Vec<u8> {
    let mut records = records(scene);
    let at = rng.below(scene.network.vertices.len());
    let byte = rng.range(16, 19) as usize;
    records[at][byte] = rng.pick(&[1, 0x80, 0xff]);
    records.concat()
}

/// Records swapped, doubled or left out.
fn moved(mut records: Vec<Vec<u8>>, rng: &mut Rng) -> Vec<Vec<u8>> {
    let (a, b) = (rng.below(records.len()), rng.below(records.len()));
    match rng.below(3) {
        0 => records.swap(a, b),
        1 => {
            let copy = records[a].clone();
            records.insert(b, copy);
        }
        _ => {
            records.remove(a);
        }
    }
    records
}

/// No query, two of them, or something behind it.
fn query_count(mut records: Vec<Vec<u8>>, rng: &mut Rng) -> Vec<Vec<u8>> {
    let last = records[records.len() - 1].clone();
    match rng.below(5) {
        0 => {
            records.pop();
        }
        1 => records.push(last),
        2 => records.push(records[0].clone()),
        3 => records = vec![last],
        _ => {
            let vertices = records.iter().filter(|r| r[3] == 1).cloned();
            records = vertices.chain([last]).collect();
        }
    }
    if rng.chance(20) {
        records.push(rng.bytes(7));
    }
    records
}

fn far_query(scene: &mut Scene, rng: &mut Rng) -> Vec<u8> {
    let query = &mut scene.query;
    match rng.below(5) {
        0 => query.record = rng.pick(&[scene.network.walks.len() as u32, u32::MAX]),
        1 => query.offset = rng.pick(&[100_001, 0x8000_0000, u32::MAX]),
        2 => query.arrival = rng.pick(&[-1, 172_800, 172_801, i32::MIN, i32::MAX]),
        3 => query.duration = rng.pick(&[0, 1, 255, 256, 86_400, 86_401, 0xff_ffff]),
        _ => query.speed = rng.pick(&[0, 1, 100, 101, 128, 255]),
    }
    encode(scene)
}

/// Few bytes of any kind; now and then none.
fn scraps(rng: &mut Rng) -> Vec<u8> {
    let len = rng.below(3) * 20 + rng.pick(&[0, 0, 1, 19]);
    let mut bytes = rng.bytes(len);
    if len >= 4 && rng.chance(70) {
        bytes[..4].copy_from_slice(&[0, 0, 0, rng.range(0, 5) as u8]);
    }
    bytes
}

/// As many records as a job may have, or one more of one kind, or of all.
fn crowded(turn: u64, rng: &mut Rng) -> Vec<u8> {
    let more = |kind: u64| usize::from(turn % 5 == kind || turn % 5 == 4);
    let (vertices, walks, hops) = (512 + more(1), 1_024 + more(2), 1_024 + more(3));
    let mut plan = Plan {
        vertices,
        ..Plan::default()
    };
    let other = |from: usize, rng: &mut Rng| (from + rng.range(1, 30) as usize) % vertices;
    while plan.walks.len() < walks {
        let from = rng.below(vertices);
        let to = other(from, rng);
        match walks - plan.walks.len() {
            1 => plan.one_way(from, to, 5),
            _ => plan.road(from, to, rng.range(1, 40) as u32),
        }
    }
    while plan.hops.len() < hops {
        let from = rng.below(vertices);
        let to = other(from, rng);
        let end = 1_000 - rng.range(0, 90) as i32;
        plan.hop(from, to, end - rng.range(1, 9) as i32, end);
    }
    let query = Query {
        record: rng.below(1_024) as u32,
        offset: 1,
        arrival: 1_000,
        duration: rng.range(20, 120) as u32,
        speed: 2,
    };
    encode(&Scene {
        network: plan.build(),
        query,
    })
}
