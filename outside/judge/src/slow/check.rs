//! Refusals 1 to 7, each a statement about one place.

use crate::records::{Hop, Query, Tables, Vertex, Walk};

/// A refusal's number and its place.
pub type Given = (u64, u64);

pub fn vertices(tables: Tables) -> Vec<Vertex> {
    let count = tables.vertices.len() / 12;
    (0..count)
        .map(|i| Vertex::read(tables.vertices, i))
        .collect()
}

pub fn walks(tables: Tables) -> Vec<Walk> {
    let count = tables.walks.len() / 16;
    (0..count).map(|i| Walk::read(tables.walks, i)).collect()
}

pub fn hops(tables: Tables) -> Vec<Hop> {
    let size = tables.hop_size as usize;
    let count = tables.hops.len() / size;
    (0..count)
        .map(|i| Hop::read(tables.hops, size, i))
        .collect()
}

/// The least place at which a statement holds, as a refusal of this number.
pub fn least(number: u64, places: usize, holds: impl Fn(usize) -> bool) -> Option<Given> {
    let place = (0..places).find(|&p| holds(p))?;
    Some((number, place as u64))
}

pub fn check(tables: Tables) -> Option<Given> {
    lengths(tables, &[]).or_else(|| records(tables))
}

/// A lent slice: its place in refusal 1, its length, the size of a record.
pub type Lent = (usize, usize, usize);

/// 1 to 7 in this order, with what else is lent beside the tables.
pub fn up_to_query(tables: Tables, query: Query, lent: &[Lent]) -> Option<Given> {
    lengths(tables, lent).or_else(|| records_and_query(tables, query))
}

/// 2 to 7.
pub fn records_and_query(tables: Tables, query: Query) -> Option<Given> {
    records(tables).or_else(|| asked(tables, query))
}

pub fn cut(length: usize, size: usize) -> bool {
    length / size * size != length
}

/// 1, with what is lent.
pub fn lengths(tables: Tables, lent: &[Lent]) -> Option<Given> {
    let (v, w, h) = (tables.vertices.len(), tables.walks.len(), tables.hops.len());
    least(1, 6, |place| match place {
        0 => cut(v, 12) || !(1..=65_536).contains(&(v / 12)),
        1 => cut(w, 16) || w / 16 > 262_144,
        2 => match tables.hop_size {
            16 => cut(h, 16) || h / 16 > 262_144,
            20 => cut(h, 20) || h / 20 > 262_144,
            _ => true,
        },
        _ => lent
            .iter()
            .any(|&(own, length, size)| own == place && cut(length, size)),
    })
}

/// 2 to 6.
pub fn records(tables: Tables) -> Option<Given> {
    let (vertices, walks, hops) = (vertices(tables), walks(tables), hops(tables));
    let known = |vertex: u32| (vertex as usize) < vertices.len();
    least(2, walks.len(), |i| {
        let walk = walks[i];
        !known(walk.from)
            || !known(walk.to)
            || walk.from == walk.to
            || !(1..=100_000).contains(&walk.length)
            || walk.wait > 120
            || !twin_in_order(&walks, i)
    })
    .or_else(|| {
        least(3, hops.len(), |i| {
            let hop = hops[i];
            let time = |t: i32| (-86_400..=172_800).contains(&t);
            let times = time(hop.departure) && time(hop.arrival) && hop.departure <= hop.arrival;
            !known(hop.from) || !known(hop.to) || hop.from == hop.to || !times
        })
    })
    .or_else(|| least(4, walks.len(), |i| i > 0 && walks[i].to < walks[i - 1].to))
    .or_else(|| least(5, hops.len(), |i| i > 0 && hops[i].to < hops[i - 1].to))
    .or_else(|| wrong_vertex(&vertices, &walks, &hops))
}

fn twin_in_order(walks: &[Walk], i: usize) -> bool {
    let walk = walks[i];
    if walk.twin == 0xffff_ffff {
        return true;
    }
    // The same road the other way; its lights are its own.
    let road = |w: &Walk| (w.from, w.to, w.length, w.twin);
    let right = (walk.to, walk.from, walk.length, i as u32);
    walks.get(walk.twin as usize).map(road) == Some(right)
}

/// The tables ascend here (4 and 5 went before), so the number of records
/// whose "to" is smaller can be looked up by halving.
fn wrong_vertex(vertices: &[Vertex], walks: &[Walk], hops: &[Hop]) -> Option<Given> {
    let mut leaving = vec![0usize; vertices.len()];
    let ends = walks
        .iter()
        .map(|w| w.from)
        .chain(hops.iter().map(|h| h.from));
    ends.for_each(|from| leaving[from as usize] += 1);
    least(6, vertices.len(), |v| {
        let vertex = vertices[v];
        let walk = walks.partition_point(|w| (w.to as usize) < v);
        let hop = hops.partition_point(|h| (h.to as usize) < v);
        vertex.first_walk as usize != walk
            || vertex.first_hop as usize != hop
            || vertex.departing as usize != leaving[v]
            || vertex.zero != 0
    })
}

/// 7.
pub fn asked(tables: Tables, query: Query) -> Option<Given> {
    let walks = walks(tables);
    let walk = walks.get(query.record as usize);
    least(7, 5, |place| match place {
        0 => walk.is_none(),
        1 => walk.is_some_and(|w| query.offset > w.length),
        2 => query.arrival < 0 || query.arrival > 172_800,
        3 => query.duration < 1 || query.duration > 86_400,
        _ => query.speed < 1 || query.speed > 100,
    })
}
