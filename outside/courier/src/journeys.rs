//! A third look at small networks, by journeys alone: who can stand where at each tick after T, and which points are passed.

use outside::records::{Query, Tables, NONE};

use crate::plain::{Means, Model};

/// How many ticks after T are looked at.
const SPAN: i64 = 400;

/// `able[t][v]`: the courier can be at v, t ticks after T.
fn able(model: &Model) -> Vec<Vec<bool>> {
    let mut able: Vec<Vec<bool>> = Vec::new();
    for now in 0..=SPAN {
        // A ride of no minutes ends as it begins: nobody is there at first, and each look adds those whom the ones before bring.
        let mut row = vec![false; model.vertices];
        while able.get(now as usize) != Some(&row) {
            able.truncate(now as usize);
            able.push(row);
            row = (0..model.vertices).map(|v| there(model, &able, v, now)).collect();
        }
    }
    able
}

/// Can he be there now? `able` has the answer for all moments before, and so far for this one.
fn there(model: &Model, able: &[Vec<bool>], vertex: usize, now: i64) -> bool {
    let was = |at: usize, ticks: i64| ticks >= 0 && able[ticks as usize][at];
    let stays = now > 0 && was(vertex, now - 1);
    let comes = model.records.iter().filter(|record| record.to == vertex).any(|record| match record.means {
        Means::Walk { ticks } => was(record.from, now - ticks),
        Means::Hop { departure, arrival } => arrival == now && was(record.from, departure),
    });
    stays || comes || straight(model, vertex) == Some(now)
}

/// From the place straight to an end of its road.
fn straight(model: &Model, vertex: usize) -> Option<i64> {
    let (e, o) = (model.place(), model.query.offset);
    let wait = |seconds: u32| i64::from(seconds * model.query.speed);
    if vertex == e.to as usize {
        return Some(if o == e.length { 0 } else { i64::from(e.length - o) + wait(e.wait) });
    }
    if vertex != e.from as usize {
        return None;
    }
    match o {
        0 => Some(0),
        _ => (e.twin != NONE).then(|| i64::from(o) + wait(model.walks[e.twin as usize].wait)),
    }
}

/// The first vertex whose distance is not the first tick at which the courier can be there. For tables and query in order.
pub fn mistimed(tables: Tables, query: Query) -> Option<usize> {
    let model = Model::new(tables, query);
    let able = able(&model);
    (0..model.vertices).find(|&v| {
        let first = able.iter().position(|row| row[v]).map(|ticks| ticks as i64);
        first != model.distance[v].filter(|&d| d <= SPAN)
    })
}

/// The first point inside a walk where the parts of a finished run and the journeys disagree: (record, offset).
pub fn uncovered(tables: Tables, query: Query) -> Option<(usize, i64)> {
    let model = Model::new(tables, query);
    let mut parts = model.first_parts();
    for &v in &model.order {
        parts.extend(model.parts_at(v, model.distance[v].unwrap()));
    }
    for (record, walk) in model.walks.iter().enumerate() {
        for x in 1..i64::from(walk.length) {
            let inside = |start: u32, end: u32| (i64::from(start)..=i64::from(end)).contains(&x);
            let listed = parts.iter().any(|part| part.record as usize == record && inside(part.start, part.end));
            if listed != passed(&model, record, x) {
                return Some((record, x));
            }
        }
    }
    None
}

/// Whether a journey comes to this point within the window: from the walk's "from", or straight from the place before it.
fn passed(model: &Model, record: usize, x: i64) -> bool {
    let by_from = model.distance[model.walks[record].from as usize].map(|d| d + x);
    let at = match record as u32 {
        own if own == model.query.record => Some(i64::from(model.query.offset)),
        twin if twin == model.place().twin => Some(i64::from(model.place().length - model.query.offset)),
        _ => None,
    };
    let straight = at.filter(|&at| at <= x).map(|at| x - at);
    by_from.into_iter().chain(straight).any(|ticks| ticks <= model.window())
}
