//! A third look at small networks, by journeys alone: from where one can still come at each tick before T.

use outside::records::{Query, Tables, NONE};

use crate::plain::Model;

/// How many ticks before T are looked at.
const SPAN: i64 = 500;

/// Who may start where: a tick before T and a vertex.
struct Looked<'a> {
    model: &'a Model,
    able: Vec<Vec<bool>>,
}

impl Looked<'_> {
    fn was(&self, vertex: u32, ticks: i64) -> bool {
        ticks >= 0 && self.able.get(ticks as usize).is_some_and(|row| row[vertex as usize])
    }

    /// Whether who sits in this vehicle comes in time: leaving it at its next stop, or staying in it.
    fn sits(&self, hop: usize, seen: &mut Vec<usize>) -> bool {
        if seen.contains(&hop) {
            return false;
        }
        seen.push(hop);
        let own = self.model.hops[hop].hop;
        self.was(own.to, self.model.before(own.arrival)) || (0..self.model.hops.len()).any(|next| self.model.stays(hop, next) && self.sits(next, seen))
    }

    /// Can one start there at this tick? `able` has the answer for all that are nearer to T, and so far for this one.
    fn there(&self, vertex: u32, now: i64) -> bool {
        let model = self.model;
        let stood = i64::from(model.boarding) * i64::from(model.query.speed);
        let boards = |&i: &usize| model.hops[i].hop.from == vertex && model.before(model.hops[i].hop.departure) + stood == now && self.sits(i, &mut Vec::new());
        let walks = model.walks.iter().any(|walk| walk.from == vertex && self.was(walk.to, now - model.walk_ticks(walk)));
        self.was(vertex, now - 1) || walks || straight(model, vertex) == Some(now) || (0..model.hops.len()).any(|i| boards(&i))
    }
}

/// From an end of the query's road straight to the place.
fn straight(model: &Model, vertex: u32) -> Option<i64> {
    let (e, o) = (model.walks[model.query.record as usize], model.query.offset);
    let wait = |seconds: u32| i64::from(seconds * model.query.speed);
    if vertex == e.from {
        return Some(i64::from(o) + if o == e.length { wait(e.wait) } else { 0 });
    }
    match (vertex == e.to, o == e.length, e.twin) {
        (false, _, _) | (true, false, NONE) => None,
        (true, true, _) => Some(0),
        (true, false, twin) => Some(i64::from(e.length - o) + if o == 0 { wait(model.walks[twin as usize].wait) } else { 0 }),
    }
}

/// The first vertex whose distance is not the first tick before T at which one can still start there. For tables, query and boarding time in order.
pub fn mistimed(tables: Tables, query: Query, boarding: u32) -> Option<usize> {
    let model = Model::new(tables, query, boarding);
    let mut looked = Looked { model: &model, able: Vec::new() };
    for now in 0..=SPAN {
        // A ride of no minutes that needs no boarding starts as it ends: each look adds those whom the ones before bring.
        let mut row = vec![false; model.vertices];
        loop {
            looked.able.push(row.clone());
            let next: Vec<bool> = (0..model.vertices).map(|v| looked.there(v as u32, now)).collect();
            looked.able.pop();
            if next == row {
                break;
            }
            row = next;
        }
        looked.able.push(row);
    }
    (0..model.vertices).find(|&v| {
        let first = looked.able.iter().position(|row| row[v]).map(|ticks| ticks as i64);
        first != model.distance[v].filter(|&d| d <= SPAN)
    })
}
