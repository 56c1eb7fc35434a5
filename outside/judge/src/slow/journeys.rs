//! Distances against the journeys themselves, tick by tick: a third look that
//! knows nothing of offers, only of standing at a vertex at a moment.

use super::model::Model;
use crate::records::{Query, Tables, Walk};

/// How many ticks before T are looked at.
const SPAN: i64 = 400;

/// The first vertex whose distance is not the least number of ticks before T
/// at which one can still set out there. For tables and query in order.
pub fn mistimed(tables: Tables, query: Query) -> Option<usize> {
    let model = Model::new(tables, query);
    let mut able: Vec<Vec<bool>> = Vec::new();
    for before in 0..=SPAN {
        // A ride of no minutes leads to a vertex at the same moment: nobody can
        // at first, and each look adds those who can by the ones before.
        let mut row = vec![false; model.vertices];
        while able.get(before as usize) != Some(&row) {
            able.truncate(before as usize);
            able.push(row);
            let look = (0..model.vertices).map(|v| in_time(&model, &able, v, before));
            row = look.collect();
        }
    }
    (0..model.vertices).find(|&v| {
        let least = able.iter().position(|row| row[v]);
        let least = least.map(|ticks| ticks as i64);
        least != model.distance[v].filter(|&d| d <= SPAN)
    })
}

/// Can one who stands at `vertex` so many ticks before T be at the place by T?
/// `able` has the answer for all later moments, and so far for this one.
fn in_time(model: &Model, able: &[Vec<bool>], vertex: usize, before: i64) -> bool {
    let later = |at: u32, ticks: i64| ticks >= 0 && able[ticks as usize][at as usize];
    let straight = straight(model, vertex).is_some_and(|ticks| ticks <= before);
    let waits = before > 0 && later(vertex as u32, before - 1);
    let walks = model.walks.iter().any(|walk| {
        let ticks = i64::from(walk.length) + model.ticks(i64::from(walk.wait));
        walk.from as usize == vertex && later(walk.to, before - ticks)
    });
    let rides = model.hops.iter().any(|hop| {
        let until = |seconds: i32| model.ticks(i64::from(model.query.arrival - seconds));
        let boards = hop.from as usize == vertex && until(hop.departure) <= before;
        boards && later(hop.to, until(hop.arrival))
    });
    straight || waits || walks || rides
}

/// The ticks from an end of the query's road straight to the place, if one may
/// go there: along the record, and past its lights only where it ends there.
fn straight(model: &Model, vertex: usize) -> Option<i64> {
    let (e, o) = (model.place(), model.offset());
    let length = i64::from(e.length);
    let there = |walk: &Walk, end: i64| match end == length {
        true => length + model.ticks(i64::from(walk.wait)),
        false => end,
    };
    let twin = model.walks.get(e.twin as usize);
    match vertex {
        _ if vertex == e.from as usize => Some(there(&e, o)),
        _ if vertex == e.to as usize && o == length => Some(0),
        _ if vertex == e.to as usize => twin.map(|twin| there(twin, length - o)),
        _ => None,
    }
}
