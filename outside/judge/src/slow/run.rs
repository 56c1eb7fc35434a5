//! A run: the state after each step, judged for room, and the last one written.

use super::check::up_to_query;
use super::model::Model;
use super::write::{clear, write};
use crate::records::{Answer, Lent, Part, Query, Settled, Tables};

/// Settled and held.
pub fn run(tables: Tables, query: Query, limit: u32, lent: Lent) -> Answer {
    let (held, settled) = (lent.held.len(), lent.settled.len());
    if let Some((number, place)) = up_to_query(tables, query, &[(3, held, 16), (4, settled, 8)]) {
        return refused(number, place);
    }
    let model = Model::new(tables, query);
    let steps = model.order.len().min(limit as usize);
    let lack = lack(&model, steps, [Some(held / 16), Some(settled / 8), None]);
    if let Some((number, step)) = lack {
        clear(lent.held);
        clear(lent.settled);
        return refused(number, step);
    }
    state(&model, steps, lent)
}

/// The one run of RULES 11.7, which writes the parts too: the pair of run and
/// parts is held against it.
pub fn one_run(tables: Tables, query: Query, limit: u32, lent: Lent, parts: &mut [u8]) -> Answer {
    let lengths = [
        (3, lent.held.len(), 16),
        (4, lent.settled.len(), 8),
        (5, parts.len(), 12),
    ];
    if let Some((number, place)) = up_to_query(tables, query, &lengths) {
        return refused(number, place);
    }
    let model = Model::new(tables, query);
    let steps = model.order.len().min(limit as usize);
    let room = lengths.map(|(_, length, size)| Some(length / size));
    if let Some((number, step)) = lack(&model, steps, room) {
        clear(lent.held);
        clear(lent.settled);
        clear(parts);
        return refused(number, step);
    }
    let found: Vec<Part> = (0..=steps).flat_map(|k| model.parts(k)).collect();
    write(parts, found.iter().map(|p| p.bytes()));
    Answer {
        parts: found.len() as u32,
        ..state(&model, steps, lent)
    }
}

pub fn refused(number: u64, place: u64) -> Answer {
    Answer {
        refusal: number as u32,
        place: place as u32,
        ..Answer::default()
    }
}

/// Writes what is settled and held after so many steps.
fn state(model: &Model, steps: usize, lent: Lent) -> Answer {
    let held = model.held(steps);
    let settled = model.order[..steps].iter().map(|&v| Settled {
        vertex: v as u32,
        distance: model.distance[v].unwrap_or(0) as u32,
    });
    write(lent.held, held.iter().map(|h| h.bytes()));
    write(lent.settled, settled.map(|s| s.bytes()));
    Answer {
        refusal: 0,
        place: 0,
        settled: steps as u32,
        parts: 0,
        held: held.len() as u32,
        finished: u32::from(steps == model.order.len()),
    }
}

/// The earliest step that lacks room, then the lowest number. A buffer that is
/// not lent lacks none.
fn lack(model: &Model, steps: usize, room: [Option<usize>; 3]) -> Option<(u64, u64)> {
    // One slot for each vertex, and one for each walk with two for the place,
    // hold every state there is: large networks need not be judged by steps.
    let whole = [model.vertices, model.vertices, model.walks.len() + 2];
    let enough = |(room, whole): (&Option<usize>, usize)| room.is_none_or(|room| room >= whole);
    if room.iter().zip(whole).all(enough) {
        return None;
    }
    let mut parts = 0;
    for step in 0..=steps {
        parts += model.parts(step).len();
        let need = [model.held(step).len(), step, parts];
        if let Some(i) = (0..3).find(|&i| room[i].is_some_and(|room| need[i] > room)) {
            return Some((8 + i as u64, step as u64));
        }
    }
    None
}
