//! The parts against the journeys themselves, point by point.

use super::model::Model;
use crate::records::{Part, Query, Tables};

/// The first point inside a walk record where the parts of a finished run and
/// the journeys disagree: (record, offset). For tables and query in order.
pub fn uncovered(tables: Tables, query: Query) -> Option<(usize, i64)> {
    let model = Model::new(tables, query);
    let steps = 0..=model.order.len();
    let parts: Vec<Part> = steps.flat_map(|k| model.parts(k)).collect();
    let inside = |part: &Part, record: usize, x: i64| {
        part.record as usize == record && (i64::from(part.start)..=i64::from(part.end)).contains(&x)
    };
    for (record, walk) in model.walks.iter().enumerate() {
        for x in 1..i64::from(walk.length) {
            let listed = parts.iter().any(|p| inside(p, record, x));
            if listed != in_time(&model, record, x) {
                return Some((record, x));
            }
        }
    }
    None
}

/// Is there a journey from this point that starts within the window?
fn in_time(model: &Model, record: usize, x: i64) -> bool {
    let walk = model.walks[record];
    let seconds = i64::from(walk.wait);
    let on = i64::from(walk.length) - x + model.ticks(seconds);
    let by_end = model.distance[walk.to as usize].map(|d| d + on);
    let o = model.offset();
    let end = if record == model.query.record as usize {
        Some(o)
    } else if record as u32 == model.place().twin {
        Some(i64::from(walk.length) - o)
    } else {
        None
    };
    // Whoever goes to the very end of the road has to wait at its lights.
    let lights = |end: i64| match end == i64::from(walk.length) {
        true => model.ticks(seconds),
        false => 0,
    };
    let straight = end.filter(|&end| x <= end);
    let straight = straight.map(|end| end - x + lights(end));
    let fits = |cost: i64| cost <= model.window();
    by_end.is_some_and(fits) || straight.is_some_and(fits)
}
