//! The order of settling, each step judged from scratch over all records.

use super::model::Model;
use crate::records::{Query, Tables};

/// The first step that does not settle what the definition says. For tables
/// and query in order.
pub fn misplaced(tables: Tables, query: Query) -> Option<usize> {
    let model = Model::new(tables, query);
    let settled = |step: usize| model.order.get(step).copied();
    (0..=model.order.len()).find(|&step| settled(step) != next(&model, step))
}

/// Of the unsettled vertices within D whose distance a seed or a record into
/// the first `step` offers, the one at the smallest distance, then with the
/// smallest number.
fn next(model: &Model, step: usize) -> Option<usize> {
    let mut inside = vec![false; model.vertices];
    model.order[..step].iter().for_each(|&v| inside[v] = true);
    let seeds = model.seeds().into_iter().map(|(v, seed)| (v, Some(seed)));
    let offers = model.offers(&inside).map(|(from, _, offer)| (from, offer));
    let offers: Vec<(usize, Option<i64>)> = seeds.chain(offers).collect();
    let eligible = |v: &usize| {
        let own = model.distance[*v];
        let within = own.is_some_and(|d| d <= model.window());
        within && !inside[*v] && offers.contains(&(*v, own))
    };
    let of = |v: &usize| (model.distance[*v], *v);
    (0..model.vertices).filter(eligible).min_by_key(of)
}
