//! Parts from a list: its entries judged one by one, then all parts of all
//! steps, and only then the room.

use std::collections::BTreeMap;

use super::check::{least, up_to_query, Given};
use super::model::Model;
use super::write::{clear, write};
use crate::records::{Part, PartsAnswer, Query, Settled, Tables};

pub fn parts(tables: Tables, query: Query, list: &[u8], buffer: &mut [u8]) -> PartsAnswer {
    let lengths = [(4, list.len(), 8), (5, buffer.len(), 12)];
    if let Some((number, place)) = up_to_query(tables, query, &lengths) {
        return refused(number, place);
    }
    let model = Model::plain(tables, query);
    let entries: Vec<Settled> = (0..list.len() / 8)
        .map(|i| Settled::read(list, i))
        .collect();
    if let Some((number, place)) = wrong_entry(&model, &entries) {
        return refused(number, place);
    }
    let mut steps = vec![model.first_parts()];
    let own = |entry: &Settled| model.parts_at(entry.vertex as usize, i64::from(entry.distance));
    steps.extend(entries.iter().map(own));
    if let Some(step) = lack(&steps, buffer.len() / 12) {
        clear(buffer);
        return refused(10, step);
    }
    let found: Vec<Part> = steps.concat();
    write(buffer, found.iter().map(|part| part.bytes()));
    PartsAnswer {
        parts: found.len() as u32,
        ..PartsAnswer::default()
    }
}

fn refused(number: u64, place: u64) -> PartsAnswer {
    PartsAnswer {
        refusal: number as u32,
        place: place as u32,
        parts: 0,
    }
}

/// The vertex exists, stands nowhere before, and the distance is at most D.
fn wrong_entry(model: &Model, entries: &[Settled]) -> Option<Given> {
    let mut first = BTreeMap::new();
    for (i, entry) in entries.iter().enumerate() {
        first.entry(entry.vertex).or_insert(i);
    }
    least(21, entries.len(), |i| {
        let Settled { vertex, distance } = entries[i];
        let exists = (vertex as usize) < model.vertices;
        !exists || first[&vertex] < i || i64::from(distance) > model.window()
    })
}

/// The first step after which there are more parts than slots.
fn lack(steps: &[Vec<Part>], room: usize) -> Option<u64> {
    let mut found = 0;
    let full = |step: &Vec<Part>| {
        found += step.len();
        found > room
    };
    let step = steps.iter().position(full)?;
    Some(step as u64)
}
