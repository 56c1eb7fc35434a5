//! The patients of an evening: whom the journeys to each arrival reach.

use super::check::{cut, least, lengths, records_and_query, Given};
use super::model::Model;
use super::run::{refused, run};
use super::write::clear;
use crate::records::{word, Answer, Evening, Lent, Query, Tables};

pub fn patients(
    tables: Tables,
    evening: Evening,
    patients: &[u8],
    lent: Lent,
    report: &mut [u8],
) -> Answer {
    let Lent { held, settled } = lent;
    let lent = [(3, held.len(), 16), (4, settled.len(), 8)];
    let early = lengths(tables, &lent)
        .or_else(|| sizes(tables, evening, patients.len(), report.len()))
        .or_else(|| records_and_query(tables, evening.query))
        .or_else(|| least(19, patients.len() / 4, |i| word(patients, 4 * i) > 65_535))
        .or_else(|| hours(evening));
    if let Some((number, place)) = early {
        return refused(number, place);
    }
    let mut last = Answer::default();
    for i in 0..evening.arrivals {
        let own = Lent {
            held: &mut *held,
            settled: &mut *settled,
        };
        last = run(tables, at(evening, i), u32::MAX, own);
        if last.refusal != 0 {
            clear(held);
            clear(settled);
            clear(report);
            return last;
        }
    }
    let figures = figures(tables, evening, patients);
    let bytes: Vec<u8> = figures.iter().flat_map(|n| n.to_be_bytes()).collect();
    report.copy_from_slice(&bytes);
    last
}

/// The query of one arrival.
fn at(evening: Evening, index: u32) -> Query {
    Query {
        arrival: evening.query.arrival + (evening.gap * index) as i32,
        ..evening.query
    }
}

/// Places 6 and 7, in numbers that no length can pass.
fn sizes(tables: Tables, evening: Evening, patients: usize, report: usize) -> Option<Given> {
    let vertices = tables.vertices.len() as u128 / 12;
    let figures = vertices + u128::from(evening.arrivals) + 1;
    if cut(patients, 4) || patients as u128 != 4 * vertices {
        return Some((1, 6));
    }
    (report as u128 != 4 * figures).then_some((1, 7))
}

fn hours(evening: Evening) -> Option<Given> {
    let (gap, arrivals) = (i128::from(evening.gap), i128::from(evening.arrivals));
    least(20, 3, |place| match place {
        0 => !(1..=3_600).contains(&gap),
        1 => !(1..=96).contains(&arrivals),
        _ => i128::from(evening.query.arrival) + gap * (arrivals - 1) > 172_800,
    })
}

/// By the distances alone: a vertex is reached at an arrival if it is within D.
fn figures(tables: Tables, evening: Evening, patients: &[u8]) -> Vec<u32> {
    let vertices = tables.vertices.len() / 12;
    let count = |v: usize| u64::from(word(patients, 4 * v));
    let reached = |i: u32| {
        let model = Model::new(tables, at(evening, i));
        let within = |v: usize| model.distance[v].is_some_and(|d| d <= model.window());
        (0..vertices).map(within).collect::<Vec<bool>>()
    };
    let reached: Vec<Vec<bool>> = (0..evening.arrivals).map(reached).collect();
    let times = |v: usize| reached.iter().filter(|at| at[v]).count() as u64;
    let covered = |at: &Vec<bool>| (0..vertices).filter(|&v| at[v]).map(count).sum();
    let all: u64 = (0..vertices).map(count).sum();
    let figures = (0..vertices).map(times).chain(reached.iter().map(covered));
    figures.chain([all]).map(|figure| figure as u32).collect()
}
