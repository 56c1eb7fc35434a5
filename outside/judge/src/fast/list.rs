//! The settled list of the parts operation: its entries, and refusal 21.

use std::mem::replace;

use super::run::run;
use crate::mutant::{Fault, Mutant, Sound};
use crate::records::{Lent, Query, Refusal, Settled, Tables, HELD, SETTLED, VERTEX};

/// How many entries there are: every record of the slice is one.
fn count<F: Fault>(list: &[u8], fault: F) -> usize {
    let records = list.chunks_exact(SETTLED);
    if fault.is(Mutant::ListTail) {
        let last = records.rev().position(|r| r.iter().any(|&b| b != 0));
        return last.map_or(0, |zeros| list.len() / SETTLED - zeros);
    }
    records.len()
}

fn read<F: Fault>(list: &[u8], index: usize, fault: F) -> Settled {
    let mut entry = Settled::read(list, index);
    if fault.is(Mutant::ListVertexWraps) {
        entry.vertex &= 0xffff;
    }
    entry
}

/// The first entry whose vertex does not exist or stands before, or whose
/// distance is above D.
pub fn bad_entry<F: Fault>(tables: Tables, query: Query, list: &[u8], fault: F) -> Option<Refusal> {
    let vertices = (tables.vertices.len() / VERTEX) as u32;
    let window = query.duration * query.speed;
    let mut seen = vec![false; vertices as usize];
    let count = count(list, fault) - usize::from(fault.is(Mutant::ListLast) && !list.is_empty());
    let entry = |index| read(list, index, fault);
    let far = |distance: u32| match fault {
        _ if fault.is(Mutant::ListDistance) => false,
        _ if fault.is(Mutant::ListDistanceFloor) => distance / query.speed > query.duration,
        _ => distance > window || (distance == window && fault.is(Mutant::ListDistanceTight)),
    };
    if let Some(wrong) = otherwise(tables, query, list, fault) {
        return wrong;
    }
    let bad = (0..count).find(|&index| {
        let Settled { vertex, distance } = entry(index);
        if vertex >= vertices {
            return !(fault.is(Mutant::ListVertexLoose) && vertex == vertices);
        }
        let twice = replace(&mut seen[vertex as usize], true);
        far(distance) || (twice && repeated(list, index, fault))
    })?;
    let same = |index: &usize| entry(*index).vertex == entry(bad).vertex;
    let place = match fault.is(Mutant::ListEarlier) {
        true => (0..bad).find(same).unwrap_or(bad),
        false => bad + usize::from(fault.is(Mutant::ListPlaceOff)),
    };
    Some(Refusal::at(21, place))
}

/// A vertex that stands before is a repeat, whatever a mutant thinks.
fn repeated<F: Fault>(list: &[u8], index: usize, fault: F) -> bool {
    let entry = |index| read(list, index, fault);
    if fault.is(Mutant::ListRepeatNext) {
        return entry(index - 1).vertex == entry(index).vertex;
    }
    if fault.is(Mutant::ListRepeatSame) {
        return (0..index).any(|before| entry(before) == entry(index));
    }
    if fault.is(Mutant::ListUpperHalf) {
        return entry(index).vertex < 32_768;
    }
    !fault.is(Mutant::ListRepeats)
}

/// Mutants that judge the list in another way altogether.
fn otherwise<F: Fault>(
    tables: Tables,
    query: Query,
    list: &[u8],
    fault: F,
) -> Option<Option<Refusal>> {
    let vertices = (tables.vertices.len() / VERTEX) as u32;
    let window = query.duration * query.speed;
    let count = list.len() / SETTLED;
    let entry = |index: usize| Settled::read(list, index);
    let twice = |index: usize| (0..index).any(|b| entry(b).vertex == entry(index).vertex);
    let exists = |index: usize| entry(index).vertex < vertices;
    let far = |index: usize| entry(index).distance > window;
    let bad = |index: usize| !exists(index) || twice(index) || far(index);
    let first = |holds: &dyn Fn(usize) -> bool| (0..count).find(|&index| holds(index));
    let place = if fault.is(Mutant::ListHalves) {
        let lower = |index: usize| entry(index).vertex < 32_768;
        first(&|index| lower(index) && bad(index)).or_else(|| first(&bad))
    } else if fault.is(Mutant::ListByCause) {
        first(&|index| !exists(index))
            .or_else(|| first(&twice))
            .or_else(|| first(&far))
    } else if fault.is(Mutant::ListSorted) {
        let falls = |index: usize| index > 0 && entry(index).distance < entry(index - 1).distance;
        first(&|index| bad(index) || falls(index))
    } else if fault.is(Mutant::ListTrue) {
        let own = own_list(tables, query);
        let known = |index: usize| own.iter().any(|s| s.vertex == entry(index).vertex);
        first(&|index| bad(index) || !known(index))
    } else {
        return None;
    };
    Some(place.map(|place| Refusal::at(21, place)))
}

/// The entries of a good list, in its order and with its distances.
pub fn entries<F: Fault>(tables: Tables, query: Query, list: &[u8], fault: F) -> Vec<Settled> {
    let entry = |index| read(list, index, fault);
    let mut entries: Vec<Settled> = (0..count(list, fault)).map(entry).collect();
    if fault.is(Mutant::ListByDistance) {
        entries.sort_by_key(|entry| (entry.distance, entry.vertex));
    }
    if fault.is(Mutant::ListTrueDistance) {
        let own = own_list(tables, query);
        for entry in &mut entries {
            let known = own.iter().find(|settled| settled.vertex == entry.vertex);
            entry.distance = known.map_or(entry.distance, |known| known.distance);
        }
    }
    entries
}

/// Only for mutants: what a run of this query settles.
pub fn own_list(tables: Tables, query: Query) -> Vec<Settled> {
    let vertices = tables.vertices.len() / VERTEX;
    let (mut held, mut settled) = (vec![0; vertices * HELD], vec![0; vertices * SETTLED]);
    let mut lent = Lent {
        held: &mut held,
        settled: &mut settled,
    };
    let count = run(tables, query, u32::MAX, &mut lent, Sound).settled as usize;
    (0..count).map(|i| Settled::read(&settled, i)).collect()
}
