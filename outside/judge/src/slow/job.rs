//! The job, judged record by record from the list of causes.

use super::one_run;
use crate::records::{word, Answer, Held, Lent, Part, Query, Settled, Tables};

pub fn print(bytes: &[u8]) -> String {
    let records: Vec<&[u8]> = bytes.chunks(20).collect();
    if let Some(place) = (0..records.len()).find(|&i| faulty(&records, i)) {
        return format!("job {place}\n");
    }
    let Some(query) = records.iter().find(|r| kind(r) == 4) else {
        return format!("job {}\n", records.len());
    };
    let table = |number: u32, size: usize| -> Vec<u8> {
        let own = records.iter().filter(|r| kind(r) == number);
        own.flat_map(|r| r[4..4 + size].to_vec()).collect()
    };
    answered(&table(1, 12), &table(2, 16), &table(3, 16), asked(query))
}

fn kind(record: &[u8]) -> u32 {
    word(record, 0)
}

/// Cut, kind, order, pad, too many, after the query; records before it are
/// in order.
fn faulty(records: &[&[u8]], i: usize) -> bool {
    let record = records[i];
    if record.len() != 20 || !(1..=4).contains(&kind(record)) {
        return true;
    }
    let before = &records[..i];
    let fall = before.last().is_some_and(|last| kind(last) > kind(record));
    let after = before.iter().any(|r| kind(r) == 4);
    let pad = kind(record) == 1 && word(record, 16) != 0;
    let same = 1 + before.iter().filter(|r| kind(r) == kind(record)).count();
    let most = [512, 1_024, 1_024, 1][kind(record) as usize - 1];
    fall || after || pad || same > most
}

fn asked(record: &[u8]) -> Query {
    Query {
        record: word(record, 4),
        offset: word(record, 8),
        arrival: i32::from_be_bytes([record[12], record[13], record[14], record[15]]),
        duration: u32::from_be_bytes([0, record[16], record[17], record[18]]),
        speed: u32::from(record[19]),
    }
}

fn answered(vertices: &[u8], walks: &[u8], hops: &[u8], query: Query) -> String {
    let tables = Tables {
        vertices,
        walks,
        hops,
        hop_size: 16,
    };
    let mut held = vec![0; vertices.len() / 12 * 16];
    let mut settled = vec![0; vertices.len() / 12 * 8];
    let mut parts = vec![0; (walks.len() / 16 + 2) * 12];
    let lent = Lent {
        held: &mut held,
        settled: &mut settled,
    };
    // `fast` prints from the two operations: here the text is that of one run.
    let six = one_run(tables, query, u32::MAX, lent, &mut parts);
    let mut lines = vec![format!("answer {} {}", six.refusal, six.place)];
    if six.refusal == 0 {
        lines.extend(lists(six, &settled, &parts, &held));
    }
    lines.join("\n") + "\n"
}

/// The lines of an accepted run, behind the first.
fn lists(six: Answer, settled: &[u8], parts: &[u8], held: &[u8]) -> Vec<String> {
    let vertex = |i| {
        let row = Settled::read(settled, i as usize);
        format!("vertex {} {}", row.vertex, row.distance)
    };
    let part = |i| {
        let row = Part::read(parts, i as usize);
        format!("part {} {} {}", row.record, row.start, row.end)
    };
    let entry = |i| {
        let row = Held::read(held, i as usize);
        let (state, remaining) = (row.state, row.remaining);
        format!("held {} {} {state} {remaining}", row.vertex, row.distance)
    };
    let counts = [six.settled, six.parts, six.held, six.finished];
    let end = counts.map(|count| count.to_string()).join(" ");
    let lines = (0..six.settled).map(vertex);
    let lines = lines.chain((0..six.parts).map(part));
    let lines = lines.chain((0..six.held).map(entry));
    lines.chain([format!("end {end}")]).collect()
}
