//! The job reader and the printed lines.

use std::fmt::Write;

use super::{parts, run};
use crate::mutant::{Fault, Mutant};
use crate::records::{
    word, Answer, Held, Lent, Part, Query, Settled, Tables, HELD, HOP, JOB, PART, SETTLED, VERTEX,
    WALK,
};

#[derive(Clone, Debug, PartialEq, Eq)]
pub struct Job {
    pub vertices: Vec<u8>,
    pub walks: Vec<u8>,
    pub hops: Vec<u8>,
    pub query: Query,
}

/// The job, or the number N of its `job N` line.
pub fn read<F: Fault>(bytes: &[u8], fault: F) -> Result<Job, usize> {
    let mut tables: [Vec<u8>; 3] = Default::default();
    let mut query = None;
    let mut last = 0;
    let mut count = 0;
    for record in bytes.chunks(JOB) {
        let (cut, late) = (record.len() < JOB, query.is_some());
        if (cut && fault.is(Mutant::JobCut)) || (late && fault.is(Mutant::JobTrailing)) {
            break;
        }
        if cut || late {
            return Err(count);
        }
        let mask = if fault.is(Mutant::JobKindByte) {
            0xff
        } else {
            u32::MAX
        };
        let kind = word(record, 0) & mask;
        let equal = fault.is(Mutant::JobEqualKind) && kind == last && count > 0;
        if (kind < last && !fault.is(Mutant::JobOrder)) || equal {
            return Err(count);
        }
        match kind {
            1..=3 => table_record(&mut tables, kind, record, fault).ok_or(count)?,
            4 => query = Some(asked(record, fault)),
            _ => return Err(count),
        }
        last = kind;
        count += 1;
    }
    let missing = count - usize::from(fault.is(Mutant::JobMissing)).min(count);
    let query = query.ok_or(missing)?;
    let [vertices, walks, hops] = tables;
    Ok(Job {
        vertices,
        walks,
        hops,
        query,
    })
}

/// Puts a record of kind 1 to 3 behind its table, unless pad or count forbid.
fn table_record<F: Fault>(
    tables: &mut [Vec<u8>; 3],
    kind: u32,
    record: &[u8],
    fault: F,
) -> Option<()> {
    let more = |mutant| usize::from(fault.is(mutant));
    let rows = [
        (VERTEX, 512 + more(Mutant::JobTooMany)),
        (WALK, 1_024 - more(Mutant::JobWalkLimit)),
        (HOP, 1_024 + more(Mutant::JobManyHops)),
    ];
    let index = kind as usize - 1;
    let (size, most) = rows[index];
    let (body, pad) = record[4..].split_at(size);
    let padded = pad.iter().all(|&b| b == 0) || fault.is(Mutant::JobPad);
    if !padded || tables[index].len() == most * size {
        return None;
    }
    tables[index].extend_from_slice(body);
    Some(())
}

fn asked<F: Fault>(record: &[u8], fault: F) -> Query {
    let both = word(record, 16);
    let bits = if fault.is(Mutant::JobWideSpeed) {
        16
    } else {
        8
    };
    Query {
        record: word(record, 4),
        offset: word(record, 8),
        arrival: word(record, 12) as i32,
        duration: both >> bits,
        speed: both & ((1 << bits) - 1),
    }
}

/// The whole output of the program for one input.
pub fn print<F: Fault>(bytes: &[u8], fault: F) -> String {
    let job = match read(bytes, fault) {
        Ok(job) => job,
        Err(place) => return format!("job {place}\n"),
    };
    let tables = Tables {
        vertices: &job.vertices,
        walks: &job.walks,
        hops: &job.hops,
        hop_size: HOP as u32,
    };
    // No vertex is held or settled twice, and a walk gives one part when its
    // far end is settled; step 0 gives two more at most.
    let vertices = job.vertices.len() / VERTEX;
    let mut held = vec![0; vertices * HELD];
    let mut settled = vec![0; vertices * SETTLED];
    let mut lent = Lent {
        held: &mut held,
        settled: &mut settled,
    };
    let answer = run(tables, job.query, u32::MAX, &mut lent, fault);
    let mut text = format!("answer {} {}\n", answer.refusal, answer.place);
    if answer.refusal != 0 && !fault.is(Mutant::JobRefusalEnd) {
        return text;
    }
    let list = &settled[..answer.settled as usize * SETTLED];
    let mut buffer = vec![0; (job.walks.len() / WALK + 2) * PART];
    let count = parts(tables, job.query, list, &mut buffer, fault).parts;
    let answer = Answer {
        parts: count,
        ..answer
    };
    lines(&mut text, answer, [&held, &settled, &buffer]);
    text
}

/// The lines behind the first.
fn lines(text: &mut String, answer: Answer, [held, settled, parts]: [&[u8]; 3]) {
    for i in 0..answer.settled as usize {
        let Settled { vertex, distance } = Settled::read(settled, i);
        let _ = writeln!(text, "vertex {vertex} {distance}");
    }
    for i in 0..answer.parts as usize {
        let Part { record, start, end } = Part::read(parts, i);
        let _ = writeln!(text, "part {record} {start} {end}");
    }
    for i in 0..answer.held as usize {
        let h = Held::read(held, i);
        let _ = writeln!(
            text,
            "held {} {} {} {}",
            h.vertex, h.distance, h.state, h.remaining
        );
    }
    let a = answer;
    let _ = writeln!(
        text,
        "end {} {} {} {}",
        a.settled, a.parts, a.held, a.finished
    );
}
