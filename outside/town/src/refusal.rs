//! What a refusal means, in the words of whoever wrote the town or the job.
//! The program or the library refuses; here it is only told.

use outside::records::{Refusal, JOB};

use crate::quantity::{tell_duration, tell_metres};
use crate::tables::Tables;
use crate::town::{Ask, Town};

/// The meaning of each number.
pub fn meaning(number: u32) -> &'static str {
    match number {
        1 => "a length is no whole number of records, or a table has too few or too many",
        2 => "a walk's ends, length, wait or twin are wrong",
        3 => "a hop's ends or times are wrong",
        4 => "the walks do not ascend by \"to\"",
        5 => "the hops do not ascend by \"to\"",
        6 => "a vertex's first walk, first hop, departing count or zero is wrong",
        7 => "the query is outside its limits",
        8 => "there is too little room for held records",
        9 => "there is too little room for settled records",
        10 => "there is too little room for parts",
        21 => "an entry of the list names no vertex, one that an earlier entry has or, for parts, a distance above the duration",
        _ => "there is no such refusal",
    }
}

/// The fields of a query, by place.
fn query_field(place: u32) -> &'static str {
    match place {
        0 => "there is no such walk",
        1 => "the place lies beyond the end of its street",
        2 => "the arrival is not between 0:00:00 and 48:00:00",
        3 => "the duration is not between 1 s and 24 h",
        _ => "the speed is not between 0.1 m/s and 10 m/s",
    }
}

fn numbers(refusal: Refusal) -> String {
    format!("refusal {}, place {}", refusal.number, refusal.place)
}

/// A refusal of a town's tables or of what is asked about it.
pub fn in_town(town: &Town, tables: &Tables, ask: Option<&Ask>, refusal: Refusal) -> String {
    let place = refusal.place as usize;
    let said = match refusal.number {
        1 => too_many(town, tables, place),
        2 => street(town, tables, place),
        3 => ride(town, tables, place),
        6 => tables.corner.get(place).map(|&corner| {
            let name = town.name(corner);
            format!("more than 65,535 streets and rides leave {name}")
        }),
        7 => ask.map(|ask| town.told_of(ask, query_field(refusal.place))),
        _ => None,
    };
    let said = said.unwrap_or_else(|| meaning(refusal.number).to_string());
    format!("{said} ({})", numbers(refusal))
}

fn too_many(town: &Town, tables: &Tables, place: usize) -> Option<String> {
    let file = town.files.first()?;
    match place {
        0 => Some(format!(
            "{file}: {} corners; there have to be 1 to 65,536",
            tables.corner.len()
        )),
        1 => Some(format!(
            "{file}: {} walks, a street for both ways being two; there may be 262,144",
            tables.lane.len()
        )),
        2 => Some(format!(
            "{file}: {} rides; there may be 262,144",
            tables.ride.len()
        )),
        _ => None,
    }
}

fn street(town: &Town, tables: &Tables, record: usize) -> Option<String> {
    let lane = tables.lane.get(record)?;
    let street = &town.streets[lane.street];
    let reason = if street.from == street.to {
        "it ends at the corner where it begins".to_string()
    } else if (1..=100_000).contains(&street.length) {
        let wait = tell_duration(street.lights(lane.back));
        format!("a wait of {wait} is more than 2 min")
    } else {
        let length = tell_metres(street.length);
        format!("{length} m is not between 0.1 m and 10 km")
    };
    let name = town.street_name(street);
    Some(town.told(&street.source, &format!("street {name}: {reason}")))
}

fn ride(town: &Town, tables: &Tables, record: usize) -> Option<String> {
    let ride = &town.rides[*tables.ride.get(record)?];
    let reason = match ride.from == ride.to {
        true => "it ends at the corner where it begins",
        false => "it may not arrive before it departs, and both lie between -24:00:00 and 48:00:00",
    };
    let name = town.ride_name(ride);
    Some(town.told(&ride.source, &format!("ride {name}: {reason}")))
}

/// A job that holds more than a job may.
pub fn crowded(town: &Town, tables: &Tables) -> Option<String> {
    let counts = [tables.corner.len(), tables.lane.len(), tables.ride.len()];
    let file = town.files.first()?;
    let over = counts
        .iter()
        .zip([512, 1_024, 1_024])
        .any(|(&count, most)| count > most);
    over.then(|| {
        format!(
            "{file}: {} corners, {} walks (a street for both ways is two) and {} rides; a job holds 512, 1,024 and 1,024: ask the library with `make city`",
            counts[0], counts[1], counts[2]
        )
    })
}

/// A refusal of a job that was written as records: the line of the record.
pub fn in_job(path: &str, job: &[u8], lines: &[usize], refusal: Refusal) -> String {
    let kind = match refusal.number {
        2 | 4 => 2,
        3 | 5 => 3,
        6 => 1,
        _ => 4,
    };
    let of_kind = |n: &usize| job.get(JOB * n + 3) == Some(&kind);
    let mut records = (0..lines.len()).filter(of_kind);
    let record = match kind {
        4 => records.next(),
        _ => records.nth(refusal.place as usize),
    };
    let reason = match refusal.number {
        7 => query_field(refusal.place),
        number => meaning(number),
    };
    match record.filter(|_| refusal.number != 1) {
        Some(record) => format!(
            "{path}: line {}: {reason} ({})",
            lines[record],
            numbers(refusal)
        ),
        None => format!("{path}: {reason} ({})", numbers(refusal)),
    }
}

/// A faulty record of a job.
pub fn faulty(path: &str, lines: &[usize], record: usize) -> String {
    match lines.get(record) {
        None => format!("{path}: there is no query; it has to stand in the last line (job {record})"),
        Some(line) => format!(
            "{path}: line {line}: record {record} may not stand there: vertices come first, then walks, hops and one query; \
             there are at most 512, 1,024 and 1,024 before it; each has 20 bytes, and nothing follows the query (job {record})"
        ),
    }
}
