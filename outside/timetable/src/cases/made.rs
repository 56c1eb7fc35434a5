//! The cases of a seed: a random feed, at times with one fault or several.

use outside::rng::Rng;

use super::feed::{clock, Column, Feed, Row, FIVE};
use crate::call::{Case, HOP, MOST_HOPS};
use crate::quick;

const IDS: [&str; 12] = ["a", "b", "A", "ab", "a b", "a,b", "\"", "\"\"", "", "7", "07", "a\"b"];
const OTHERS: [Column; 5] = [
    Column::Other("stop_headsign", "Ring, outer"),
    Column::Other("pickup_type", "0"),
    Column::Other("", ""),
    Column::Other("pickup_type", "\""),
    Column::Other("Trip_id", "t"),
];

/// Some of the ids, each once, with numbers that may meet.
fn list(rng: &mut Rng, count: usize, numbers: &[u32]) -> Vec<(String, String)> {
    let mut ids = IDS.to_vec();
    (0..count)
        .map(|_| {
            let id = ids.swap_remove(rng.below(ids.len()));
            let zeros = if rng.chance(10) { rng.below(12) } else { 0 };
            (id.to_string(), format!("{}{}", "0".repeat(zeros), rng.pick(numbers)))
        })
        .collect()
}

fn written(rng: &mut Rng, seconds: u32) -> String {
    let text = clock(seconds);
    if text.starts_with('0') && rng.chance(40) {
        return text[1..].to_string();
    }
    text
}

/// The lines of one trip; times never fall, and two stops share a moment at times.
fn trip(rng: &mut Rng, id: &str, stops: &[(String, String)]) -> Vec<Row> {
    let count = 1 + rng.below(6);
    let mut second = rng.range(0, 40 * 3_600) as u32;
    let mut sequence = rng.below(12) as u64;
    if rng.chance(3) {
        sequence = u64::from(u32::MAX) - 20;
    }
    let step = rng.pick(&[1, 1, 4, 400]);
    let mut rows = Vec::new();
    for i in 0..count {
        let leaves = second + if rng.chance(50) { 0 } else { rng.below(90) as u32 };
        let (mut arrival, mut departure) = (written(rng, second), written(rng, leaves));
        match rng.below(8) {
            0 => arrival.clear(),
            1 => departure.clear(),
            2 if i > 0 && i + 1 < count => {
                arrival.clear();
                departure.clear();
            }
            _ => {}
        }
        let zeros = if rng.chance(8) { rng.below(12) } else { 0 };
        let stop = stops[rng.below(stops.len())].0.clone();
        rows.push(Row { trip: id.to_string(), arrival, departure, stop, sequence: format!("{}{sequence}", "0".repeat(zeros)), more: String::new() });
        // A time that stood for both may be the arrival.
        second = leaves + if rng.chance(30) { 0 } else { rng.below(400) as u32 };
        sequence += 1 + rng.below(step) as u64;
    }
    rows
}

fn feed(rng: &mut Rng) -> Feed {
    let (stop_count, trip_count) = (1 + rng.below(6), 1 + rng.below(4));
    let stops = list(rng, stop_count, &[0, 1, 2, 3, 65_535]);
    let trips = list(rng, trip_count, &[0, 0, 7, u32::MAX]);
    let mut rows: Vec<Row> = trips.iter().flat_map(|entry| trip(rng, &entry.0, &stops)).collect();
    if rng.chance(60) {
        for i in 1..rows.len() {
            rows.swap(i, rng.below(i + 1));
        }
    }
    let mut columns = FIVE.to_vec();
    for i in 1..5 {
        columns.swap(i, rng.below(i + 1));
    }
    for _ in 0..rng.pick(&[0, 0, 0, 1, 2, 4]) {
        columns.insert(rng.below(columns.len() + 1), rng.pick(&OTHERS));
    }
    Feed { columns, rows, stops, trips, end: rng.pick(&["\n", "\n", "\r\n"]), closed: rng.chance(70), quoted: rng.pick(&[0, 0, 10, 100]) }
}

/// Whole values that a line may have wrongly, or nearly.
fn alter(rng: &mut Rng, feed: &mut Feed) {
    let rows = feed.rows.len();
    let (at, other) = (rng.below(rows), rng.below(rows));
    match rng.below(12) {
        0 => {
            feed.rows[at].sequence = feed.rows[other].sequence.clone();
            feed.rows[at].trip = feed.rows[other].trip.clone();
        }
        1 => feed.rows[at].sequence = rng.pick(&["", "x", "4294967296", "-1", "18446744073709551616", "1 "]).to_string(),
        2 => feed.rows[at].trip = feed.rows[other].trip.clone(),
        3 => feed.rows[at].trip = rng.pick(&IDS).to_string(),
        4 => feed.rows[at].stop = rng.pick(&IDS).to_string(),
        5 => {
            feed.rows[at].arrival.clear();
            feed.rows[at].departure.clear();
        }
        6 => feed.rows[at].arrival = feed.rows[other].departure.clone(),
        7 => feed.rows[at].departure = feed.rows[other].arrival.clone(),
        8 => feed.rows[at].arrival = rng.pick(&["48:00:00", "1:60:00", "1:00", " ", "24:00:00", "0:00:00", "47:59:59"]).to_string(),
        9 => feed.rows[at].more = rng.pick(&[",", "\"", ",\"\"", "x", "\r"]).to_string(),
        10 => {
            let list = if rng.chance(50) { &mut feed.stops } else { &mut feed.trips };
            let at = rng.below(list.len());
            list.push((list[at].0.clone(), rng.pick(&["0", "1", "65535", "65536", "4294967296", "", "x"]).to_string()));
        }
        _ => {
            let list = if rng.chance(50) { &mut feed.stops } else { &mut feed.trips };
            let at = rng.below(list.len());
            list.remove(at);
        }
    }
}

/// A byte of one of the texts changed, taken out or put in.
fn damage(rng: &mut Rng, case: &mut Case) {
    let text = match rng.below(6) {
        0 => &mut case.stops,
        1 => &mut case.trips,
        _ => &mut case.stop_times,
    };
    if text.is_empty() {
        return;
    }
    let byte = rng.pick(b",,\"\"\r\n\n01:9x \xff");
    let at = rng.below(text.len());
    match rng.below(3) {
        0 => text[at] = byte,
        1 => text.insert(at, byte),
        _ => drop(text.remove(at)),
    }
}

/// The target: room for all, exact, one less, some, none, or a wrong length.
fn room(rng: &mut Rng, case: &mut Case) {
    case.hops = vec![0; HOP * 64];
    let outcome = quick::answered(case);
    let exact = HOP * u32::from_be_bytes([outcome.answer[8], outcome.answer[9], outcome.answer[10], outcome.answer[11]]) as usize;
    let len = match rng.below(60) {
        0 => HOP * MOST_HOPS,
        1 => HOP * (MOST_HOPS + 1),
        2 => exact + 1,
        3..=9 => exact.saturating_sub(HOP),
        10..=14 => 0,
        15..=19 => rng.below(300),
        20..=34 => exact + HOP * rng.below(9),
        _ => exact,
    };
    case.hops = vec![0xa5; len];
    if rng.chance(2) {
        case.answer = vec![0x5a; rng.below(26)];
    }
    case.null = rng.chance(50);
}

pub fn made(seed: u64, index: u64) -> Case {
    let mut rng = Rng::new(seed, index);
    let mut feed = feed(&mut rng);
    for _ in 0..rng.pick(&[0, 0, 0, 1, 1, 1, 2, 3]) {
        if !feed.rows.is_empty() && !feed.stops.is_empty() && !feed.trips.is_empty() {
            alter(&mut rng, &mut feed);
        }
    }
    let mut case = feed.case(&mut rng, 0);
    for _ in 0..rng.pick(&[0, 0, 0, 0, 1, 2]) {
        damage(&mut rng, &mut case);
    }
    if rng.chance(5) {
        case.stop_times = [b"\n\n", &case.stop_times[..]].concat();
    }
    room(&mut rng, &mut case);
    case
}
