//! Each refusal at each line where it can be, over one feed whose lines stand in any order.

use outside::rng::Rng;

use super::feed::{clock, Column, Feed, Row, FIVE};
use super::Said;
use crate::call::{Case, Refusal};

const TRIPS: usize = 3;
const STOPS: usize = 4;

/// Twelve lines: each trip with four timed stops, all of them mixed.
fn feed() -> Feed {
    let mut rng = Rng::new(21, 0);
    let mut rows = Vec::new();
    for trip in 0..TRIPS {
        for stop in 0..STOPS {
            let second = 3_600 * (trip as u32 + 1) + 300 * stop as u32;
            rows.push(Row {
                trip: format!("t{trip}"),
                arrival: clock(second),
                departure: clock(second + 60),
                stop: format!("s{}", (trip + stop) % STOPS),
                sequence: (7 * stop + 3).to_string(),
                more: String::new(),
            });
        }
    }
    for i in 1..rows.len() {
        rows.swap(i, rng.below(i + 1));
    }
    Feed {
        columns: FIVE.to_vec(),
        rows,
        stops: (0..STOPS).map(|stop| (format!("s{stop}"), stop.to_string())).collect(),
        trips: (0..TRIPS).map(|trip| (format!("t{trip}"), "5".to_string())).collect(),
        end: "\n",
        closed: true,
        quoted: 0,
    }
}

fn number(row: &Row) -> usize {
    row.sequence.parse().expect("it is a number")
}

fn seconds(time: &str) -> u32 {
    time.split(':').fold(0, |sum, part| 60 * sum + part.parse::<u32>().expect("it is a number"))
}

fn case(feed: &Feed, refusal: Refusal) -> (Case, Said) {
    (feed.case(&mut Rng::new(21, 1), TRIPS * (STOPS - 1)), Said::Refusal(refusal))
}

/// The feed with one line altered.
fn altered(at: usize, refusal: Refusal, alter: impl Fn(&mut Row)) -> (Case, Said) {
    let mut feed = feed();
    alter(&mut feed.rows[at]);
    case(&feed, refusal)
}

fn of_a_line(at: usize) -> Vec<(Case, Said)> {
    let right = feed();
    let row = &right.rows[at];
    let line = at as u32 + 2;
    let mut all = vec![
        altered(at, (13, line), |row| row.more = ",".to_string()),
        altered(at, (13, line), |row| row.more = "\"".to_string()),
        altered(at, (13, line), |row| row.more = "\r\r".to_string()),
        altered(at, (13, line), |row| row.sequence.clear()),
        altered(at, (13, line), |row| row.sequence = "4294967296".to_string()),
        altered(at, (13, line), |row| row.arrival = "48:00:00".to_string()),
        altered(at, (13, line), |row| row.departure = "1:00:60".to_string()),
        altered(at, (14, line), |row| row.stop = "s".to_string()),
        altered(at, (14, line), |row| row.trip = "t".to_string()),
        altered(at, (16, line), |row| row.departure = clock(seconds(&row.arrival) - 1)),
        altered(at, (0, 0), |row| row.departure.clear()),
        altered(at, (0, 0), |row| row.arrival.clear()),
    ];
    let end = [0, STOPS - 1].contains(&(number(row) / 7));
    all.push(altered(at, if end { (16, line) } else { (0, 0) }, |row| {
        row.arrival.clear();
        row.departure.clear();
    }));
    for (other, same) in right.rows.iter().enumerate().filter(|(other, same)| *other != at && same.trip == row.trip) {
        all.push(altered(at, (15, line.max(other as u32 + 2)), |row| row.sequence = format!("0{}", same.sequence)));
        if number(same) + 7 == number(row) {
            let leaves = seconds(&same.departure);
            all.push(altered(at, (0, 0), |row| row.arrival = clock(leaves)));
            all.push(altered(at, (16, line), |row| row.arrival = clock(leaves - 1)));
            // The stop before leaves too late: told at this one.
            let reached = seconds(&row.arrival);
            all.push(altered(other, (16, line), |row| row.departure = clock(reached + 1)));
        }
    }
    all
}

fn of_columns() -> Vec<(Case, Said)> {
    let mut all = Vec::new();
    for (at, column) in FIVE.into_iter().enumerate() {
        let mut lacks = feed();
        lacks.columns.remove(at);
        all.push(case(&lacks, (12, 1)));
        for place in 0..=FIVE.len() {
            let mut twice = feed();
            twice.columns.insert(place, column);
            all.push(case(&twice, (12, 1)));
            let mut moved = feed();
            let column = moved.columns.remove(at);
            moved.columns.insert(place.min(4), column);
            moved.columns.insert(place.min(4), Column::Other("shape_dist_traveled", "1.5"));
            moved.columns.push(Column::Other("shape_dist_traveled", "\"\""));
            all.push(case(&moved, (0, 0)));
        }
    }
    all
}

fn of_lists() -> Vec<(Case, Said)> {
    let mut all = Vec::new();
    for number in ["", "x", "65536", "-1", "4294967296"] {
        for at in 0..STOPS {
            let mut bad = feed();
            bad.stops[at].1 = number.to_string();
            all.push(case(&bad, (29, at as u32 + 1)));
            // The stop list comes first, whatever the line in the other.
            bad.trips[0].1.clear();
            all.push(case(&bad, (29, at as u32 + 1)));
        }
        for at in 0..TRIPS {
            let mut bad = feed();
            bad.trips[at].1 = number.to_string();
            all.push(case(&bad, if number == "65536" { (0, 0) } else { (29, at as u32 + 1) }));
        }
    }
    all
}

pub fn all() -> Vec<(Case, Said)> {
    let lines = (0..TRIPS * STOPS).flat_map(of_a_line);
    let mut all: Vec<(Case, Said)> = lines.chain(of_columns()).chain(of_lists()).collect();
    all.push(case(&feed(), (0, 0)));
    all
}
