//! Large cases: lines of a million fields, one field of a million bytes, as many hops as a target may have and one more,
//! and the feed of the bench.

use outside::rng::Rng;

use super::feed::city;
use super::Said;
use crate::call::{Case, Hop, MOST_HOPS};

const MILLION: usize = 1_000_000;
const FIVE: &str = "trip_id,arrival_time,departure_time,stop_id,stop_sequence";

/// A header and two lines, each with so many more fields: plain ones, quoted ones, or both in turn.
fn wide(before: bool, fill: [&str; 2], count: [usize; 3], said: Said) -> (Case, Said) {
    let mut text = String::new();
    for (line, count) in [FIVE, "x,1:00:00,,A,1", "x,1:00:01,,B,2"].into_iter().zip(count) {
        let more: Vec<&str> = (0..count).map(|i| fill[i % 2]).collect();
        text += &if before { format!("{},{line}\n", more.join(",")) } else { format!("{line},{}\n", more.join(",")) };
    }
    (Case::new(text.as_bytes(), b"A,0\nB,1\n", b"x,7\n", 1), said)
}

fn one_hop() -> Said {
    Said::Whole(Ok(vec![Hop { from: 0, to: 1, departure: 3_600, arrival: 3_601, trip: 7 }]))
}

/// One field of a million bytes, which is an id.
fn long(field: &str, written: &str, said: Said) -> (Case, Said) {
    let text = format!("{FIVE}\n{written},1:00:00,,A,1\n{written},1:00:01,,B,2\n");
    (Case::new(text.as_bytes(), b"A,0\nB,1\n", format!("{field},7\n").as_bytes(), 1), said)
}

/// One trip to and fro with so many hops, and room for some.
fn to_and_fro(hops: usize, room: usize, said: Said) -> (Case, Said) {
    let mut text = format!("{FIVE}\n");
    for i in 0..=hops {
        text += &format!("x,10:00:00,,{},{}\n", ["A", "B"][i % 2], i);
    }
    (Case::new(text.as_bytes(), b"A,0\nB,1\n", b"x,7\n", room), said)
}

pub fn all() -> Vec<(Case, Said)> {
    let fills = [["", ""], ["\"\"", "\"\""], ["a", "\"b\""], ["\"a,\"\"b\"", ""]];
    let mut all = Vec::new();
    for fill in fills {
        for before in [false, true] {
            all.push(wide(before, fill, [MILLION; 3], one_hop()));
            all.push(wide(before, fill, [MILLION, MILLION - 1, MILLION], Said::Whole(Err((13, 2)))));
            all.push(wide(before, fill, [MILLION, MILLION, MILLION + 1], Said::Whole(Err((13, 3)))));
        }
        let row = (0..MILLION).map(|i| fill[i % 2]).collect::<Vec<_>>().join(",");
        let header = format!("{FIVE}\n");
        all.push((Case::new(header.as_bytes(), row.as_bytes(), b"", 0), Said::Whole(Err((29, 1)))));
        all.push((Case::new(header.as_bytes(), b"", format!("x,1\n{row}").as_bytes(), 0), Said::Whole(Err((29, 2)))));
        all.push((Case::new(row.as_bytes(), b"", b"", 0), Said::Whole(Err((12, 1)))));
    }
    // An open quote or a stray one behind a million fields.
    all.push(wide(false, ["a", "\"b\""], [MILLION, MILLION, MILLION], one_hop()));
    let (mut open, _) = wide(false, ["a", "\"b\""], [MILLION; 3], Said::Nothing);
    open.stop_times.pop();
    open.stop_times.pop();
    all.push((open, Said::Whole(Err((13, 3)))));
    let id = "i".repeat(MILLION);
    all.push(long(&id, &format!("\"{id}\""), one_hop()));
    all.push(long(&format!("{id}j"), &id, Said::Whole(Err((14, 2)))));
    let quotes = format!("\"{}\"", "\"\"".repeat(MILLION / 2));
    all.push(long(&quotes, &quotes, one_hop()));
    all.push(long(&quotes, &format!("{quotes}\""), Said::Whole(Err((13, 2)))));
    let empty = "\n".repeat(MILLION);
    all.push((Case::new(format!("{empty}{FIVE}\n").as_bytes(), b"", b"", 0), Said::Whole(Err((12, 1)))));
    all.push((Case::new(format!("{FIVE}\n{empty}x\n").as_bytes(), b"", b"", 0), Said::Whole(Err((13, MILLION as u32 + 2)))));
    all.push((Case::new(b"", format!("{empty}x").as_bytes(), b"", 0), Said::Whole(Err((29, MILLION as u32 + 1)))));
    all.push(to_and_fro(MOST_HOPS, MOST_HOPS, Said::Refusal((0, 0))));
    all.push(to_and_fro(MOST_HOPS, MOST_HOPS - 1, Said::Whole(Err((17, 0)))));
    all.push(to_and_fro(MOST_HOPS + 1, MOST_HOPS, Said::Whole(Err((17, 0)))));
    all.push(to_and_fro(20_000, 0, Said::Whole(Err((17, 0)))));
    for shuffled in [false, true] {
        let feed = city(30_000, 300, 800, shuffled);
        all.push((feed.case(&mut Rng::new(3, 0), feed.hops()), Said::Refusal((0, 0))));
        all.push((feed.case(&mut Rng::new(3, 0), feed.hops() - 1), Said::Whole(Err((17, 0)))));
    }
    all
}
