//! Cases written out by hand, with all that the rules say of them: RULES 26.

use super::Said;
use crate::call::{Case, Hop, Refusal};

const HEAD: &str = "trip_id,arrival_time,departure_time,stop_id,stop_sequence\n";
const STOPS: &str = "A,0\nB,1\nC,2\nD,2\n";
const TRIPS: &str = "x,7\ny,8\nz,7\n";

/// From, to, departure, arrival, trip.
type Ride = [u32; 5];

fn hops(rides: &[Ride]) -> Vec<Hop> {
    rides.iter().map(|&[from, to, departure, arrival, trip]| Hop { from, to, departure, arrival, trip }).collect()
}

/// Three texts, with room for a record more than is answered, or for six.
fn told(times: &str, stops: &str, trips: &str, said: Result<&[Ride], Refusal>) -> (Case, Said) {
    let answered = said.map(hops);
    let room = answered.as_ref().map_or(6, |rides| rides.len() + 1);
    (Case::new(times.as_bytes(), stops.as_bytes(), trips.as_bytes(), room), Said::Whole(answered))
}

/// Lines behind the header, over the lists above.
fn lines(text: &str, said: Result<&[Ride], Refusal>) -> (Case, Said) {
    told(&format!("{HEAD}{text}"), STOPS, TRIPS, said)
}

fn header(text: &str, said: Result<&[Ride], Refusal>) -> (Case, Said) {
    told(text, STOPS, TRIPS, said)
}

/// One line with this sequence.
fn sequence(text: &str, said: Result<&[Ride], Refusal>) -> (Case, Said) {
    lines(&format!("x,1:00:00,,A,{text}\n"), said)
}

/// One line with these times.
fn times(arrival: &str, departure: &str, said: Result<&[Ride], Refusal>) -> (Case, Said) {
    lines(&format!("x,{arrival},{departure},A,1\n"), said)
}

fn stop_list(text: &str, said: Result<&[Ride], Refusal>) -> (Case, Said) {
    told(&format!("{HEAD}x,1:00:00,,A,1\nx,1:00:01,,B,2\n"), text, TRIPS, said)
}

fn trip_list(text: &str, said: Result<&[Ride], Refusal>) -> (Case, Said) {
    told(&format!("{HEAD}x,1:00:00,,A,1\nx,1:00:01,,B,2\n"), STOPS, text, said)
}

pub fn all() -> Vec<(Case, Said)> {
    [of_hops(), of_columns(), of_lines(), of_numbers(), of_times(), of_lists(), of_sequences(), of_falls(), of_order()].into_iter().flatten().collect()
}

fn of_hops() -> Vec<(Case, Said)> {
    vec![
        lines("", Ok(&[])),
        lines("x,1:00:00,1:00:30,A,1\nx,1:02:00,1:03:00,B,2\n", Ok(&[[0, 1, 3_630, 3_720, 7]])),
        // the stops of a trip stand anywhere, and the hop's trip is its number
        lines("x,1:02:00,,B,2\ny,2:00:00,,C,5\nx,1:00:00,,A,1\ny,1:50:00,,B,4\n", Ok(&[[0, 1, 3_600, 3_720, 7], [1, 2, 6_600, 7_200, 8]])),
        // sorted by "to", then by the line of the departure and not of the arrival
        lines(
            "y,5:00:00,,C,9\nx,1:00:00,,A,1\ny,4:00:00,,A,1\nx,2:00:00,,C,2\nz,0:00:00,,B,1\nz,0:00:01,,A,2\n",
            Ok(&[[1, 0, 0, 1, 7], [0, 2, 3_600, 7_200, 7], [0, 2, 14_400, 18_000, 8]]),
        ),
        // neither by departure nor by trip
        lines(
            "y,4:00:00,,A,1\nx,1:00:00,,A,1\nx,2:00:00,,C,2\ny,5:00:00,,C,9\n",
            Ok(&[[0, 2, 14_400, 18_000, 8], [0, 2, 3_600, 7_200, 7]]),
        ),
        // two stops at one vertex give none, and the next one starts from the later
        lines("x,1:00:00,,C,1\nx,1:01:00,1:02:00,D,2\nx,1:05:00,,A,3\n", Ok(&[[2, 0, 3_720, 3_900, 7]])),
        lines("x,1:00:00,,A,1\nx,1:01:00,,A,2\n", Ok(&[])),
        // untimed stops between timed ones are passed over
        lines("x,1:00:00,,A,1\nx,,,B,2\nx,,,C,3\nx,1:09:00,,D,4\n", Ok(&[[0, 2, 3_600, 4_140, 7]])),
        // round to the same vertex, over an untimed one
        lines("x,1:00:00,,A,1\nx,,,B,2\nx,1:09:00,,A,4\n", Ok(&[])),
        // two ids with one number are two trips
        lines("x,1:00:00,,A,1\nz,1:00:00,,B,1\nx,1:01:00,,B,2\nz,1:02:00,,A,2\n", Ok(&[[1, 0, 3_600, 3_720, 7], [0, 1, 3_600, 3_660, 7]])),
        // a trip of one stop gives none
        lines("x,1:00:00,,A,1\n", Ok(&[])),
        // one time stands for both, either of them
        lines("x,,1:00:00,A,1\nx,1:01:00,,B,2\nx,,1:02:00,A,3\n", Ok(&[[1, 0, 3_660, 3_720, 7], [0, 1, 3_600, 3_660, 7]])),
        // the same second all along, as rounded timetables have it
        lines("x,1:00:00,1:00:00,A,1\nx,1:00:00,1:00:00,B,2\n", Ok(&[[0, 1, 3_600, 3_600, 7]])),
    ]
}

fn of_columns() -> Vec<(Case, Said)> {
    let row = "x,1:00:00,,A,1\nx,1:00:01,,B,2\n";
    vec![
        header("", Err((12, 1))),
        header("\n", Err((12, 1))),
        header(&format!("\n{HEAD}{row}"), Err((12, 1))),
        header(&format!("\r\n{HEAD}{row}"), Err((12, 1))),
        header(HEAD, Ok(&[])),
        header(HEAD.trim_end(), Ok(&[])),
        header("trip_id,arrival_time,departure_time,stop_id,stop_sequence\r", Err((12, 1))),
        header("trip_id,arrival_time,departure_time,stop_id,stop_sequence\r\n", Ok(&[])),
        header("trip_id,arrival_time,departure_time,stop_id,stop_sequence\r\r\n", Err((12, 1))),
        header("trip_id,arrival_time,departure_time,stop_id\n", Err((12, 1))),
        header("trip_id,arrival_time,departure_time,stop_id,stop_sequence,stop_id\n", Err((12, 1))),
        header("trip_id,arrival_time,departure_time,stop_id,stop_sequence,\"stop_id\"\n", Err((12, 1))),
        header("trip_id,arrival_time,departure_time,stop_id,Stop_sequence\n", Err((12, 1))),
        header("trip_id, arrival_time,departure_time,stop_id,stop_sequence\n", Err((12, 1))),
        header("\u{feff}trip_id,arrival_time,departure_time,stop_id,stop_sequence\n", Err((12, 1))),
        header("\"trip_id\",\"arrival_time\",\"departure_time\",\"stop_id\",\"stop_sequence\"\nx,1:00:00,,A,1\n", Ok(&[])),
        // other columns may be there twice, or without a name
        header("a,trip_id,a,,arrival_time,departure_time,stop_id,stop_sequence,\n,x,,,1:00:00,,A,1,\n,x,,,1:00:01,,B,2,\n", Ok(&[[0, 1, 3_600, 3_601, 7]])),
        // stray and open quotes in line 1: 13 where all five names are read before them
        header("trip_id,arrival_time,departure_time,stop_id,stop_sequence,x\"y,trip_id\n", Err((13, 1))),
        header("trip_id,arrival_time,departure_time,stop_id,stop_sequence,\"x\n", Err((13, 1))),
        header("trip_id,arrival_time,departure_time,stop_id,stop_sequence,\"x\"y\n", Err((13, 1))),
        header("x\"y,trip_id,arrival_time,departure_time,stop_id,stop_sequence\n", Err((12, 1))),
        header("trip_id,arrival_time,departure_time,stop_id,\"stop_sequence\n", Err((12, 1))),
        header("trip_id,arrival_time,departure_time,stop_id,\"stop_sequence\"x\n", Err((12, 1))),
        header("trip_id,arrival_time,departure_time,stop_id,stop_id,stop_sequence,\"x\n", Err((12, 1))),
        // 13 in line 1 is the first of all, and 12 comes before those of other lines
        header("trip_id,arrival_time,departure_time,stop_id,stop_sequence,\"x\n1\n", Err((13, 1))),
        header("trip_id\n\"\n", Err((12, 1))),
        // a line lacks a column that nobody asks for
        header("trip_id,arrival_time,departure_time,stop_id,stop_sequence,note\nx,1:00:00,,A,1\n", Err((13, 2))),
        // a quoted field ends with its line
        header("trip_id,arrival_time,departure_time,stop_id,stop_sequence,note\nx,1:00:00,,A,1,\"a\nb\"\n", Err((13, 2))),
    ]
}

fn of_lines() -> Vec<(Case, Said)> {
    let hop: Result<&[Ride], Refusal> = Ok(&[[0, 1, 3_600, 3_601, 7]]);
    vec![
        lines("x,1:00:00,,A,1\nx,1:00:01,,B,2", hop),
        lines("x,1:00:00,,A,1\r\nx,1:00:01,,B,2\r\n", hop),
        lines("x,1:00:00,,A,1\r\nx,1:00:01,,B,2\r", Err((13, 3))),
        lines("x,1:00:00,,A,1\n\r\n\n\r\nx,1:00:01,,B,2\n\n\n", hop),
        lines("x,1:00:00,,A,1\n\n\nx,1:00:01,,B,1\n", Err((15, 5))),
        lines("\n\r\nx,1:00:00,,A\n", Err((13, 4))),
        lines("x,1:00:00,,A,1\n\r", Err((13, 3))),
        lines("x,1:00:00,,A,1\r\r\n", Err((13, 2))),
        lines("x,1:00:00,,A,1,\n", Err((13, 2))),
        lines("x,1:00:00,,A\n", Err((13, 2))),
        lines("x\n", Err((13, 2))),
        lines(",\n", Err((13, 2))),
        lines("\"\"\n", Err((13, 2))),
        lines("\"x\",\"1:00:00\",\"\",\"A\",\"1\"\n\"x\",\"1:00:01\",\"\",\"B\",\"2\"\r\n", hop),
        lines("x,1:00:00,,A,\"1\"\nx,1:00:01,,B,\"2\"", hop),
        lines("x\"x,1:00:00,,A,1\n", Err((13, 2))),
        lines("x\",1:00:00,,A,1\n", Err((13, 2))),
        lines("\"x,1:00:00,,A,1\n", Err((13, 2))),
        lines("\"x\"x,1:00:00,,A,1\n", Err((13, 2))),
        lines("\"x\" ,1:00:00,,A,1\n", Err((13, 2))),
        lines(" \"x\",1:00:00,,A,1\n", Err((13, 2))),
        lines("x,1:00:00,,A,\"1\n\"\n", Err((13, 2))),
        lines("x,1:00:00,,A,\"1\"\"\n", Err((13, 2))),
        lines("x,1:00:00,,A,1\"\n", Err((13, 2))),
        lines("x,1:00:00,,A,\"\n", Err((13, 2))),
        lines("x,1:00:00,,A,\"\"\n", Err((13, 2))),
        lines("x,1:00:00,,\"A\"\"\",1\n", Err((14, 2))),
        lines("x,1:00:00,,A ,1\n", Err((14, 2))),
        lines(",1:00:00,,A,1\n", Err((14, 2))),
        told(&format!("{HEAD}\"a\"\"b,c\",1:00:00,,\"\",1\n\"a\"\"b,c\",1:00:01,,B,2\n"), ",4\nB,5\n", "\"a\"\"b,c\",6\n", Ok(&[[4, 5, 3_600, 3_601, 6]])),
        // an id is told byte for byte: a plain one and the same in quotes are one
        told(&format!("{HEAD}\"x\",1:00:00,,A,1\nx,1:00:01,,\"B\",2\n"), "\"A\",0\nB,1\n", "\"x\",7\n", hop),
        lines("x,1:00:00,,a,1\n", Err((14, 2))),
        lines("x\0,1:00:00,,A,1\n", Err((14, 2))),
    ]
}

fn of_numbers() -> Vec<(Case, Said)> {
    vec![
        sequence("0", Ok(&[])),
        sequence("4294967295", Ok(&[])),
        sequence("4294967296", Err((13, 2))),
        sequence("00000000000000000000004294967295", Ok(&[])),
        sequence("18446744073709551617", Err((13, 2))),
        sequence("340282366920938463463374607431768211457", Err((13, 2))),
        sequence("", Err((13, 2))),
        sequence("-1", Err((13, 2))),
        sequence("+1", Err((13, 2))),
        sequence(" 1", Err((13, 2))),
        sequence("1 ", Err((13, 2))),
        sequence("1.0", Err((13, 2))),
        sequence("0x1", Err((13, 2))),
        sequence("1e0", Err((13, 2))),
    ]
}

fn of_times() -> Vec<(Case, Said)> {
    let good = [("0:00:00", ""), ("00:00:00", "00:00:00"), ("47:59:59", ""), ("", "9:05:07"), ("09:05:07", "9:05:07"), ("\"1:00:00\"", "\"\"")];
    let bad = [
        "48:00:00", "99:00:00", "1:60:00", "1:00:60", "47:59:60", "1:0:00", "1:00:0", "001:00:00", ":00:00", "1:00", "1:00:00:00", "1:00:00 ", " 1:00:00",
        " ", "-1:00:00", "+1:00:00", "1-00-00", "1:00:0x", "x:00:00", "1;00:00", "1:000:00", "1:00:000", "1::00", "10000", "::", "1:00:00\0", "\u{0661}:00:00",
    ];
    let mut all: Vec<(Case, Said)> = good.iter().map(|(arrival, departure)| times(arrival, departure, Ok(&[]))).collect();
    for text in bad {
        all.push(times(text, "", Err((13, 2))));
        all.push(times("", text, Err((13, 2))));
        all.push(times("0:00:00", text, Err((13, 2))));
    }
    all.push(lines("x,0:00:00,,A,1\nx,47:59:59,,B,2\n", Ok(&[[0, 1, 0, 172_799, 7]])));
    all
}

fn of_lists() -> Vec<(Case, Said)> {
    let hop: Result<&[Ride], Refusal> = Ok(&[[0, 1, 3_600, 3_601, 7]]);
    let mut all = vec![
        stop_list("A,0\nB,1", hop),
        stop_list("\n\r\nA,0\r\n\nB,1\r\n", hop),
        stop_list("A,000\nB,0000000000000000000001\n", hop),
        // the first line of an id counts
        stop_list("A,0\nB,1\nB,5\nA,6\n", hop),
        stop_list("\"A\",0\n\"B\",\"1\"\nB,5\nA,6\n", hop),
        stop_list("A,65535\nB,1\n", Ok(&[[65_535, 1, 3_600, 3_601, 7]])),
        stop_list("A,65536\nB,1\n", Err((29, 1))),
        stop_list("A,0\nB,1\nA,65536\n", Err((29, 3))),
        stop_list("A,4294967296\n", Err((29, 1))),
        stop_list("stop_id,vertex\nA,0\nB,1\n", Err((29, 1))),
        // an id that is not there, and none at all
        stop_list("A,0\n", Err((14, 3))),
        stop_list("", Err((14, 2))),
        stop_list("A,3\nB,3\n", Ok(&[])),
        trip_list("x,4294967295\n", Ok(&[[0, 1, 3_600, 3_601, u32::MAX]])),
        trip_list("x,0\n", Ok(&[[0, 1, 3_600, 3_601, 0]])),
        trip_list("x,4294967296\n", Err((29, 1))),
        trip_list("y,1\nx,2\nx,3", Ok(&[[0, 1, 3_600, 3_601, 2]])),
        trip_list("", Err((14, 2))),
        trip_list("\n", Err((14, 2))),
        told("", "A,0\n\nB", "x", Err((29, 3))),
        told("", "A,0", "\n\n\nx,", Err((29, 4))),
        told("", "A,0\n\n\nB,x", "x", Err((29, 4))),
        told("\"", "A,0", "x", Err((29, 1))),
        told("", "", "", Err((12, 1))),
        told(HEAD, "", "", Ok(&[])),
    ];
    for bad in ["A", "A,", "A,0,", "A,0,0", ",", "A,-1", "A,+1", "A, 1", "A,1 ", "A,x", "\"A,0", "A,\"0", "A\",0", "\"A\"x,0", "A,0\r", "\r", "A,\"0\"x", "A;0", "\"", "A,0x0"] {
        all.push(stop_list(&format!("A,0\nB,1\n\n{bad}"), Err((29, 4))));
        all.push(trip_list(&format!("x,7\n\n{bad}"), Err((29, 3))));
    }
    all
}

fn of_sequences() -> Vec<(Case, Said)> {
    vec![
        // 9 comes before 10, and 010 behind it
        lines("x,1:00:00,,A,10\nx,0:59:00,,B,9\nx,1:01:00,,C,011\n", Ok(&[[1, 0, 3_540, 3_600, 7], [0, 2, 3_600, 3_660, 7]])),
        lines("x,1:00:00,,A,2\nx,1:01:00,,B,02\n", Err((15, 3))),
        lines("x,1:00:00,,A,0\nx,1:01:00,,B,4294967295\n", Ok(&[[0, 1, 3_600, 3_660, 7]])),
        lines("x,1:00:00,,A,1\ny,1:00:00,,A,1\nz,1:00:00,,A,1\n", Ok(&[])),
        // the lowest line that has an earlier one like it
        lines("y,1:00:00,,A,1\nx,1:00:00,,A,1\nx,1:00:00,,A,1\ny,1:00:00,,A,1\n", Err((15, 4))),
        lines("x,1:00:00,,A,5\nx,1:00:00,,A,1\nx,1:00:00,,A,1\nx,1:00:00,,A,5\nx,1:00:00,,A,5\n", Err((15, 4))),
        lines("x,1:00:00,,A,1\nx,1:00:00,,A,1\nx,1:00:00,,A,1\n", Err((15, 3))),
        lines("x,,,A,1\nx,,,A,1\n", Err((15, 3))),
    ]
}

fn of_falls() -> Vec<(Case, Said)> {
    vec![
        lines("x,,,A,1\nx,1:00:00,,B,2\n", Err((16, 2))),
        lines("x,1:00:00,,A,1\nx,,,B,2\n", Err((16, 3))),
        lines("x,,,A,1\n", Err((16, 2))),
        // first and last by sequence, not by line
        lines("x,,,A,2\nx,1:00:00,,B,1\nx,1:01:00,,C,3\n", Ok(&[[1, 2, 3_600, 3_660, 7]])),
        lines("x,1:00:00,,A,2\nx,1:01:00,,B,3\nx,,,C,1\n", Err((16, 4))),
        lines("x,1:00:00,,A,10\nx,,,B,9\nx,0:00:00,,C,8\n", Ok(&[[2, 0, 0, 3_600, 7]])),
        // departure before arrival at one stop
        lines("x,1:00:01,1:00:00,A,1\n", Err((16, 2))),
        lines("x,1:00:00,1:00:00,A,1\n", Ok(&[])),
        // arrival before the last timed departure: at the later stop of the two, which may stand further up
        lines("x,1:00:00,1:05:00,A,1\nx,1:04:59,1:06:00,B,2\n", Err((16, 3))),
        lines("x,1:00:00,1:05:00,A,1\nx,1:05:00,1:06:00,B,2\n", Ok(&[[0, 1, 3_900, 3_900, 7]])),
        lines("x,1:04:59,1:06:00,B,2\nx,1:00:00,1:05:00,A,1\n", Err((16, 2))),
        lines("x,1:00:00,1:05:00,A,1\nx,,,C,2\nx,1:04:59,,B,3\n", Err((16, 4))),
        // at one vertex too
        lines("x,1:00:00,1:05:00,C,1\nx,1:04:59,1:06:00,D,2\n", Err((16, 3))),
        // compared with the departure of the last timed stop alone
        lines("x,1:00:00,1:05:00,A,1\nx,1:05:00,1:02:00,B,2\nx,1:03:00,,C,3\n", Err((16, 3))),
        // the lowest line of all causes
        lines("y,1:00:00,,A,1\nx,1:00:00,,A,2\nx,2:00:00,,B,1\ny,,,B,2\n", Err((16, 3))),
        lines("x,1:00:00,,A,1\nx,2:00:00,,B,2\nx,1:30:00,,C,3\ny,,,A,1\n", Err((16, 4))),
        lines("z,,,A,1\nx,1:30:00,,C,3\nx,1:00:00,,A,1\nx,2:00:00,,B,2\n", Err((16, 2))),
        // two trips of one number are judged apart
        lines("x,1:00:00,,A,1\nz,0:30:00,,B,2\nx,2:00:00,,C,3\nz,0:40:00,,A,4\n", Ok(&[[1, 0, 1_800, 2_400, 7], [0, 2, 3_600, 7_200, 7]])),
    ]
}

/// Each refusal stands before the higher ones, wherever their lines are, and 29 before all but 1.
fn of_order() -> Vec<(Case, Said)> {
    let bad = |number: u32| match number {
        13 => "x\n",
        14 => "?,1:00:00,,A,9\n",
        15 => "y,1:00:00,,A,1\ny,1:00:01,,B,1\n",
        _ => "z,,,A,1\n",
    };
    let mut all = Vec::new();
    for first in 13..=16u32 {
        for second in first + 1..=16 {
            let text = format!("{}{}", bad(second), bad(first));
            let line = text.lines().count() as u32 + 1;
            all.push(lines(&text, Err((first, line))));
        }
        // with no room for any hop
        let mut tight = lines(&format!("x,1:00:00,,A,1\nx,1:00:01,,B,2\n{}", bad(first)), Err((first, if first == 15 { 5 } else { 4 })));
        tight.0.hops.clear();
        all.push(tight);
    }
    let hop = "x,1:00:00,,A,1\nx,1:00:01,,B,2\n";
    for room in 0..3 {
        let (mut case, said) = lines(hop, if room == 0 { Err((17, 0)) } else { Ok(&[[0, 1, 3_600, 3_601, 7]]) });
        case.hops = vec![0xa5; 20 * room];
        all.push((case, said));
    }
    // NULL for what is empty
    for text in ["", HEAD] {
        let (mut case, _) = told(text, "", "", Ok(&[]));
        case.hops.clear();
        case.null = true;
        all.push((case, Said::Whole(if text.is_empty() { Err((12, 1)) } else { Ok(Vec::new()) })));
    }
    // a bad length before everything, the bytes as they were
    let (mut case, _) = told("\"", "A", "x", Err((1, 2)));
    case.hops = vec![0xa5; 21];
    all.push((case, Said::Whole(Err((1, 2)))));
    all
}
