//! Small feeds as operators write them, whole, at every room, and damaged at every byte of every text.

use super::Said;
use crate::call::{Case, HOP, MOST_HOPS};
use crate::quick;

/// The feed of the examples: quoted header, columns nobody asks for, blank times, a trip past midnight, unsorted lines.
const EXAMPLE: [&[u8]; 3] = [
    include_bytes!("../../../../examples/feed/stop_times.txt"),
    include_bytes!("../../../../examples/feed/stops.csv"),
    include_bytes!("../../../../examples/feed/trips.csv"),
];

/// CRLF, no end of the last line, ids with commas and quotes, empty lines, several trips under one number.
const CARRIED: [&[u8]; 3] = [
    b"stop_sequence,\"stop_id\",trip_id,arrival_time,departure_time,\"x,y\"\r\n10,\"a,1\",\"\"\"q\"\"\",7:00:00,,\r\n\r\n02,b,\"\"\"q\"\"\",,06:59:59,\"z\"\r\n007,b,t,46:00:00,46:00:00,\r\n8,\"a,1\",t,,,\r\n9,c,\"t\",46:00:00,47:59:59,",
    b"\"a,1\",0\r\n\r\nb,1\r\nc,65535\r\nb,2\r\n\"c\",3",
    b"t,0\r\n\"\"\"q\"\"\",0\r\nt,4294967295",
];

/// The shortest feed with a hop.
const SHORT: [&[u8]; 3] = [
    b"trip_id,stop_id,arrival_time,departure_time,stop_sequence\nx,A,1:00:00,,1\nx,B,1:01:00,,2\n",
    b"A,0\nB,1\n",
    b"x,9\n",
];

/// One route several times, its trips mixed and under one number; two ids of one stop.
const FREQUENT: [&[u8]; 3] = [
    b"trip_id,stop_sequence,stop_id,departure_time,arrival_time\nr1,0,a,8:00:00,\nr2,0,a,8:10:00,\nr1,1,b,8:04:30,8:04:00\nr3,0,a,8:20:00,\nr2,1,b,,\nr3,1,B,8:24:00,8:24:00\nr1,2,c,,8:09:00\nr3,2,c,,8:24:00\nr2,2,c,,8:19:00\nr1,3,C,,8:09:00\n",
    b"a,4\nb,2\nc,9\nB,2\nC,9\n",
    b"r3,77\nr2,77\nr1,77\n",
];

const FEEDS: [[&[u8]; 3]; 4] = [EXAMPLE, CARRIED, SHORT, FREQUENT];

const BYTES: [u8; 13] = [b',', b'"', b'\r', b'\n', b'0', b'1', b'9', b':', b' ', b'x', b'_', 0, 0xff];

fn case(feed: &[Vec<u8>; 3], room: usize) -> Case {
    Case::new(&feed[0], &feed[1], &feed[2], room)
}

/// One text with another byte at a place, with a byte less, with one twice, and cut there.
fn versions(text: &[u8]) -> Vec<Vec<u8>> {
    let mut all = Vec::new();
    for at in 0..text.len() {
        for byte in BYTES {
            let mut other = text.to_vec();
            other[at] = byte;
            all.push(other);
        }
        all.push([&text[..at], &text[at + 1..]].concat());
        all.push([&text[..=at], &text[at..]].concat());
        all.push(text[..at].to_vec());
    }
    all
}

/// Rooms that are exact, one less, none, far too large, and lengths that are no rooms; answers of other lengths.
fn rooms(feed: &[Vec<u8>; 3]) -> Vec<(Case, Said)> {
    let exact = quick::answered(&case(feed, MOST_HOPS)).answer[11] as usize;
    let mut all: Vec<(Case, Said)> = (0..=exact + 3).map(|room| (case(feed, room), Said::Refusal(if room < exact { (17, 0) } else { (0, 0) }))).collect();
    all.push((case(feed, MOST_HOPS), Said::Refusal((0, 0))));
    all.push((case(feed, MOST_HOPS + 1), Said::Refusal((1, 2))));
    for odd in [1, HOP - 1, HOP * exact - 1, HOP * exact + 1, HOP * exact + 16] {
        let mut odd_case = case(feed, 0);
        odd_case.hops = vec![0xa5; odd];
        all.push((odd_case, Said::Refusal((1, 2))));
    }
    for len in [0, 1, 11, 13, 24] {
        let mut other = case(feed, exact);
        other.answer = vec![0x5a; len];
        all.push((other, Said::NoAnswer));
    }
    all
}

pub fn all() -> Vec<(Case, Said)> {
    let mut all = Vec::new();
    for feed in FEEDS {
        let feed = feed.map(<[u8]>::to_vec);
        all.extend(rooms(&feed));
        let room = feed[0].iter().filter(|byte| **byte == b'\n').count();
        for text in 0..3 {
            for version in versions(&feed[text]) {
                let mut other = feed.clone();
                other[text] = version;
                all.push((case(&other, room), Said::Nothing));
            }
        }
    }
    all
}
