//! More lines than the target has records, and than any array of a reader may have; lists with more ids than one may hold. Hops are few,
//! since stops are untimed or at one vertex, so the target may be as small as they are. What is answered is known from the way they are built.

use outside::rng::Rng;

use super::feed::{city, clock, Feed, Row, FIVE};
use super::Said;
use crate::call::{Case, Hop, Refusal};

const MORNING: u32 = 3_600;
const NIGHT: u32 = 40 * 3_600;

/// How the stops of a trip are so many without giving hops.
#[derive(Clone, Copy, PartialEq)]
enum Kind {
    Untimed,
    OneVertex,
}

/// The order of the lines in the text.
#[derive(Clone, Copy)]
enum Order {
    Sorted,
    Reversed,
    Shuffled,
}

const ORDERS: [Order; 3] = [Order::Sorted, Order::Reversed, Order::Shuffled];

/// So many stops in all, of so many trips, each of which gives one hop; the trips are one behind the other and share a number.
fn stops(kind: Kind, count: usize, trips: usize) -> Vec<Row> {
    let mut rows = Vec::new();
    for trip in 0..trips {
        let most = count / trips + usize::from(trip < count % trips);
        for at in 0..most {
            let ends = at == 0 || at + 1 == most;
            let second = if at + 1 == most { NIGHT } else { MORNING + at as u32 };
            let time = if ends || kind == Kind::OneVertex { clock(second) } else { String::new() };
            let stop = if at + 1 == most { "end" } else { ["a", "b"][at % 2] };
            rows.push(Row { trip: format!("t{trip}"), arrival: time, stop: stop.to_string(), sequence: at.to_string(), ..Row::default() });
        }
    }
    rows
}

fn list(numbered: impl Iterator<Item = (String, u32)>) -> Vec<(String, String)> {
    numbered.map(|(id, number)| (id, number.to_string())).collect()
}

/// The rows in an order, and for each of them its line.
fn feed(rows: &[Row], order: Order) -> (Feed, Vec<u32>) {
    let count = rows.len();
    let mut places: Vec<usize> = (0..count).collect();
    match order {
        Order::Sorted => {}
        Order::Reversed => places.reverse(),
        Order::Shuffled => {
            let mut rng = Rng::new(5, count as u64);
            (1..count).for_each(|i| places.swap(i, rng.below(i + 1)));
        }
    }
    let mut lines = vec![0; count];
    for (at, row) in places.iter().enumerate() {
        lines[*row] = at as u32 + 2;
    }
    let named = |names: &[&str]| names.iter().map(|name| name.to_string()).collect::<Vec<_>>();
    let stops = list(named(&["a", "b", "end"]).into_iter().zip([3, 3, 0]));
    let trips = list((0..6).map(|trip| (format!("t{trip}"), 7)));
    let rows = places.iter().map(|row| rows[*row].clone()).collect();
    (Feed { columns: FIVE.to_vec(), rows, stops, trips, end: "\n", closed: true, quoted: 0 }, lines)
}

fn case(feed: &Feed, room: usize) -> Case {
    feed.case(&mut Rng::new(5, 1), room)
}

/// Targets of 0 to 5 records for 0 to 5 hops.
fn tiny() -> Vec<(Case, Said)> {
    let mut all = Vec::new();
    for (kind, count) in [(Kind::Untimed, 3_000), (Kind::OneVertex, 3_000), (Kind::Untimed, 20_000), (Kind::OneVertex, 20_000)] {
        for hops in 0..=5 {
            let mut rows = stops(kind, count, hops.max(1));
            if hops == 0 {
                rows[count - 1].stop = "a".to_string();
            }
            let (feed, lines) = feed(&rows, ORDERS[hops % 3]);
            let last = |trip: usize| rows.iter().rposition(|row| row.trip == format!("t{trip}")).expect("it has lines");
            // The stop before the last timed one of a trip: its first, or the last but one.
            let before = |trip: usize| match kind {
                Kind::Untimed => rows.iter().position(|row| row.trip == format!("t{trip}")).expect("it has lines"),
                Kind::OneVertex => last(trip) - 1,
            };
            let departure = |at: usize| if kind == Kind::Untimed { MORNING } else { MORNING + rows[at].sequence.parse::<u32>().expect("digits") };
            let mut rides: Vec<(u32, Hop)> =
                (0..hops).map(|trip| (lines[before(trip)], Hop { from: 3, to: 0, departure: departure(before(trip)), arrival: NIGHT, trip: 7 })).collect();
            rides.sort_by_key(|ride| ride.0);
            let rides: Vec<Hop> = rides.into_iter().map(|ride| ride.1).collect();
            // The long ones are read many times over, so few of them.
            let rooms = if count > 3_000 { hops.saturating_sub(1)..=hops } else { 0..=5 };
            for room in rooms.filter(|_| count <= 3_000 || [0, 5].contains(&hops)) {
                let said = if room < hops { Err((17, 0)) } else { Ok(rides.clone()) };
                all.push((case(&feed, room), Said::Whole(said)));
            }
        }
    }
    all
}

/// Each refusal of a line at the first line where it can be and at the last, of so many, with less room than there are hops.
fn far() -> Vec<(Case, Said)> {
    let mut all = Vec::new();
    for (kind, count) in [(Kind::Untimed, 3_000), (Kind::OneVertex, 5_000)] {
        for order in ORDERS {
            let rows = stops(kind, count, 2);
            let (_, lines) = feed(&rows, order);
            let mut put = |line: u32, number: u32, alter: &dyn Fn(&mut Vec<Row>, usize)| {
                let at = lines.iter().position(|own| *own == line).expect("it is a line");
                let mut rows = rows.clone();
                alter(&mut rows, at);
                all.push((case(&feed(&rows, order).0, 1), Said::Whole(Err((number, line)))));
            };
            for line in [2, count as u32 + 1] {
                put(line, 13, &|rows, at| rows[at].more = "\"".to_string());
                put(line, 14, &|rows, at| rows[at].stop = "none".to_string());
                put(line, 14, &|rows, at| rows[at].trip = "t".to_string());
                put(line, 16, &|rows, at| {
                    rows[at].arrival = clock(MORNING + 2);
                    rows[at].departure = clock(MORNING + 1);
                    // Where it is the first of its trip, what follows may not come before it.
                    if kind == Kind::OneVertex {
                        rows[at].arrival = clock(NIGHT);
                        rows[at].departure = clock(MORNING);
                    }
                });
            }
            // The lowest line that has an earlier one of its trip, and the highest.
            let mate = |at: usize| if at == 0 || rows[at - 1].trip != rows[at].trip { at + 1 } else { at - 1 };
            for line in [3, count as u32 + 1] {
                let at = lines.iter().position(|own| *own == line).expect("it is a line");
                let other = (0..count).find(|other| rows[*other].trip == rows[at].trip && lines[*other] < line).unwrap_or(mate(at));
                put(line.max(lines[other]), 15, &|rows, _| rows[at].sequence = format!("00{}", rows[other].sequence));
            }
        }
    }
    all
}

/// How many records or nodes an array of a reader may have: what is judged of two stops behind one another has to be so where it ends.
const MEMORIES: [usize; 19] = [64, 100, 128, 200, 256, 300, 400, 500, 512, 600, 800, 1_000, 1_024, 1_200, 1_280, 1_500, 1_536, 2_000, 2_048];

/// In the order of the trips two stops stand behind one another at a place: of one trip or of two.
fn at_a_place(place: usize) -> Vec<(Case, Said)> {
    let count = place + 3;
    let mut rows = stops(Kind::Untimed, count, 1);
    let order = ORDERS[place % 3];
    let mut all = Vec::new();
    let mut put = |rows: &[Row], at: usize, said: Result<Vec<Hop>, u32>| {
        let (feed, lines) = feed(rows, order);
        all.push((case(&feed, 3), Said::Whole(said.map_err(|number| (number, lines[at])))));
    };
    let hop = |from, to, departure, arrival| Hop { from, to, departure, arrival, trip: 7 };
    // They give a hop, between those from the first and to the last.
    let (one, other) = (MORNING + 60, MORNING + 90);
    rows[place - 1].arrival = clock(one);
    rows[place].arrival = clock(other);
    rows[place - 1].stop = "end".to_string();
    rows[place].stop = "a".to_string();
    let mut rides = [(lines_of(&rows, order)[0], hop(3, 0, MORNING, one)), (lines_of(&rows, order)[place], hop(3, 0, other, NIGHT))];
    rides.sort_by_key(|ride| ride.0);
    put(&rows, 0, Ok(vec![rides[0].1, rides[1].1, hop(0, 3, one, other)]));
    // The second arrives too early.
    rows[place - 1].arrival = clock(other + 1);
    put(&rows, place, Err(16));
    // They have one sequence: told at the later line of the two.
    rows[place].sequence = rows[place - 1].sequence.clone();
    let lines = lines_of(&rows, order);
    put(&rows, if lines[place] > lines[place - 1] { place } else { place - 1 }, Err(15));
    // One trip ends, the next begins: with one sequence, in time, untimed.
    for row in &mut rows[place..] {
        row.trip = "t1".to_string();
    }
    let end = rows.len() - 1;
    let mut rides = [(lines[0], hop(3, 0, MORNING, other + 1)), (lines[place], hop(3, 0, other, NIGHT))];
    rides.sort_by_key(|ride| ride.0);
    put(&rows, end, Ok(rides.iter().map(|ride| ride.1).collect()));
    let mut untimed = rows.clone();
    untimed[place - 1].arrival.clear();
    put(&untimed, place - 1, Err(16));
    let mut untimed = rows.clone();
    untimed[place].arrival.clear();
    put(&untimed, place, Err(16));
    all
}

fn lines_of(rows: &[Row], order: Order) -> Vec<u32> {
    feed(rows, order).1
}

fn of_memory(memory: usize) -> Vec<(Case, Said)> {
    [1, 2].into_iter().flat_map(|times| [times * memory - 1, times * memory, times * memory + 1]).filter(|place| *place > 1 && *place < 2_600).flat_map(at_a_place).collect()
}

/// Lists of so many ids, in an order. So many of them are asked for, all over the list, the first and the last of it too.
fn long_lists(ids: usize, asked: usize, order: Order) -> Vec<(Case, Said)> {
    let mut places: Vec<usize> = (0..ids).collect();
    match order {
        Order::Sorted => {}
        Order::Reversed => places.reverse(),
        Order::Shuffled => {
            let mut rng = Rng::new(6, ids as u64);
            (1..ids).for_each(|i| places.swap(i, rng.below(i + 1)));
        }
    }
    let id = |at: usize| at * (ids - 1) / (asked - 1);
    let mut all = Vec::new();
    // One trip past these stops; each stop's first line counts, the second has another number.
    let row = |at: usize, trip: String, stop: String| Row { trip, arrival: clock(MORNING + at as u32), stop, sequence: at.to_string(), ..Row::default() };
    let rows: Vec<Row> = (0..asked).map(|at| row(at, "x".to_string(), format!("s{}", id(at)))).collect();
    let once = list(places.iter().map(|stop| (format!("s{stop}"), *stop as u32)));
    let twice: Vec<(String, String)> = once.iter().cloned().chain(list(places.iter().map(|stop| (format!("s{stop}"), 1 + *stop as u32)))).collect();
    let mut feed = Feed { columns: FIVE.to_vec(), rows, stops: once, trips: list([("x".to_string(), 9)].into_iter()), end: "\n", closed: true, quoted: 0 };
    let second = |at: usize| MORNING + at as u32;
    let ride = |at: usize| Hop { from: id(at - 1) as u32, to: id(at) as u32, departure: second(at - 1), arrival: second(at), trip: 9 };
    let rides: Vec<Hop> = (1..asked).map(ride).collect();
    all.push((case(&feed, asked - 1), Said::Whole(Ok(rides.clone()))));
    feed.stops = twice;
    all.push((case(&feed, asked), Said::Whole(Ok(rides.clone()))));
    all.push((case(&feed, 3), Said::Whole(Err((17, 0)))));
    // An empty line behind each.
    feed.end = "\r\n\n";
    all.push((case(&feed, asked), Said::Whole(Ok(rides))));
    feed.end = "\n";
    feed.rows[asked - 1].stop = format!("s{ids}");
    all.push((case(&feed, asked), Said::Whole(Err((14, asked as u32 + 1)))));
    // A trip for each of these ids, of one stop; the last two are one.
    let trips: Vec<(String, String)> = list(places.iter().map(|trip| (format!("t{trip}"), 5)));
    feed.rows = (0..asked).map(|at| row(at, format!("t{}", id(at.min(asked - 2))), ["A", "B"][at % 2].to_string())).collect();
    feed.stops = list([("A".to_string(), 0), ("B".to_string(), 65_535)].into_iter());
    feed.trips = [&trips[..], &trips[..]].concat();
    let (from, to) = if asked % 2 == 0 { (0, 65_535) } else { (65_535, 0) };
    let hop = Hop { from, to, departure: second(asked - 2), arrival: second(asked - 1), trip: 5 };
    all.push((case(&feed, 1), Said::Whole(Ok(vec![hop]))));
    all.push((case(&feed, 0), Said::Whole(Err((17, 0)))));
    feed.rows[asked - 1].sequence = feed.rows[asked - 2].sequence.clone();
    all.push((case(&feed, 0), Said::Whole(Err((15, asked as u32 + 1)))));
    feed.rows[asked - 1].trip = "t".to_string();
    all.push((case(&feed, 0), Said::Whole(Err((14, asked as u32 + 1)))));
    // The last line of the trip list is bad.
    feed.trips.push(("t0".to_string(), "x".to_string()));
    all.push((case(&feed, 0), Said::Whole(Err((29, 2 * ids as u32 + 1)))));
    all
}

/// A target that holds fewer records than there are lines, all of which hops fill; and one that is as long as it may be.
fn full() -> Vec<(Case, Said)> {
    let mut all = Vec::new();
    for shuffled in [false, true] {
        let feed = city(12_000, 200, 300, shuffled);
        for room in [feed.hops() - 1, feed.hops(), feed.rows.len()] {
            let said: Refusal = if room < feed.hops() { (17, 0) } else { (0, 0) };
            all.push((case(&feed, room), Said::Refusal(said)));
        }
    }
    all
}

/// Those that are short enough for every reader.
pub fn small() -> Vec<(Case, Said)> {
    [of_memory(100), long_lists(300, 300, Order::Shuffled)].into_iter().flatten().collect()
}

pub fn all() -> Vec<(Case, Said)> {
    let lists = [(4_500, 4_500, Order::Shuffled), (10_000, 1_400, Order::Sorted), (20_000, 300, Order::Shuffled), (20_000, 200, Order::Reversed)];
    let mut all: Vec<(Case, Said)> = [tiny(), far(), full()].into_iter().flatten().collect();
    all.extend(MEMORIES.into_iter().flat_map(of_memory));
    all.extend(lists.into_iter().flat_map(|(ids, asked, order)| long_lists(ids, asked, order)));
    all
}
