//! The timetable as a program would read it that may allocate: ids in hash maps, one pass over the text, one sort by trip
//! and sequence and one of the hops. It is the rival for speed, and is called as the library is.

use std::borrow::Cow;
use std::collections::HashMap;

use crate::call::{Case, Hop, Outcome, Refusal, ANSWER, HOP, MOST_HOPS};

pub fn answered(case: &Case) -> Outcome {
    let (mut hops, mut answer) = (case.hops.clone(), case.answer.clone());
    let value = timetable(&case.stop_times, &case.stops, &case.trips, &mut hops, &mut answer);
    Outcome { value, hops, answer }
}

pub fn timetable(stop_times: &[u8], stops: &[u8], trips: &[u8], hops: &mut [u8], answer: &mut [u8]) -> u32 {
    if answer.len() != ANSWER {
        return 1;
    }
    let room = hops.len() / HOP;
    let told = if hops.len() % HOP != 0 || room > MOST_HOPS {
        [1, 2, 0]
    } else {
        match rides(stop_times, stops, trips, room) {
            Ok(rides) => {
                fill(&rides, hops);
                [0, 0, rides.len() as u32]
            }
            Err((number, place)) => {
                hops.fill(0);
                [number, place, 0]
            }
        }
    };
    put(&told, answer);
    0
}

fn put(numbers: &[u32], into: &mut [u8]) {
    for (number, bytes) in numbers.iter().zip(into.chunks_exact_mut(4)) {
        bytes.copy_from_slice(&number.to_be_bytes());
    }
}

fn fill(rides: &[Ride], hops: &mut [u8]) {
    let (written, rest) = hops.split_at_mut(HOP * rides.len());
    for (ride, bytes) in rides.iter().zip(written.chunks_exact_mut(HOP)) {
        put(&ride.hop.fields(), bytes);
    }
    rest.fill(0);
}

/// A hop and the line of its departure.
struct Ride {
    hop: Hop,
    line: u32,
}

/// A line of the timetable. A trip is known by its place among the trips.
#[derive(Clone, Copy)]
struct Stop {
    trip: u32,
    sequence: u32,
    line: u32,
    vertex: u32,
    times: Option<(u32, u32)>,
}

fn rides(stop_times: &[u8], stops: &[u8], trips: &[u8], room: usize) -> Result<Vec<Ride>, Refusal> {
    let stops = Numbers::read(stops, u16::MAX.into())?;
    let trips = Numbers::read(trips, u32::MAX)?;
    let mut all = read(stop_times, &stops, &trips)?;
    all.sort_unstable_by_key(|stop| (stop.trip, stop.sequence, stop.line));
    let one_sequence = |pair: &&[Stop]| (pair[0].trip, pair[0].sequence) == (pair[1].trip, pair[1].sequence);
    if let Some(line) = all.windows(2).filter(one_sequence).map(|pair| pair[1].line).min() {
        return Err((15, line));
    }
    let mut rides = Vec::new();
    let mut fault = None;
    for trip in all.chunk_by(|a, b| a.trip == b.trip) {
        ride(trip, trips.numbers[trip[0].trip as usize], &mut rides, &mut fault);
    }
    if let Some(line) = fault {
        return Err((16, line));
    }
    if rides.len() > room {
        return Err((17, 0));
    }
    rides.sort_unstable_by_key(|ride| (ride.hop.to, ride.line));
    Ok(rides)
}

/// The hops of one trip, in the order of its stops.
fn ride(trip: &[Stop], number: u32, rides: &mut Vec<Ride>, fault: &mut Option<u32>) {
    let mut last: Option<(&Stop, u32)> = None;
    let mut at_fault = |line: u32| *fault = Some(fault.map_or(line, |known| known.min(line)));
    for (i, stop) in trip.iter().enumerate() {
        let Some((arrival, departure)) = stop.times else {
            if i == 0 || i + 1 == trip.len() {
                at_fault(stop.line);
            }
            continue;
        };
        if departure < arrival || last.is_some_and(|last| arrival < last.1) {
            at_fault(stop.line);
        }
        if let Some((from, leaves)) = last.filter(|last| last.0.vertex != stop.vertex) {
            let hop = Hop { from: from.vertex, to: stop.vertex, departure: leaves, arrival, trip: number };
            rides.push(Ride { hop, line: from.line });
        }
        last = Some((stop, departure));
    }
}

/// The lines of a text with their numbers, empty ones left out.
struct Lines<'a> {
    rest: &'a [u8],
    number: u64,
}

impl<'a> Lines<'a> {
    fn of(text: &'a [u8]) -> Self {
        Lines { rest: text, number: 0 }
    }
}

impl<'a> Iterator for Lines<'a> {
    type Item = (u32, &'a [u8]);

    fn next(&mut self) -> Option<Self::Item> {
        while !self.rest.is_empty() {
            self.number += 1;
            let line = match self.rest.iter().position(|byte| *byte == b'\n') {
                Some(end) => {
                    let line = &self.rest[..end];
                    self.rest = &self.rest[end + 1..];
                    line.strip_suffix(b"\r").unwrap_or(line)
                }
                None => std::mem::take(&mut self.rest),
            };
            if !line.is_empty() {
                return Some((self.number.min(u32::MAX.into()) as u32, line));
            }
        }
        None
    }
}

/// The fields of a line; the last one is an error where its quotes are stray or open.
struct Fields<'a> {
    rest: Option<&'a [u8]>,
}

struct Stray;

impl<'a> Fields<'a> {
    fn of(line: &'a [u8]) -> Self {
        Fields { rest: Some(line) }
    }

    /// What stands behind a quoted field that begins the text, and its bytes.
    fn quoted(text: &'a [u8]) -> Result<(Cow<'a, [u8]>, &'a [u8]), Stray> {
        let mut at = 1;
        let mut doubled = false;
        loop {
            let quote = at + text[at..].iter().position(|byte| *byte == b'"').ok_or(Stray)?;
            if text.get(quote + 1) != Some(&b'"') {
                let inside = &text[1..quote];
                let bytes = if doubled { Cow::Owned(halved(inside)) } else { Cow::Borrowed(inside) };
                return Ok((bytes, &text[quote + 1..]));
            }
            doubled = true;
            at = quote + 2;
        }
    }

    fn field(text: &'a [u8]) -> Result<(Cow<'a, [u8]>, &'a [u8]), Stray> {
        if text.first() == Some(&b'"') {
            return Self::quoted(text);
        }
        match text.iter().position(|byte| matches!(byte, b',' | b'"')) {
            Some(end) if text[end] == b'"' => Err(Stray),
            Some(end) => Ok((Cow::Borrowed(&text[..end]), &text[end..])),
            None => Ok((Cow::Borrowed(text), &[])),
        }
    }
}

fn halved(inside: &[u8]) -> Vec<u8> {
    let mut skip = false;
    inside.iter().filter(|byte| { skip = **byte == b'"' && !skip; !skip }).copied().collect()
}

impl<'a> Iterator for Fields<'a> {
    type Item = Result<Cow<'a, [u8]>, Stray>;

    fn next(&mut self) -> Option<Self::Item> {
        let text = self.rest.take()?;
        match Self::field(text) {
            Ok((bytes, [])) => Some(Ok(bytes)),
            Ok((bytes, [b',', rest @ ..])) => {
                self.rest = Some(rest);
                Some(Ok(bytes))
            }
            _ => Some(Err(Stray)),
        }
    }
}

/// A lent list: each id has a place, and its number is that of its first line.
struct Numbers<'a> {
    places: HashMap<Cow<'a, [u8]>, u32>,
    numbers: Vec<u32>,
}

impl<'a> Numbers<'a> {
    fn read(text: &'a [u8], most: u32) -> Result<Self, Refusal> {
        let mut list = Numbers { places: HashMap::new(), numbers: Vec::new() };
        for (line, bytes) in Lines::of(text) {
            let mut fields = Fields::of(bytes);
            let (Some(Ok(id)), Some(Ok(value)), None) = (fields.next(), fields.next(), fields.next()) else {
                return Err((29, line));
            };
            let value = digits(&value).filter(|value| *value <= most).ok_or((29, line))?;
            let place = list.numbers.len() as u32;
            if *list.places.entry(id).or_insert(place) == place {
                list.numbers.push(value);
            }
        }
        Ok(list)
    }
}

/// A 32-bit number of one or more digits.
fn digits(field: &[u8]) -> Option<u32> {
    let mut value = None;
    for byte in field {
        let digit = byte.wrapping_sub(b'0');
        if digit > 9 {
            return None;
        }
        value = Some(value.unwrap_or(0u32).checked_mul(10)?.checked_add(digit.into())?);
    }
    value
}

fn time(field: &[u8]) -> Option<u32> {
    let [hours @ .., b':', m1, m2, b':', s1, s2] = field else {
        return None;
    };
    let pair = |tens: u8, ones: u8, most: u32| digits(&[tens, ones]).filter(|value| *value <= most);
    let hours = match *hours {
        [ones] => pair(b'0', ones, 47),
        [tens, ones] => pair(tens, ones, 47),
        _ => None,
    };
    Some(3_600 * hours? + 60 * pair(*m1, *m2, 59)? + pair(*s1, *s2, 59)?)
}

/// Nothing where the time is bad; nothing inside where it is blank.
fn blank_or_time(field: &[u8]) -> Option<Option<u32>> {
    if field.is_empty() {
        return Some(None);
    }
    time(field).map(Some)
}

const TRIP: usize = 0;
const STOP: usize = 1;
const ARRIVAL: usize = 2;
const DEPARTURE: usize = 3;
const SEQUENCE: usize = 4;
const OTHER: usize = 5;

/// What each column holds. Line 1 can be faulty behind the five names: refusal 13.
fn columns(line: &[u8]) -> Result<Vec<usize>, Refusal> {
    let mut columns = Vec::new();
    let mut stray = false;
    for field in Fields::of(line) {
        match field {
            Ok(name) => columns.push(match &name[..] {
                b"trip_id" => TRIP,
                b"stop_id" => STOP,
                b"arrival_time" => ARRIVAL,
                b"departure_time" => DEPARTURE,
                b"stop_sequence" => SEQUENCE,
                _ => OTHER,
            }),
            Err(Stray) => stray = true,
        }
    }
    if (0..OTHER).any(|kind| columns.iter().filter(|column| **column == kind).count() != 1) {
        return Err((12, 1));
    }
    if stray {
        return Err((13, 1));
    }
    Ok(columns)
}

/// All stops, or 12, 13 and, where no line of the whole text has 13, 14.
fn read(text: &[u8], stops: &Numbers, trips: &Numbers) -> Result<Vec<Stop>, Refusal> {
    let mut lines = Lines::of(text);
    let Some((1, header)) = lines.next() else {
        return Err((12, 1));
    };
    let columns = columns(header)?;
    let mut all = Vec::new();
    let mut unknown = None;
    for (line, bytes) in lines {
        match stop(line, bytes, &columns, stops, trips).ok_or((13, line))? {
            Some(stop) => all.push(stop),
            None => unknown = unknown.or(Some(line)),
        }
    }
    match unknown {
        Some(line) => Err((14, line)),
        None => Ok(all),
    }
}

/// A line with its ids looked up: nothing where it is faulty, nothing inside where an id is unknown.
fn stop(line: u32, bytes: &[u8], columns: &[usize], stops: &Numbers, trips: &Numbers) -> Option<Option<Stop>> {
    let (mut trip, mut vertex, mut arrival, mut departure, mut sequence) = (None, None, None, None, None);
    let mut count = 0;
    for field in Fields::of(bytes) {
        let field = field.ok()?;
        match *columns.get(count)? {
            TRIP => trip = trips.places.get(&field[..]).copied(),
            STOP => vertex = stops.places.get(&field[..]).map(|place| stops.numbers[*place as usize]),
            ARRIVAL => arrival = blank_or_time(&field)?,
            DEPARTURE => departure = blank_or_time(&field)?,
            SEQUENCE => sequence = Some(digits(&field)?),
            _ => {}
        }
        count += 1;
    }
    if count != columns.len() {
        return None;
    }
    let (Some(trip), Some(vertex), Some(sequence)) = (trip, vertex, sequence) else {
        return Some(None);
    };
    let times = arrival.or(departure).zip(departure.or(arrival));
    Some(Some(Stop { trip, sequence, line, vertex, times }))
}
