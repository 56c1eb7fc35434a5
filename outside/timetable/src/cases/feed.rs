//! Feeds as operators write them.

use outside::rng::Rng;

use crate::call::Case;

/// A line of stop times, field by field.
#[derive(Clone, Debug, Default)]
pub struct Row {
    pub trip: String,
    pub arrival: String,
    pub departure: String,
    pub stop: String,
    pub sequence: String,
    /// Put behind the line as it stands.
    pub more: String,
}

/// A column: one of the five, or any other with what stands in it.
#[derive(Clone, Copy, Debug, PartialEq)]
pub enum Column {
    Trip,
    Arrival,
    Departure,
    Stop,
    Sequence,
    Other(&'static str, &'static str),
}

impl Column {
    pub fn name(&self) -> &'static str {
        match self {
            Column::Trip => "trip_id",
            Column::Arrival => "arrival_time",
            Column::Departure => "departure_time",
            Column::Stop => "stop_id",
            Column::Sequence => "stop_sequence",
            Column::Other(name, _) => name,
        }
    }

    fn of(&self, row: &Row) -> String {
        match self {
            Column::Trip => row.trip.clone(),
            Column::Arrival => row.arrival.clone(),
            Column::Departure => row.departure.clone(),
            Column::Stop => row.stop.clone(),
            Column::Sequence => row.sequence.clone(),
            Column::Other(_, value) => value.to_string(),
        }
    }
}

pub const FIVE: [Column; 5] = [Column::Trip, Column::Arrival, Column::Departure, Column::Stop, Column::Sequence];

#[derive(Clone, Debug)]
pub struct Feed {
    pub columns: Vec<Column>,
    pub rows: Vec<Row>,
    pub stops: Vec<(String, String)>,
    pub trips: Vec<(String, String)>,
    pub end: &'static str,
    /// Whether the last line has an end too.
    pub closed: bool,
    /// How many of a hundred fields are quoted without need.
    pub quoted: usize,
}

/// A field as a line has it: in quotes where it must be, or where it may.
fn field(text: &str, rng: &mut Rng, quoted: usize) -> String {
    if text.contains([',', '"']) || rng.chance(quoted) {
        format!("\"{}\"", text.replace('"', "\"\""))
    } else {
        text.to_string()
    }
}

impl Feed {
    fn lines(&self, lines: impl Iterator<Item = String>) -> Vec<u8> {
        let mut text = String::new();
        for line in lines {
            text += &line;
            text += self.end;
        }
        if !self.closed {
            text.truncate(text.len().saturating_sub(self.end.len()));
        }
        text.into_bytes()
    }

    /// The three texts, with a target of so many records.
    pub fn case(&self, rng: &mut Rng, room: usize) -> Case {
        let mut line = |fields: &[String], more: &str| -> String {
            let fields: Vec<String> = fields.iter().map(|text| field(text, rng, self.quoted)).collect();
            fields.join(",") + more
        };
        let header = line(&self.columns.iter().map(|column| column.name().to_string()).collect::<Vec<_>>(), "");
        let mut times = vec![header];
        for row in &self.rows {
            times.push(line(&self.columns.iter().map(|column| column.of(row)).collect::<Vec<_>>(), &row.more));
        }
        let mut list = |entries: &[(String, String)]| -> Vec<String> { entries.iter().map(|(id, number)| line(&[id.clone(), number.clone()], "")).collect() };
        let (stops, trips) = (list(&self.stops), list(&self.trips));
        Case::new(&self.lines(times.into_iter()), &self.lines(stops.into_iter()), &self.lines(trips.into_iter()), room)
    }
}

impl Feed {
    /// The hops of a feed whose timed stops all have one but the first of each trip.
    pub fn hops(&self) -> usize {
        self.rows.iter().filter(|row| !row.arrival.is_empty()).count() - self.trips.len()
    }
}

pub fn clock(seconds: u32) -> String {
    format!("{:02}:{:02}:{:02}", seconds / 3_600, seconds / 60 % 60, seconds % 60)
}

/// A feed of a size: so many lines, stops (ten at least) and trips, in the order of the trips or in any other. Every seventh
/// stop of a trip is untimed; no two timed stops behind one another are the same, so that each but a trip's first has its hop.
pub fn city(lines: usize, stops: usize, trips: usize, shuffled: bool) -> Feed {
    let mut rng = Rng::new(3, (lines + stops + trips) as u64);
    let mut rows = Vec::with_capacity(lines);
    for trip in 0..trips {
        let count = lines / trips + usize::from(trip < lines % trips);
        let (mut at, mut second) = (rng.below(stops), rng.range(4 * 3_600, 24 * 3_600) as u32);
        for sequence in 1..=count {
            let timed = sequence % 7 != 4 || sequence == count;
            let [arrival, departure] = [second, second + rng.below(30) as u32].map(|second| if timed { clock(second) } else { String::new() });
            rows.push(Row { trip: format!("T{trip:06}"), arrival, departure, stop: format!("stop-{at:05}"), sequence: sequence.to_string(), more: String::new() });
            at = (at + 1 + rng.below(stops / 3)) % stops;
            second += 60 + rng.below(120) as u32;
        }
    }
    if shuffled {
        for i in 1..rows.len() {
            rows.swap(i, rng.below(i + 1));
        }
    }
    Feed {
        columns: FIVE.to_vec(),
        rows,
        stops: (0..stops).map(|stop| (format!("stop-{stop:05}"), stop.to_string())).collect(),
        trips: (0..trips).map(|trip| (format!("T{trip:06}"), (trip + 1).to_string())).collect(),
        end: "\n",
        closed: true,
        quoted: 0,
    }
}
