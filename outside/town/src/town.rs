//! A town as a person writes it: corners, streets and rides by names, in any
//! order, and what is asked.

use std::collections::HashMap;

/// Where something was written, for messages.
#[derive(Clone, Debug, PartialEq, Eq)]
pub struct Source {
    /// Which of the town's files.
    pub file: usize,
    pub line: usize,
}

#[derive(Clone, Debug)]
pub struct Corner {
    pub name: String,
    /// East and north, in any unit; for pictures alone.
    pub at: Option<(f64, f64)>,
}

#[derive(Clone, Debug)]
pub struct Street {
    pub from: usize,
    pub to: usize,
    /// In decimetres.
    pub length: u32,
    /// Seconds at the lights before `to`.
    pub wait: u32,
    /// Seconds at the lights before `from`, on the way back.
    pub back: u32,
    pub oneway: bool,
    pub source: Source,
}

#[derive(Clone, Debug)]
pub struct Ride {
    pub from: usize,
    pub to: usize,
    pub departure: i32,
    pub arrival: i32,
    pub source: Source,
}

/// The place that is asked about, by names.
#[derive(Clone, Debug, PartialEq, Eq)]
pub enum Place {
    /// On a street, so far from the corner named first; the street's length
    /// where several join the two corners.
    On {
        from: String,
        to: String,
        of: Option<u32>,
        at: u32,
    },
    Corner(String),
}

#[derive(Clone, Debug, PartialEq, Eq)]
pub struct Ask {
    pub place: Place,
    pub arrival: i32,
    pub duration: u32,
    pub speed: u32,
    /// None where it was given beside the town.
    pub source: Option<Source>,
}

#[derive(Clone, Debug, Default)]
pub struct Town {
    pub files: Vec<String>,
    pub corners: Vec<Corner>,
    pub streets: Vec<Street>,
    pub rides: Vec<Ride>,
    pub asks: Vec<Ask>,
    numbers: HashMap<String, usize>,
}

impl Street {
    /// The wait on the way there, or on the way back.
    pub fn lights(&self, back: bool) -> u32 {
        match back {
            false => self.wait,
            true => self.back,
        }
    }

    /// A street that one may not go back has no lights on the way back.
    pub fn judged(self) -> Result<Street, String> {
        match self.oneway && self.back > 0 {
            true => Err("there is a wait on the way back, but the street goes one way".to_string()),
            false => Ok(self),
        }
    }
}

impl Town {
    /// A town of these files, with nothing in it yet.
    pub fn from(files: &[&str]) -> Self {
        Town {
            files: files.iter().map(|file| file.to_string()).collect(),
            ..Town::default()
        }
    }

    /// The corner of this name; it is there from its first mention on.
    pub fn corner(&mut self, name: &str) -> usize {
        if let Some(&number) = self.numbers.get(name) {
            return number;
        }
        let number = self.corners.len();
        self.numbers.insert(name.to_string(), number);
        self.corners.push(Corner {
            name: name.to_string(),
            at: None,
        });
        number
    }

    /// The corner of this name, if the town has it.
    pub fn find(&self, name: &str) -> Result<usize, String> {
        self.numbers
            .get(name)
            .copied()
            .ok_or_else(|| format!("no street and no ride has a corner '{name}'"))
    }

    /// Puts a corner on the map, once.
    pub fn place(&mut self, name: &str, at: (f64, f64)) -> Result<(), String> {
        let number = self.corner(name);
        match self.corners[number].at.replace(at) {
            None => Ok(()),
            Some(_) => Err(format!("corner '{name}' has its place already")),
        }
    }

    pub fn name(&self, corner: usize) -> &str {
        &self.corners[corner].name
    }

    /// A street by its two corners.
    pub fn street_name(&self, street: &Street) -> String {
        let way = if street.oneway { "->" } else { "-" };
        let (from, to) = (self.name(street.from), self.name(street.to));
        format!("{from} {way} {to}")
    }

    pub fn ride_name(&self, ride: &Ride) -> String {
        let (from, to) = (self.name(ride.from), self.name(ride.to));
        format!("{from} -> {to}")
    }

    /// A message that names file and line.
    pub fn told(&self, source: &Source, message: &str) -> String {
        format!(
            "{}: line {}: {message}",
            self.files[source.file], source.line
        )
    }

    /// The same for what is asked, which may stand beside the town.
    pub fn told_of(&self, ask: &Ask, message: &str) -> String {
        match &ask.source {
            Some(source) => self.told(source, message),
            None => format!("what is asked: {message}"),
        }
    }

    /// Every corner has a place on the map.
    pub fn placed(&self) -> bool {
        self.corners.iter().all(|corner| corner.at.is_some())
    }
}
