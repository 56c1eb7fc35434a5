//! The answer in words.

use outside::records::{Held, Part, Query, Walk, NONE};

use crate::oracle::Found;
use crate::quantity::{tell_duration, tell_metres, tell_time};
use crate::tables::Tables;
use crate::town::{Ask, Place, Street, Town};

/// A town, its tables, what was asked and what was found.
pub struct Story<'a> {
    pub town: &'a Town,
    pub tables: &'a Tables,
    pub ask: &'a Ask,
    pub query: Query,
    pub found: &'a Found,
}

/// A stretch of a street, in decimetres from its first corner.
pub type Stretch = (u32, u32);

impl Story<'_> {
    /// The latest start at a distance, in whole seconds from midnight: where
    /// the exact one lies between two seconds, the earlier of them.
    pub fn leave(&self, distance: u32) -> i64 {
        let seconds = distance.div_ceil(self.query.speed.max(1));
        i64::from(self.query.arrival) - i64::from(seconds)
    }

    /// The covered stretches of each street, in order, those that touch one
    /// another as one.
    pub fn covered(&self) -> Vec<Vec<Stretch>> {
        let mut covered = vec![Vec::new(); self.town.streets.len()];
        for part in &self.found.parts {
            let lane = self.tables.lane[part.record as usize];
            let length = self.town.streets[lane.street].length;
            let Part { start, end, .. } = *part;
            covered[lane.street].push(match lane.back {
                false => (start, end),
                true => (length - end, length - start),
            });
        }
        covered.into_iter().map(joined).collect()
    }

    /// Where the place lies, in words.
    pub fn place(&self) -> String {
        match &self.ask.place {
            Place::On { from, to, at, .. } => {
                format!("on {from} - {to}, {} m from {from}", tell_metres(*at))
            }
            Place::Corner(name) => format!("at {name}"),
        }
    }

    /// The whole answer.
    pub fn told(&self, brief: bool) -> String {
        let q = self.query;
        let mut text = format!(
            "To be {}, by {}, on the way for at most {}, walking {} m a second.\n",
            self.place(),
            tell_time(i64::from(q.arrival)),
            tell_duration(q.duration),
            tell_metres(q.speed)
        );
        if !brief {
            text += &self.corners();
            text += &self.streets();
            text += &self.held();
        }
        text + &self.totals()
    }

    fn corners(&self) -> String {
        let rows = self.found.settled.iter().map(|settled| {
            let name = self.corner(settled.vertex);
            (name.to_string(), tell_time(self.leave(settled.distance)))
        });
        let text = columns("corner", "leave at the latest by", rows.collect());
        let mut settled = vec![false; self.tables.corner.len()];
        for record in &self.found.settled {
            settled[record.vertex as usize] = true;
        }
        let late = (0..settled.len() as u32).filter(|&v| !settled[v as usize]);
        let names: Vec<&str> = late.map(|v| self.corner(v)).collect();
        text + &left_out("Too far for the time", &names, "corners")
    }

    fn streets(&self) -> String {
        let covered = self.covered();
        let both = self.town.streets.iter().zip(&covered);
        let (mut rows, mut bare) = (Vec::new(), Vec::new());
        for (street, stretches) in both {
            let name = self.town.street_name(street);
            match stretches.is_empty() {
                true => bare.push(name),
                false => {
                    let said = told_stretches(street, stretches) + &self.lights(street);
                    rows.push((name, said));
                }
            }
        }
        let names: Vec<&str> = bare.iter().map(String::as_str).collect();
        columns("street", "in time, in metres from its first corner", rows)
            + &left_out("Nowhere in time", &names, "streets")
    }

    /// The waits of a street, each with the corner before which it is.
    fn lights(&self, street: &Street) -> String {
        let ends = [(street.wait, street.to), (street.back, street.from)];
        let waits = ends.iter().filter(|(wait, _)| *wait > 0);
        let wait = |(wait, corner): &(u32, usize)| {
            let name = self.town.name(*corner);
            format!("; a wait of {} before {name}", tell_duration(*wait))
        };
        waits.map(wait).collect()
    }

    fn held(&self) -> String {
        if self.found.held.is_empty() {
            return String::new();
        }
        let rows = self.found.held.iter().map(|held| {
            let name = self.corner(held.vertex);
            (name.to_string(), self.told_held(held))
        });
        columns("still held", "why", rows.collect())
    }

    fn told_held(&self, held: &Held) -> String {
        let known = match (held.state, held.distance) {
            (1, _) => "settled".to_string(),
            (_, NONE) => "met, no way in time known".to_string(),
            (_, distance) => format!(
                "met, a start at {} is known",
                tell_time(self.leave(distance))
            ),
        };
        let ways = match held.remaining {
            0 => "every street and ride from it leads to a settled corner".to_string(),
            1 => "1 street or ride from it leads to no settled corner".to_string(),
            many => format!("{many} streets and rides from it lead to no settled corner"),
        };
        format!("{known}; {ways}")
    }

    fn totals(&self) -> String {
        let covered = self.covered();
        let metres: u64 = covered
            .iter()
            .flatten()
            .map(|stretch| u64::from(stretch.1 - stretch.0))
            .sum();
        let streets = covered
            .iter()
            .filter(|stretches| !stretches.is_empty())
            .count();
        let end = match self.found.finished {
            true => "nothing else is within the time",
            false => "the search stopped before its end",
        };
        format!(
            "\n{} of {} corners in time; {:.1} km of street, on {streets} of {} streets; {} held; {end}.\n",
            self.found.settled.len(),
            self.tables.corner.len(),
            metres as f64 / 10_000.0,
            covered.len(),
            self.found.held.len()
        )
    }

    pub fn corner(&self, vertex: u32) -> &str {
        self.town.name(self.tables.corner[vertex as usize])
    }

    /// The walk on which the place lies.
    pub fn walk(&self) -> Walk {
        self.tables.network.walks[self.query.record as usize]
    }
}

fn joined(mut stretches: Vec<Stretch>) -> Vec<Stretch> {
    stretches.sort_unstable();
    let mut all: Vec<Stretch> = Vec::new();
    for (start, end) in stretches {
        match all.last_mut() {
            Some(last) if start <= last.1 => last.1 = last.1.max(end),
            _ => all.push((start, end)),
        }
    }
    all
}

fn told_stretches(street: &Street, stretches: &[Stretch]) -> String {
    let length = tell_metres(street.length);
    if stretches == [(0, street.length)] {
        return format!("all {length} m");
    }
    let said: Vec<String> = stretches
        .iter()
        .map(|(start, end)| format!("{} to {}", tell_metres(*start), tell_metres(*end)))
        .collect();
    format!("{} of {length} m", said.join(" and "))
}

/// Two columns under their names, the first as wide as it has to be.
fn columns(left: &str, right: &str, rows: Vec<(String, String)>) -> String {
    let names = rows.iter().map(|row| row.0.chars().count());
    let width = names.chain([left.len()]).max().unwrap_or(0);
    let mut text = format!("\n{left:width$}  {right}\n");
    for (name, said) in rows {
        text += &format!("{name:width$}  {said}\n");
    }
    text
}

/// Names where they are few, their number where they are many.
fn left_out(what: &str, names: &[&str], kind: &str) -> String {
    const FEW: usize = 12;
    match names.len() {
        0 => String::new(),
        1..=FEW => format!("{what}: {}\n", names.join(", ")),
        many => format!("{what}: {many} {kind}\n"),
    }
}

#[cfg(test)]
mod tests {
    use super::joined;

    #[test]
    fn stretches_that_touch_are_one() {
        assert_eq!(joined(vec![(5, 9), (0, 5), (2, 3)]), vec![(0, 9)]);
        assert_eq!(joined(vec![(6, 9), (0, 5)]), vec![(0, 5), (6, 9)]);
        assert_eq!(joined(Vec::new()), Vec::new());
    }
}
