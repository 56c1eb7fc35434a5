//! From names to numbers: the three tables of a town, and the way back.

use outside::network::{Network, Plan};
use outside::records::{Query, Tables as Lent, HOP};

use crate::town::{Ask, Place, Street, Town};

/// A walk record: which street it is, and whether it leads the other way.
#[derive(Clone, Copy, Debug)]
pub struct Lane {
    pub street: usize,
    pub back: bool,
}

pub struct Tables {
    pub network: Network,
    /// The corner of each vertex.
    pub corner: Vec<usize>,
    /// The vertex of each corner.
    pub vertex: Vec<usize>,
    /// The lane of each walk record.
    pub lane: Vec<Lane>,
    /// The ride of each hop record.
    pub ride: Vec<usize>,
}

/// The bytes of the three tables.
pub struct Bytes {
    pub vertices: Vec<u8>,
    pub walks: Vec<u8>,
    pub hops: Vec<u8>,
}

impl Bytes {
    pub fn lent(&self) -> Lent<'_> {
        Lent {
            vertices: &self.vertices,
            walks: &self.walks,
            hops: &self.hops,
            hop_size: HOP as u32,
        }
    }
}

impl Tables {
    pub fn of(town: &Town) -> Self {
        let corner = numbered(town);
        let mut vertex = vec![0; corner.len()];
        for (number, &corner) in corner.iter().enumerate() {
            vertex[corner] = number;
        }
        let mut plan = Plan {
            vertices: corner.len(),
            ..Plan::default()
        };
        let mut lanes = Vec::new();
        for (number, street) in town.streets.iter().enumerate() {
            let (from, to) = (vertex[street.from], vertex[street.to]);
            let first = lanes.len();
            let lane = |back| Lane {
                street: number,
                back,
            };
            lanes.push(lane(false));
            if street.oneway {
                plan.one_way(from, to, street.length);
            } else {
                plan.road(from, to, street.length);
                lanes.push(lane(true));
            }
            for (walk, lane) in plan.walks.iter_mut().zip(&lanes).skip(first) {
                walk.wait = street.lights(lane.back);
            }
        }
        for ride in &town.rides {
            plan.hop(
                vertex[ride.from],
                vertex[ride.to],
                ride.departure,
                ride.arrival,
            );
        }
        Tables {
            lane: plan.walk_order().iter().map(|&walk| lanes[walk]).collect(),
            ride: plan.hop_order(),
            network: plan.build(),
            corner,
            vertex,
        }
    }

    pub fn bytes(&self) -> Bytes {
        let Network {
            vertices,
            walks,
            hops,
        } = &self.network;
        Bytes {
            vertices: vertices.iter().flat_map(|v| v.bytes()).collect(),
            walks: walks.iter().flat_map(|w| w.bytes()).collect(),
            hops: hops.iter().flat_map(|h| h.bytes()).collect(),
        }
    }

    /// What is asked, in numbers.
    pub fn query(&self, town: &Town, ask: &Ask) -> Result<Query, String> {
        let found = match &ask.place {
            Place::On { from, to, of, at } => self.on_street(town, (from, to), *of, *at),
            Place::Corner(name) => self.at_corner(town, name),
        };
        let (record, offset) = found.map_err(|message| town.told_of(ask, &message))?;
        Ok(Query {
            record,
            offset,
            arrival: ask.arrival,
            duration: ask.duration,
            speed: ask.speed,
        })
    }

    /// The record that leads along a street from the corner named first.
    fn on_street(
        &self,
        town: &Town,
        (from, to): (&str, &str),
        of: Option<u32>,
        at: u32,
    ) -> Result<(u32, u32), String> {
        let ends = (town.find(from)?, town.find(to)?);
        let along = |street: &Street, back: bool| match back {
            false => (street.from, street.to) == ends,
            true => (street.to, street.from) == ends,
        };
        let fits = |lane: &Lane| {
            let street = &town.streets[lane.street];
            along(street, lane.back) && of.unwrap_or(street.length) == street.length
        };
        let lanes = self.lane.iter().enumerate().filter(|(_, lane)| fits(lane));
        let found: Vec<(usize, &Lane)> = lanes.collect();
        match found.as_slice() {
            [(record, _)] => Ok((*record as u32, at)),
            [] => Err(self.missing(town, (from, to), &|street| along(street, true))),
            more => {
                let lines: Vec<String> = more
                    .iter()
                    .map(|(_, lane)| town.streets[lane.street].source.line.to_string())
                    .collect();
                Err(format!(
                    "several streets lead from {from} to {to} (lines {}): say which by its length, as in 'on {from} {to} of 200 m at 50 m'",
                    lines.join(", ")
                ))
            }
        }
    }

    fn missing(
        &self,
        town: &Town,
        (from, to): (&str, &str),
        other_way: &dyn Fn(&Street) -> bool,
    ) -> String {
        match town
            .streets
            .iter()
            .any(|street| street.oneway && other_way(street))
        {
            true => format!("the street goes one way, from {to} to {from}: write 'on {to} {from}'"),
            false => format!("no such street leads from {from} to {to}"),
        }
    }

    /// A corner is a place too: where a street begins, or where one ends.
    fn at_corner(&self, town: &Town, name: &str) -> Result<(u32, u32), String> {
        let vertex = self.vertex[town.find(name)?] as u32;
        let walks = &self.network.walks;
        if let Some(record) = walks.iter().position(|walk| walk.from == vertex) {
            return Ok((record as u32, 0));
        }
        match walks.iter().position(|walk| walk.to == vertex) {
            Some(record) => Ok((record as u32, walks[record].length)),
            None => Err(format!(
                "no street touches {name}, and a place lies on a street"
            )),
        }
    }
}

/// The corners in the order of their numbers. Each corner is followed by those
/// one street away, then by those two streets away, so that near corners get
/// near numbers: the check of the tables is fast then.
fn numbered(town: &Town) -> Vec<usize> {
    let count = town.corners.len();
    let mut near: Vec<Vec<usize>> = vec![Vec::new(); count];
    for street in &town.streets {
        near[street.from].push(street.to);
        near[street.to].push(street.from);
    }
    let mut seen = vec![false; count];
    let mut order = Vec::with_capacity(count);
    for start in 0..count {
        let mut next = order.len();
        if !std::mem::replace(&mut seen[start], true) {
            order.push(start);
        }
        while next < order.len() {
            for &corner in &near[order[next]] {
                if !std::mem::replace(&mut seen[corner], true) {
                    order.push(corner);
                }
            }
            next += 1;
        }
    }
    order
}

#[cfg(test)]
mod tests {
    use super::*;
    use crate::text::parse;

    fn town(text: &str) -> Town {
        parse("t", text).unwrap_or_default()
    }

    #[test]
    fn the_tables_are_those_of_the_example() {
        // examples/town.job by names; Mill is vertex 0, Church 1, Station 2.
        let town = town(
            "street Mill Church 200 m\nstreet Station Mill 400 m oneway\nride Station Church 9:55 9:58\n",
        );
        let tables = Tables::of(&town);
        let job = outside::commands::jobtext::encode(include_str!("../../../examples/town.job"));
        let job = job.unwrap_or_default();
        let record = |n: usize, len: usize| &job[20 * n + 4..20 * n + 4 + len];
        let bytes = tables.bytes();
        for v in 0..3 {
            assert_eq!(
                &bytes.vertices[12 * v..12 * v + 12],
                record(v, 12),
                "vertex {v}"
            );
            assert_eq!(
                &bytes.walks[16 * v..16 * v + 16],
                record(3 + v, 16),
                "walk {v}"
            );
        }
        assert_eq!(bytes.hops, record(6, 16));
    }

    #[test]
    fn places_are_found_by_names() {
        let town = town(
            "street A B 10 m\nstreet A B 20 m\nstreet B C 5 m oneway\nride C D 1:00 2:00\n\
             ask on B A of 20 m at 3 m, by 1:00, within 1 min, at 1 m/s\n\
             ask on A B at 3 m, by 1:00, within 1 min, at 1 m/s\n\
             ask on C B at 3 m, by 1:00, within 1 min, at 1 m/s\n\
             ask at C, by 1:00, within 1 min, at 1 m/s\n\
             ask at D, by 1:00, within 1 min, at 1 m/s\n\
             ask at E, by 1:00, within 1 min, at 1 m/s\n",
        );
        let tables = Tables::of(&town);
        let asked = |i: usize| tables.query(&town, &town.asks[i]);
        let said = |i: usize| asked(i).err().unwrap_or_default();
        let first = asked(0).map(|q| (tables.network.walks[q.record as usize], q.offset));
        let Ok((walk, 30)) = first else {
            panic!("{first:?}")
        };
        assert_eq!((walk.from, walk.to, walk.length), (1, 0, 200));
        assert!(said(1).contains("line 6: several streets lead from A to B (lines 1, 2)"));
        assert!(said(2).contains("goes one way, from B to C"));
        assert_eq!(asked(3).map(|q| q.offset), Ok(50));
        assert!(said(4).contains("no street touches D"));
        assert!(said(5).contains("no street and no ride has a corner 'E'"));
    }

    #[test]
    fn each_way_has_its_own_wait() {
        let town = town("street A B 10 m wait 30 s back 2 min\nstreet C A 5 m wait 7 s oneway\n");
        let walks = Tables::of(&town).network.walks;
        let rows: Vec<[u32; 4]> = walks
            .iter()
            .map(|w| [w.from, w.to, w.length, w.wait])
            .collect();
        assert_eq!(rows, [[1, 0, 100, 120], [2, 0, 50, 7], [0, 1, 100, 30]]);
    }

    #[test]
    fn near_corners_have_near_numbers() {
        let mut text = String::new();
        for v in 0..400 {
            // A grid of 20 by 20, with its streets in no order.
            let v = v * 7 % 400;
            if v % 20 < 19 {
                text += &format!("street {v} {} 1 m\n", v + 1);
            }
            if v < 380 {
                text += &format!("street {v} {} 1 m\n", v + 20);
            }
        }
        let tables = Tables::of(&town(&text));
        let apart = tables
            .network
            .walks
            .iter()
            .map(|w| w.from.abs_diff(w.to))
            .max();
        assert!(apart.is_some_and(|apart| apart <= 60), "{apart:?}");
    }
}
