//! Networks: from plain lists of roads and rides to tables in order.

use crate::outcome::{Call, Case};
use crate::records::{
    Asked, Hop, Listed, Query, Settled, Vertex, Walk, ANSWER, HELD, HOP, NONE, PART, PARTS_ANSWER,
    SETTLED,
};
use crate::rng::Rng;

/// The records of the three tables.
#[derive(Clone, Debug, Default)]
pub struct Network {
    pub vertices: Vec<Vertex>,
    pub walks: Vec<Walk>,
    pub hops: Vec<Hop>,
}

/// A network with a query on it.
#[derive(Clone, Debug)]
pub struct Scene {
    pub network: Network,
    pub query: Query,
}

/// Collects walks and hops in any order; twins name places in this list.
#[derive(Clone, Debug, Default)]
pub struct Plan {
    pub vertices: usize,
    pub walks: Vec<Walk>,
    pub hops: Vec<Hop>,
}

impl Plan {
    pub fn one_way(&mut self, from: usize, to: usize, length: u32) {
        self.walks.push(Walk {
            from: from as u32,
            to: to as u32,
            length,
            wait: 0,
            twin: NONE,
        });
    }

    /// A road for both ways: two records that name each other.
    pub fn road(&mut self, from: usize, to: usize, length: u32) {
        let first = self.walks.len() as u32;
        self.one_way(from, to, length);
        self.one_way(to, from, length);
        self.walks[first as usize].twin = first + 1;
        self.walks[first as usize + 1].twin = first;
    }

    pub fn hop(&mut self, from: usize, to: usize, departure: i32, arrival: i32) {
        self.hops.push(Hop {
            from: from as u32,
            to: to as u32,
            departure,
            arrival,
        });
    }

    /// Which walk of this list stands at each place of the table.
    pub fn walk_order(&self) -> Vec<usize> {
        let mut order: Vec<usize> = (0..self.walks.len()).collect();
        order.sort_by_key(|&i| self.walks[i].to);
        order
    }

    /// Which hop of this list stands at each place of the table.
    pub fn hop_order(&self) -> Vec<usize> {
        let mut order: Vec<usize> = (0..self.hops.len()).collect();
        order.sort_by_key(|&i| self.hops[i].to);
        order
    }

    /// Sorts both lists by "to", moves the twins along, counts for the
    /// vertices. A departing count above 65,535 is cut to its field.
    pub fn build(&self) -> Network {
        let order = self.walk_order();
        let mut now = vec![0; order.len()];
        for (new, &old) in order.iter().enumerate() {
            now[old] = new as u32;
        }
        let moved = |&old: &usize| {
            let walk = self.walks[old];
            let twin = now.get(walk.twin as usize).copied().unwrap_or(NONE);
            Walk { twin, ..walk }
        };
        let walks: Vec<Walk> = order.iter().map(moved).collect();
        let hops: Vec<Hop> = self.hop_order().iter().map(|&i| self.hops[i]).collect();
        let mut network = Network {
            vertices: Vec::new(),
            walks,
            hops,
        };
        network.count(self.vertices);
        network
    }
}

impl Network {
    /// Makes the vertex table that belongs to the walks and hops.
    pub fn count(&mut self, vertices: usize) {
        let mut departing = vec![0u32; vertices];
        let walks = self.walks.iter().map(|w| w.from);
        for from in walks.chain(self.hops.iter().map(|h| h.from)) {
            departing[from as usize] += 1;
        }
        let row = |v: usize| Vertex {
            first_walk: self.walks.partition_point(|w| (w.to as usize) < v) as u32,
            first_hop: self.hops.partition_point(|h| (h.to as usize) < v) as u32,
            departing: departing[v] as u16,
            zero: 0,
        };
        self.vertices = (0..vertices).map(row).collect();
    }

    /// Two walks change places, and whoever names them as a twin follows.
    pub fn swap_walks(&mut self, a: usize, b: usize) {
        self.walks.swap(a, b);
        for walk in &mut self.walks {
            if walk.twin == a as u32 {
                walk.twin = b as u32;
            } else if walk.twin == b as u32 {
                walk.twin = a as u32;
            }
        }
    }

    /// A check of these tables: no query, nothing lent.
    pub fn check_case(&self) -> Case {
        Case {
            call: Call::Check,
            null: false,
            vertices: self.vertices.iter().flat_map(|v| v.bytes()).collect(),
            walks: self.walks.iter().flat_map(|w| w.bytes()).collect(),
            hops: self.hops.iter().flat_map(|h| h.bytes()).collect(),
            hop_size: HOP as u32,
            query: Query {
                record: 0,
                offset: 0,
                arrival: 0,
                duration: 1,
                speed: 1,
            },
            limit: 0,
            queries: Vec::new(),
            gap: 0,
            arrivals: 0,
            patients: Vec::new(),
            held: Vec::new(),
            settled: Vec::new(),
            list: Vec::new(),
            parts: Vec::new(),
            answer: Vec::new(),
            parts_answer: Vec::new(),
            target: Vec::new(),
            report: Vec::new(),
        }
    }
}

impl Scene {
    /// A run with room for everything, in buffers that hold zeros.
    pub fn run_case(&self, limit: u32) -> Case {
        let vertices = self.network.vertices.len();
        Case {
            call: Call::Run,
            query: self.query,
            limit,
            held: vec![0; vertices * HELD],
            settled: vec![0; vertices * SETTLED],
            answer: vec![0; ANSWER],
            ..self.network.check_case()
        }
    }

    /// The parts of a list, with room for all that a run's own list gives.
    pub fn parts_case(&self, list: &[Settled]) -> Case {
        Case {
            call: Call::Parts,
            query: self.query,
            list: list.iter().flat_map(|entry| entry.bytes()).collect(),
            parts: vec![0; (self.network.walks.len() + 2) * PART],
            parts_answer: vec![0; PARTS_ANSWER],
            ..self.network.check_case()
        }
    }

    /// The judgement of a bought list.
    pub fn judge_case(&self, list: &[Listed]) -> Case {
        Case {
            call: Call::Judge,
            query: self.query,
            list: list.iter().flat_map(|entry| entry.bytes()).collect(),
            ..self.network.check_case()
        }
    }

    /// Many queries, with room for everything in each share.
    pub fn runs_case(&self, asked: &[Asked]) -> Case {
        let vertices = self.network.vertices.len();
        Case {
            call: Call::Runs,
            queries: asked.iter().flat_map(|asked| asked.bytes()).collect(),
            held: vec![0; vertices * HELD],
            settled: vec![0; asked.len() * vertices * SETTLED],
            answer: vec![0; asked.len() * ANSWER],
            ..self.network.check_case()
        }
    }

    /// An evening with a count for each vertex, with room for everything.
    pub fn patients_case(&self, gap: u32, arrivals: u32, patients: &[u32]) -> Case {
        let figures = self.network.vertices.len() + arrivals as usize + 1;
        Case {
            call: Call::Patients,
            gap,
            arrivals,
            patients: patients.iter().flat_map(|n| n.to_be_bytes()).collect(),
            report: vec![0; 4 * figures],
            ..self.run_case(u32::MAX)
        }
    }

    /// A run and the parts of its own list, with room for everything.
    pub fn pair_case(&self, limit: u32) -> Case {
        let parts = self.parts_case(&[]);
        Case {
            call: Call::Pair,
            parts: parts.parts,
            parts_answer: parts.parts_answer,
            ..self.run_case(limit)
        }
    }
}

/// A grid of streets, every one for both ways, with lengths of 50 to 150 m.
/// Vertices are numbered along the rows; the last row may be cut.
pub fn grid(width: usize, vertices: usize, rng: &mut Rng) -> Plan {
    let mut plan = Plan {
        vertices,
        ..Plan::default()
    };
    for v in 0..vertices {
        if v % width + 1 < width && v + 1 < vertices {
            plan.road(v, v + 1, rng.range(500, 1_500) as u32);
        }
        if v + width < vertices {
            plan.road(v, v + width, rng.range(500, 1_500) as u32);
        }
    }
    plan
}

/// Hops between vertices some way apart, spread over the last hour before
/// `arrival`, one to ten minutes each.
pub fn add_hops(plan: &mut Plan, count: usize, arrival: i32, rng: &mut Rng) {
    while plan.hops.len() < count {
        let (from, to) = (rng.below(plan.vertices), rng.below(plan.vertices));
        let end = arrival - rng.range(0, 3_600) as i32;
        if from != to {
            plan.hop(from, to, end - rng.range(60, 600) as i32, end);
        }
    }
}

/// A grid scene: the place is in the middle of the grid.
pub fn grid_scene(width: usize, vertices: usize, hops: usize, duration: u32) -> Scene {
    let mut rng = Rng::new(7, vertices as u64);
    let mut plan = grid(width, vertices, &mut rng);
    add_hops(&mut plan, hops, 36_000, &mut rng);
    centred(&plan, duration)
}

/// The largest network there is: 65,536 vertices, 262,144 walks and hops.
pub fn full_scene(duration: u32) -> Scene {
    let mut rng = Rng::new(7, 1);
    let mut plan = grid(256, 65_536, &mut rng);
    while plan.walks.len() < 262_144 {
        let from = rng.below(65_536);
        let to = rng.below(65_536);
        if from != to {
            plan.road(from, to, rng.range(1_000, 100_000) as u32);
        }
    }
    add_hops(&mut plan, 262_144, 36_000, &mut rng);
    centred(&plan, duration)
}

fn centred(plan: &Plan, duration: u32) -> Scene {
    let network = plan.build();
    let middle = network.walks.len() / 2;
    let query = Query {
        record: middle as u32,
        offset: network.walks[middle].length / 2,
        arrival: 36_000,
        duration,
        speed: 14,
    };
    Scene { network, query }
}
