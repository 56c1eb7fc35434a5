//! The second program in Rust, and the stronger one: it searches arrays that
//! were parsed beforehand, trusts them, and tells the settled list and nothing
//! else. The library and `fast` read the byte tables, judge them in every call
//! and keep the held table.
//!
//! The tables are parsed once, for any number of queries. Between two queries
//! nothing is made ready but what the first has touched:
//!
//! ```text
//! let flat = Flat::parse(case.tables());
//! let mut memory = Memory::default();
//! for query in queries {
//!     let settled: &[Settled] = flat.search(query, &mut memory);
//! }
//! ```

use outside::records::{Hop, Query, Settled, Tables, Vertex, Walk, NONE, VERTEX, WALK};

use crate::heap::Heap;

/// No table has more vertices, so that 16 bits name every one of them.
const VERTICES: usize = 65_536;

/// A walk as its far end sees it, in 8 bytes.
#[derive(Clone, Copy)]
struct Step {
    from: u16,
    wait: u16,
    length: u32,
}

/// A hop so, in 12 bytes.
#[derive(Clone, Copy)]
struct Ride {
    from: u16,
    departure: i32,
    arrival: i32,
}

/// Where the records begin that arrive at a vertex.
#[derive(Clone, Copy)]
struct First {
    step: u32,
    ride: u32,
}

/// Tables that were parsed: rows of records, one behind the other, and where
/// each row begins.
pub struct Flat {
    firsts: Vec<First>,
    steps: Vec<Step>,
    rides: Vec<Ride>,
    /// For the road on which the place lies.
    roads: Vec<Walk>,
}

/// What a search works in, for one query after the other.
pub struct Memory {
    /// None between two queries.
    distances: Box<[u32; VERTICES]>,
    /// Distance and number in one, the least first. An old entry of a vertex
    /// stays and is passed over when it comes.
    heap: Heap,
    settled: Vec<Settled>,
}

impl Default for Memory {
    fn default() -> Self {
        let distances: Box<[u32]> = vec![NONE; VERTICES].into();
        Memory {
            distances: distances.try_into().expect("as many as were asked for"),
            heap: Heap::default(),
            settled: Vec::new(),
        }
    }
}

impl Memory {
    /// Reads all of it through: before other calls the lent buffers are filled,
    /// and so are they where the caches find them.
    pub fn touch(&self) -> u64 {
        let settled = self.settled.iter().map(|settled| settled.distance);
        let all = self.distances.iter().copied().chain(settled);
        all.fold(0, |sum, distance| sum ^ u64::from(distance))
    }

    /// A vertex takes the lesser distance.
    #[inline(always)]
    fn offer(&mut self, vertex: u16, distance: u32) {
        let known = &mut self.distances[vertex as usize];
        if distance < *known {
            *known = distance;
            self.heap
                .push(u64::from(distance) << 16 | u64::from(vertex));
        }
    }

    /// The nearest vertex that is not settled yet, by number among equals.
    #[inline(always)]
    fn nearest(&mut self) -> Option<(u16, u32)> {
        while let Some(key) = self.heap.pop() {
            let (vertex, distance) = (key as u16, (key >> 16) as u32);
            if self.distances[vertex as usize] == distance {
                return Some((vertex, distance));
            }
        }
        None
    }
}

impl Flat {
    /// Tables in good order: nothing is judged.
    pub fn parse(tables: Tables) -> Self {
        let vertices = tables.vertices.len() / VERTEX;
        let hops = tables.hops.len() / tables.hop_size as usize;
        let roads: Vec<Walk> = (0..tables.walks.len() / WALK)
            .map(|record| Walk::read(tables.walks, record))
            .collect();
        let first = |vertex| {
            let row = Vertex::read(tables.vertices, vertex);
            First {
                step: row.first_walk,
                ride: row.first_hop,
            }
        };
        let end = First {
            step: roads.len() as u32,
            ride: hops as u32,
        };
        let step = |walk: &Walk| Step {
            from: walk.from as u16,
            wait: walk.wait as u16,
            length: walk.length,
        };
        let ride = |record| {
            let hop = Hop::read(tables.hops, tables.hop_size as usize, record);
            Ride {
                from: hop.from as u16,
                departure: hop.departure,
                arrival: hop.arrival,
            }
        };
        Flat {
            firsts: (0..vertices).map(first).chain([end]).collect(),
            steps: roads.iter().map(step).collect(),
            rides: (0..hops).map(ride).collect(),
            roads,
        }
    }

    /// What a run without a step limit settles, in its order.
    pub fn search<'m>(&self, query: Query, memory: &'m mut Memory) -> &'m [Settled] {
        memory.settled.clear();
        let window = query.duration * query.speed;
        for (vertex, distance) in self.seeds(query).into_iter().flatten() {
            if distance <= window {
                memory.offer(vertex, distance);
            }
        }
        while let Some((vertex, distance)) = memory.nearest() {
            memory.settled.push(Settled {
                vertex: u32::from(vertex),
                distance,
            });
            let [first, next] = [0, 1].map(|more| self.firsts[vertex as usize + more]);
            for step in &self.steps[first.step as usize..next.step as usize] {
                let offer = distance + step.length + u32::from(step.wait) * query.speed;
                if offer <= window {
                    memory.offer(step.from, offer);
                }
            }
            // Whole seconds: a ride that arrives within a second is too late.
            let latest = query.arrival - distance.div_ceil(query.speed) as i32;
            let earliest = query.arrival - query.duration as i32;
            for ride in &self.rides[first.ride as usize..next.ride as usize] {
                if ride.arrival <= latest && ride.departure >= earliest {
                    let offer = (query.arrival - ride.departure) as u32 * query.speed;
                    memory.offer(ride.from, offer);
                }
            }
        }
        // All that were offered a distance within D are settled by now.
        for settled in &memory.settled {
            memory.distances[settled.vertex as usize] = NONE;
        }
        &memory.settled
    }

    /// The ends of the road on which the place lies.
    fn seeds(&self, query: Query) -> [Option<(u16, u32)>; 2] {
        let road = self.roads[query.record as usize];
        let (ahead, behind) = (query.offset, road.length - query.offset);
        let wait = |here: bool, seconds: u32| if here { seconds * query.speed } else { 0 };
        let own = wait(behind == 0, road.wait);
        let twin = self.roads.get(road.twin as usize);
        let back = twin.map_or(0, |twin| wait(ahead == 0, twin.wait));
        let far = twin.is_some() || behind == 0;
        [
            Some((road.from as u16, ahead + own)),
            far.then_some((road.to as u16, behind + back)),
        ]
    }

    /// Reads all arrays through, so that a search finds them where the calls
    /// before it have left the byte tables of theirs.
    pub fn touch(&self) -> u64 {
        let firsts = self
            .firsts
            .iter()
            .map(|first| u64::from(first.step ^ first.ride));
        let steps = self.steps.iter().map(|step| u64::from(step.length));
        let rides = self.rides.iter().map(|ride| ride.arrival as u64);
        firsts
            .chain(steps)
            .chain(rides)
            .fold(0, |sum, word| sum ^ word)
    }
}

#[cfg(test)]
mod tests {
    use outside::cases::small;
    use outside::mutant::Sound;
    use outside::network::grid_scene;
    use outside::outcome::Case;
    use outside::records::{Answer, SETTLED};
    use outside::rng::Rng;

    use super::*;

    /// The list as bytes, and the one that the byte-reading program writes.
    fn lists(case: &Case, memory: &mut Memory) -> [Vec<u8>; 2] {
        let after = case.fast(Sound);
        let settled = Answer::read(&after.answer).settled as usize;
        let flat = Flat::parse(case.tables());
        let own = flat.search(case.query, memory);
        [
            own.iter().flat_map(Settled::bytes).collect(),
            after.settled[..settled * SETTLED].to_vec(),
        ]
    }

    /// Waits, rides at one moment, places at the ends of a road, one way or
    /// two: one query after the other in one memory.
    #[test]
    fn lists_are_those_of_the_other_program() {
        let (mut memory, mut listed) = (Memory::default(), 0);
        for index in 0..3_000 {
            let mut rng = Rng::new(9, index);
            let scene = match index % 10 {
                0 => small::town(&mut rng),
                _ => small::scene(&mut rng),
            };
            if scene.network.walks.is_empty() {
                continue;
            }
            let [own, right] = lists(&scene.run_case(u32::MAX), &mut memory);
            assert_eq!(own, right, "{index}");
            listed += usize::from(!own.is_empty());
        }
        assert!(listed > 2_000, "{listed}");
    }

    #[test]
    fn trips_are_passed_over() {
        let mut case = grid_scene(20, 400, 3_000, 1_800).run_case(u32::MAX);
        let memory = &mut Memory::default();
        let narrow = lists(&case, memory);
        outside::cases::trips::widen(&mut case, || 7);
        assert_eq!(lists(&case, memory), narrow);
        assert_eq!(narrow[0], narrow[1]);
    }
}
