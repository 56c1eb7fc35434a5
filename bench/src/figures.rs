//! How many vertices are held at most, by duration and by size, beside what
//! the paper says of its search.

use outside::mutant::Mutant;
use outside::network::Plan;
use outside::outcome::Outcome;
use outside::records::{Answer, Held};

use crate::networks::{
    around, even_grid, grid_with_houses, shuffled, spider, timetable, uneven_grid,
};
use crate::page::{grouped, head, row};
use crate::picture::{Kind, Line, Picture};
use crate::program::{agreed, Program};
use crate::room::{least_room, room_without_forgetting, run_in};

/// No duration reaches the border of a grid or the end of a spider's line.
const GRID_MINUTES: &[u32] = &[
    1, 2, 3, 4, 5, 6, 8, 10, 15, 20, 30, 40, 50, 60, 70, 80, 90, 100, 110, 120,
];
/// In five minutes even the longest road is walked.
const UNEVEN_MINUTES: &[u32] = &[5, 10, 20, 30, 40, 50, 60, 70, 80, 90, 100, 110, 120];
const HOUSES_MINUTES: &[u32] = &[5, 10, 20, 30, 40, 50, 60];
/// The longest reaches every vertex.
const TIMETABLE_MINUTES: &[u32] = &[10, 20, 30, 40, 50, 60, 75, 90, 105, 120, 150, 180];
const SPIDER_MINUTES: &[u32] = &[1, 2, 3, 5, 10, 20, 50, 100, 200, 300, 400, 500, 700, 900];

const BLUE: &str = "#1f5fa8";
const BROWN: &str = "#b3530f";

/// What each number is called, in a table and in a file.
const COLUMNS: [&str; 7] = [
    "minutes",
    "settled",
    "met in all",
    "held at most",
    "without forgetting",
    "held at the end",
    "the paper",
];
const FIELDS: [&str; 7] = [
    "minutes",
    "settled",
    "met",
    "held_most",
    "held_most_without_forgetting",
    "held_end",
    "paper",
];

/// What was counted at one duration.
#[derive(Clone, Copy, Debug, PartialEq)]
struct Count {
    minutes: u32,
    settled: usize,
    /// Every vertex met: what a search that lets none go holds at the end.
    met: usize,
    /// The most held after any step, the same of a search that holds on to the
    /// hopeless, and what is held after the last step.
    most: usize,
    before: usize,
    end: usize,
}

/// A network, the vertex where the place is, and the paper's number for it if
/// the paper has one.
struct Network {
    name: &'static str,
    colour: &'static str,
    plan: Plan,
    centre: usize,
    minutes: &'static [u32],
    paper: Option<fn(Count) -> usize>,
}

/// A network's counts.
struct Row {
    network: Network,
    counts: Vec<Count>,
}

/// What `draw` makes: texts with file names, tables with the names of their
/// marks.
pub struct Drawn {
    pub files: Vec<(String, String)>,
    pub tables: Vec<(&'static str, String)>,
}

/// The paper's Lemma 6, by the number of roads from the place to the border.
fn paper_grid(roads: usize) -> usize {
    4 * roads + 4 * (roads - 1)
}

/// The same by size: the paper puts (√(2V - 1) - 1) / 2 in for the roads.
fn paper_grid_by_size(settled: usize) -> usize {
    let roads = ((2.0 * settled as f64 - 1.0).sqrt() - 1.0) / 2.0;
    (8.0 * roads - 4.0).round() as usize
}

/// The middle of a square grid of odd width.
fn middle(plan: Plan) -> (Plan, usize) {
    let middle = plan.vertices / 2;
    (plan, middle)
}

fn networks() -> [Network; 7] {
    let network = |name, colour, (plan, centre), minutes, paper: Option<_>| Network {
        name,
        colour,
        plan,
        centre,
        minutes,
        paper,
    };
    let (grid, centre) = middle(even_grid(255));
    let mixed = shuffled(grid.clone(), centre);
    let uneven = middle(uneven_grid(255));
    let houses = (grid_with_houses(127), 127 * 127 / 2);
    let (few, many) = ((spider(8, 1_000), 0), (spider(32, 1_000), 0));
    let roads: Option<fn(Count) -> usize> = Some(|c| paper_grid(c.minutes as usize));
    let size: Option<fn(Count) -> usize> = Some(|c| paper_grid_by_size(c.settled));
    let [eight, more]: [Option<fn(Count) -> usize>; 2] = [Some(|_| 2 * 8), Some(|_| 2 * 32)];
    [
        network("grid", BLUE, (grid, centre), GRID_MINUTES, roads),
        network("shuffled-grid", BROWN, mixed, GRID_MINUTES, roads),
        network("uneven-grid", BROWN, uneven, UNEVEN_MINUTES, size),
        network("spider-8", BLUE, few, SPIDER_MINUTES, eight),
        network("spider-32", BROWN, many, SPIDER_MINUTES, more),
        network("grid-with-houses", BLUE, houses, HOUSES_MINUTES, None),
        network("timetable", BLUE, timetable(), TIMETABLE_MINUTES, None),
    ]
}

/// Counts at one duration.
fn count<P: Program>(
    library: &P,
    plan: &Plan,
    centre: usize,
    minutes: u32,
) -> Result<Count, String> {
    let scene = around(plan, centre, minutes);
    let most = least_room(library, &scene)?;
    let after = agreed(library, &run_in(&scene, most))?;
    let answer = Answer::read(&after.answer);
    if answer.finished != 1 {
        return Err("the run is not finished".to_string());
    }
    let (settled, end) = (answer.settled as usize, answer.held as usize);
    let before = room_without_forgetting(&scene)?;
    let all = run_in(&scene, before).fast(Mutant::ForgetNever);
    Ok(Count {
        minutes,
        settled,
        met: settled + waiting(&all),
        most,
        before,
        end,
    })
}

/// The held vertices that are not settled.
fn waiting(after: &Outcome) -> usize {
    let held = Answer::read(&after.answer).held as usize;
    let state = |index| Held::read(&after.held, index).state;
    (0..held).filter(|&index| state(index) == 0).count()
}

fn counted<P: Program>(library: &P, network: Network) -> Result<Row, String> {
    let one = |&minutes| {
        let counted = count(library, &network.plan, network.centre, minutes);
        counted.map_err(|error| format!("{}, {minutes} minutes: {error}", network.name))
    };
    let counts = network.minutes.iter().map(one).collect::<Result<_, _>>()?;
    Ok(Row { network, counts })
}

impl Row {
    /// What is counted, in the order of `COLUMNS`; the paper's number is last.
    fn numbers(&self) -> impl Iterator<Item = Vec<usize>> + '_ {
        self.counts.iter().map(|&c| {
            let counted = [
                c.minutes as usize,
                c.settled,
                c.met,
                c.most,
                c.before,
                c.end,
            ];
            let paper = self.network.paper.map(|paper| paper(c));
            counted.into_iter().chain(paper).collect()
        })
    }

    /// The names of the numbers there are.
    fn columns(&self, names: [&'static str; 7]) -> Vec<&'static str> {
        let count = 6 + usize::from(self.network.paper.is_some());
        names[..count].to_vec()
    }

    fn csv(&self) -> String {
        let mut text = self.columns(FIELDS).join(",") + "\n";
        for numbers in self.numbers() {
            let cells: Vec<String> = numbers.iter().map(usize::to_string).collect();
            text += &cells.join(",");
            text.push('\n');
        }
        text
    }

    fn table(&self) -> String {
        let names = self.columns(COLUMNS);
        self.numbers().fold(head(0, &names), |table, numbers| {
            let cells: Vec<String> = numbers.into_iter().map(grouped).collect();
            table + &row(&cells)
        })
    }

    /// A line of the picture: one number of each count over another.
    fn line(&self, what: &str, kind: Kind, across: usize, up: usize) -> Line {
        let point = |n: Vec<usize>| (n[across] as f64, n[up] as f64);
        Line {
            name: format!("{}: {what}", self.network.name),
            colour: self.network.colour,
            kind,
            points: self.numbers().map(point).collect(),
        }
    }
}

/// The lines of some networks: the most held, the paper's number, all met.
fn picture(title: &'static str, across: (&'static str, usize), rows: &[&Row]) -> Picture {
    let mut lines = Vec::new();
    for row in rows {
        lines.push(row.line("met in all", Kind::Hollow, across.1, 2));
        lines.push(row.line("held at most", Kind::Full, across.1, 3));
        lines.push(row.line("the paper", Kind::Formula, across.1, 6));
    }
    Picture {
        title,
        across: across.0,
        up: "vertices",
        lines,
    }
}

/// Counts on every network, each answer held against the Rust program's.
pub fn draw<P: Program>(library: &P) -> Result<Drawn, String> {
    let rows = networks().map(|network| counted(library, network));
    let rows = rows.into_iter().collect::<Result<Vec<Row>, String>>()?;
    let (duration, size) = (("duration in minutes", 0), ("settled vertices", 1));
    let [grid, mixed, uneven, few, many] = [0, 1, 2, 3, 4].map(|index| &rows[index]);
    let pictures = [
        (
            "grid-by-duration",
            picture("Grids, by duration", duration, &[grid, mixed]),
        ),
        (
            "grid-by-size",
            picture("Grids, by size", size, &[grid, uneven]),
        ),
        (
            "spider-by-duration",
            picture("Spiders, by duration", duration, &[few, many]),
        ),
        (
            "spider-by-size",
            picture("Spiders, by size", size, &[few, many]),
        ),
    ];
    let mut files: Vec<(String, String)> = Vec::new();
    files.extend(
        rows.iter()
            .map(|row| (format!("{}.csv", row.network.name), row.csv())),
    );
    files.extend(pictures.map(|(name, picture)| (format!("{name}.svg"), picture.svg())));
    let tables = rows
        .iter()
        .map(|row| (row.network.name, row.table()))
        .collect();
    Ok(Drawn { files, tables })
}

#[cfg(test)]
mod tests {
    use super::*;
    use crate::program::{Rust, RUST};

    /// The grid of the tests, wide enough for seven roads from its middle.
    fn grid() -> (Plan, usize) {
        middle(even_grid(17))
    }

    #[test]
    fn grid_holds_the_ring_at_the_border_and_the_next() {
        let (plan, centre) = grid();
        for d in 1..=6 {
            let counted = count(&RUST, &plan, centre, d as u32).unwrap();
            assert_eq!(counted.settled, 2 * d * d + 2 * d + 1);
            assert_eq!(counted.most, paper_grid(d + 1));
            assert_eq!(counted.end, paper_grid(d + 1));
            assert_eq!(counted.met, counted.settled + 4 * (d + 1));
        }
    }

    /// The paper counts when the last vertex nearer than d roads is settled.
    /// With one road it leaves out the place, which is still held.
    #[test]
    fn paper_counts_before_the_last_ring() {
        let (plan, centre) = grid();
        for d in 1..=6 {
            let nearer = 2 * d * (d - 1) + 1;
            let case = around(&plan, centre, d as u32).run_case(nearer as u32);
            let held = Answer::read(&case.slow().answer).held as usize;
            assert_eq!(held, paper_grid(d) + usize::from(d == 1));
        }
    }

    /// Among equal distances the number decides, and inside a ring the order
    /// makes a difference; after the ring it makes none.
    #[test]
    fn numbers_move_the_most_and_not_the_end() {
        let (plan, centre) = grid();
        let (mixed, moved) = shuffled(plan.clone(), centre);
        let in_rows = count(&RUST, &plan, centre, 6).unwrap();
        let at_random = count(&RUST, &mixed, moved, 6).unwrap();
        assert_eq!(
            (at_random.settled, at_random.end),
            (in_rows.settled, in_rows.end)
        );
        assert!(at_random.most > in_rows.most);
    }

    #[test]
    fn spider_holds_two_for_each_line() {
        for (lines, minutes) in [(2, 1), (5, 1), (5, 4), (9, 3)] {
            let counted = count(&RUST, &spider(lines, 6), 0, minutes).unwrap();
            assert_eq!(counted.settled, 1 + lines * minutes as usize);
            assert_eq!((counted.most, counted.end), (2 * lines, 2 * lines));
        }
    }

    /// Beyond D every vertex of a grid or a spider has a road on.
    #[test]
    fn grids_and_spiders_forget_nothing() {
        let (plan, centre) = grid();
        let (mixed, moved) = shuffled(plan.clone(), centre);
        for (plan, centre) in [(plan, centre), (mixed, moved), (spider(9, 6), 0)] {
            let counted = count(&RUST, &plan, centre, 4).unwrap();
            assert_eq!(counted.before, counted.most);
        }
    }

    /// A house beyond D has its corner in S as soon as it is met.
    #[test]
    fn houses_are_forgotten() {
        let counted = count(&RUST, &grid_with_houses(17), 17 * 17 / 2, 6).unwrap();
        assert!(counted.before > counted.most && counted.met > counted.before);
        let (plan, centre) = timetable();
        let counted = count(&RUST, &plan, centre, 10).unwrap();
        assert!(counted.before > 5 * counted.most);
    }

    #[test]
    fn size_stands_for_roads() {
        for d in [1, 2, 10, 120] {
            assert_eq!(paper_grid_by_size(2 * d * d + 2 * d + 1), paper_grid(d));
        }
    }

    #[test]
    fn wrong_counts_are_noticed() {
        for mutant in [Mutant::DropNever, Mutant::RemainingStart, Mutant::MetWithin] {
            assert!(
                count(&Rust(mutant), &even_grid(9), 40, 2).is_err(),
                "{mutant:?}"
            );
        }
    }
}
