//! Who answers: the proved program `reach` for a job, the proved library for
//! the tables of a city. Nothing else of this tool calls either.

use std::io::Write;
use std::process::{Command, Stdio};

use outside::commands::exchange;
use outside::network::Scene;
use outside::outcome::Case;
use outside::records::{Answer, Held, Part, PartsAnswer, Refusal, Settled, NONE};

/// An accepted answer.
#[derive(Debug, Default, PartialEq, Eq)]
pub struct Found {
    pub settled: Vec<Settled>,
    pub parts: Vec<Part>,
    pub held: Vec<Held>,
    pub finished: bool,
}

#[derive(Debug, PartialEq, Eq)]
pub enum Reply {
    Found(Found),
    Refused(Refusal),
    /// The job's record of this number is faulty.
    Faulty(usize),
}

/// Runs `reach` on a job: its lines, and what they say.
pub fn reach(program: &[String], job: &[u8]) -> Result<(String, Reply), String> {
    let (name, words) = program
        .split_first()
        .ok_or("the program to ask is not named, behind --")?;
    let failed = |error| format!("{name}: {error}");
    let mut child = Command::new(name)
        .args(words)
        .stdin(Stdio::piped())
        .stdout(Stdio::piped())
        .spawn()
        .map_err(failed)?;
    if let Some(mut input) = child.stdin.take() {
        // It reads no further than the largest job, so this may fail; what it prints then decides.
        let _ = input.write_all(job);
    }
    let output = child.wait_with_output().map_err(failed)?;
    if !output.status.success() {
        return Err(format!("{name} ended with {}", output.status));
    }
    let lines = String::from_utf8_lossy(&output.stdout).into_owned();
    let reply =
        read_lines(&lines).ok_or_else(|| format!("{name} printed what no job gives:\n{lines}"))?;
    Ok((lines, reply))
}

/// The lines of `reach`; None where they are not such lines.
fn read_lines(lines: &str) -> Option<Reply> {
    let mut found = Found::default();
    let mut ended = false;
    for (number, line) in lines.lines().enumerate() {
        let words: Vec<&str> = line.split(' ').collect();
        let (name, rest) = words.split_first()?;
        let numbers: Option<Vec<u32>> = rest.iter().map(|word| word.parse().ok()).collect();
        match (*name, numbers?.as_slice()) {
            ("job", [n]) => return Some(Reply::Faulty(*n as usize)),
            ("answer", [0, 0]) if number == 0 => (),
            ("answer", &[number, place]) => return Some(Reply::Refused(Refusal { number, place })),
            ("vertex", &[vertex, distance]) => found.settled.push(Settled { vertex, distance }),
            ("part", &[record, start, end]) => found.parts.push(Part { record, start, end }),
            ("held", &[vertex, distance, state, remaining]) => found.held.push(Held {
                vertex,
                distance,
                state,
                remaining,
            }),
            ("end", &[settled, parts, held, finished]) => {
                let counts = [settled, parts, held].map(|count| count as usize);
                ended = counts == [found.settled.len(), found.parts.len(), found.held.len()];
                found.finished = finished == 1;
            }
            _ => return None,
        }
    }
    ended.then_some(Reply::Found(found))
}

/// The library's judgement of a city's tables.
pub fn check(driver: &[String], case: &Case) -> Result<Option<Refusal>, String> {
    let returned = exchange::ask(driver, case)?.returned;
    let refusal = Refusal {
        number: (returned >> 32) as u32,
        place: returned as u32,
    };
    Ok((refusal.number != 0).then_some(refusal))
}

/// The library's answer to a query, with room for everything: a run, and the
/// parts of its list.
pub fn library(driver: &[String], scene: &Scene) -> Result<Reply, String> {
    let case = scene.pair_case(NONE);
    let outcome = exchange::ask(driver, &case)?;
    let (number, place) = case.refusal(&outcome);
    if number != 0 {
        return Ok(Reply::Refused(Refusal { number, place }));
    }
    let answer = Answer::read(&outcome.answer);
    let parts = PartsAnswer::read(&outcome.parts_answer).parts;
    let count = |count: u32| 0..count as usize;
    Ok(Reply::Found(Found {
        settled: count(answer.settled)
            .map(|i| Settled::read(&outcome.settled, i))
            .collect(),
        parts: count(parts)
            .map(|i| Part::read(&outcome.parts, i))
            .collect(),
        held: count(answer.held)
            .map(|i| Held::read(&outcome.held, i))
            .collect(),
        finished: answer.finished == 1,
    }))
}

#[cfg(test)]
mod tests {
    use super::*;

    #[test]
    fn lines_are_read_whole_or_not_at_all() {
        let text = "answer 0 0\nvertex 1 500\npart 1 0 150\nheld 3 4294967295 0 1\nend 1 1 1 1\n";
        let Some(Reply::Found(found)) = read_lines(text) else {
            panic!("not read")
        };
        assert_eq!((found.settled[0].vertex, found.held[0].distance), (1, NONE));
        assert!(found.finished);
        assert_eq!(read_lines("job 7\n"), Some(Reply::Faulty(7)));
        let refusal = Refusal {
            number: 7,
            place: 1,
        };
        assert_eq!(read_lines("answer 7 1\n"), Some(Reply::Refused(refusal)));
        for bad in [
            "",
            "answer 0 0\n",
            "answer 0 0\nend 1 0 0 1\n",
            "hello\n",
            "vertex x 1\n",
        ] {
            assert_eq!(read_lines(bad), None, "{bad}");
        }
    }
}
