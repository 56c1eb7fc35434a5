//! `bench speed ROUNDS [PAGE]`, `bench evening ROUNDS`, `bench timetable ROUNDS`,
//! `bench courier ROUNDS`, `bench boarding ROUNDS` and `bench figures PAGE FOLDER`.

mod linked;

use std::fs::{read_to_string, write};
use std::path::Path;
use std::process::ExitCode;

use bench::{boardings, bought, checks, couriers, evening, figures, frames, growth, hubs, limit, machine, many};
use bench::{moves, page, patients, speed, stall, timetables};
use linked::Linked;

const USAGE: &str = "usage:
  bench speed ROUNDS [PAGE]     times of the library and of both programs in Rust
  bench evening ROUNDS          the evening load alone
  bench timetable ROUNDS        the reader of timetables alone
  bench courier ROUNDS          the courier alone
  bench boarding ROUNDS         the run with a boarding time alone
  bench figures PAGE FOLDER     how many vertices are held, as numbers and pictures";

/// The product is for x86-64; elsewhere its module is compiled once more.
const CODE: &str = if cfg!(target_arch = "x86_64") {
    "`target/staticlib/libsiltbrow.a`, as `rt lib` writes it"
} else {
    "the LLVM module of `rt lib`, compiled for this processor; the product itself is for x86-64"
};

fn main() -> ExitCode {
    let words: Vec<String> = std::env::args().skip(1).collect();
    let words: Vec<&str> = words.iter().map(String::as_str).collect();
    let done = match words.as_slice() {
        ["speed", rounds, rest @ ..] if rest.len() < 2 => {
            counted(rounds).and_then(|rounds| measure(rounds, rest.first().copied()))
        }
        ["evening", rounds] => counted(rounds).and_then(evening),
        ["timetable", rounds] => counted(rounds).and_then(timetable),
        ["courier", rounds] => counted(rounds).and_then(courier),
        ["boarding", rounds] => counted(rounds).and_then(boarding),
        ["figures", page, folder] => draw(page, folder),
        _ => Err(USAGE.to_string()),
    };
    match done {
        Ok(()) => ExitCode::SUCCESS,
        Err(message) => {
            eprintln!("bench: {message}");
            ExitCode::FAILURE
        }
    }
}

fn counted(rounds: &str) -> Result<usize, String> {
    let count = rounds.parse().ok().filter(|&count| count > 0);
    count.ok_or_else(|| USAGE.to_string())
}

/// What the numbers were taken on, and how.
fn heading(rounds: usize) -> String {
    let (machine, load) = (machine::describe(), machine::load());
    format!("Machine: {machine}, load {load} at the start.\nLibrary: {CODE}.\nMedians of {rounds} rounds; all answers were equal.\n")
}

/// The rows that do not keep their aim.
fn verdict(report: &str) -> String {
    let above = page::above(report);
    match above.is_empty() {
        true => "Every aim is kept.\n".to_string(),
        false => format!("Above their aims:\n\n- {}\n", above.join("\n- ")),
    }
}

/// Prints the line of the evening load, and the searches of that grid.
fn evening(rounds: usize) -> Result<(), String> {
    let heading = heading(rounds);
    let evening = evening::measure(&Linked, &machine::describe(), rounds)?;
    print!("{heading}\n{}\n{}", evening.load, evening.table);
    Ok(())
}

/// Prints the rows of the timetables.
fn timetable(rounds: usize) -> Result<(), String> {
    let heading = heading(rounds);
    print!("{heading}\n{}", timetables::table(&Linked, rounds)?);
    Ok(())
}

/// Prints the rows of the courier.
fn courier(rounds: usize) -> Result<(), String> {
    let heading = heading(rounds);
    print!("{heading}\n{}", couriers::table(&Linked, &Linked, rounds)?);
    Ok(())
}

/// Prints the rows of the run with a boarding time.
fn boarding(rounds: usize) -> Result<(), String> {
    let heading = heading(rounds);
    print!("{heading}\n{}", boardings::table(&Linked, rounds)?);
    Ok(())
}

/// Prints the times; puts them in a page where one is named, and the picture of
/// growth in the folder `figures` beside it.
fn measure(rounds: usize, page: Option<&str>) -> Result<(), String> {
    let heading = heading(rounds);
    let evening = evening::measure(&Linked, &machine::describe(), rounds)?;
    let growth = growth::growth(&Linked, rounds)?;
    let ordinary = stall::ordinary(&Linked, rounds)?;
    let report = [
        heading,
        evening.load,
        limit::line(rounds),
        evening.table,
        speed::table(&Linked, rounds)?,
        growth.table,
        stall::table(&Linked, &ordinary, rounds)?,
        hubs::table(&Linked, &ordinary, rounds)?,
        checks::table(&Linked, rounds)?,
        frames::table(&Linked, rounds)?,
        moves::table(&Linked, rounds)?,
        bought::table(&Linked, rounds)?,
        many::table(&Linked, rounds)?,
        patients::table(&Linked, rounds)?,
        timetables::table(&Linked, rounds)?,
        couriers::table(&Linked, &Linked, rounds)?,
        boardings::table(&Linked, rounds)?,
    ]
    .join("\n");
    let report = format!("{report}\n{}", verdict(&report));
    print!("{report}");
    let Some(page) = page else { return Ok(()) };
    put(page, &[("speed", report)])?;
    let picture = Path::new(page)
        .with_file_name("figures")
        .join(growth::PICTURE);
    keep(&picture.to_string_lossy(), &growth.picture)
}

/// Puts the tables in a page, the numbers and pictures in a folder.
fn draw(page: &str, folder: &str) -> Result<(), String> {
    let drawn = figures::draw(&Linked)?;
    for (name, text) in &drawn.files {
        keep(&format!("{folder}/{name}"), text)?;
    }
    put(page, &drawn.tables)
}

/// Exchanges the numbers of a page.
fn put(path: &str, tables: &[(&str, String)]) -> Result<(), String> {
    let mut text = read_to_string(path).map_err(|error| format!("{path}: {error}"))?;
    for (name, numbers) in tables {
        text = page::replace(&text, name, numbers)?;
    }
    keep(path, &text)
}

fn keep(path: &str, text: &str) -> Result<(), String> {
    write(path, text).map_err(|error| format!("{path}: {error}"))
}
