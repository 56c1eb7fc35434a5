//! The command line of the town tool.

use std::process::ExitCode;

use town::commands::{ask, city, records, Wanted};

const USAGE: &str = "usage:
  town ask FILE [OPTIONS] -- REACH..      ask the program about a town of at most 512 corners
  town job FILE                           write the town's job to standard output
  town records FILE -- REACH..            ask the program about a job written as records
  town city (FILE | STREETS.csv RIDES.csv [CORNERS.csv]) [OPTIONS] -- DRIVER..
                                          make tables, and ask the library about a whole city
Without -- the files are only read, and told where they are wrong.
options:
  --ask TEXT      what to ask, in place of the town's own `ask` lines
  --raw           print the program's lines as they are
  --svg FILE      draw the covered streets
  --geojson FILE  the covered streets and the corners as GeoJSON
  --tables DIR    write the tables there (city)
  --brief         tell the totals alone";

fn main() -> ExitCode {
    let words: Vec<String> = std::env::args().skip(1).collect();
    let done = match Wanted::read(&words) {
        Ok(Some(wanted)) => command(&wanted),
        Ok(None) => {
            eprintln!("{USAGE}");
            return ExitCode::from(2);
        }
        Err(message) => Err(message),
    };
    match done {
        Ok(()) => ExitCode::SUCCESS,
        Err(message) => {
            eprintln!("town: {message}");
            ExitCode::FAILURE
        }
    }
}

fn command(wanted: &Wanted) -> Result<(), String> {
    match wanted.command.as_str() {
        "ask" => ask::run(wanted),
        "job" => ask::job(wanted),
        "records" => records::run(wanted),
        _ => city::run(wanted),
    }
}
