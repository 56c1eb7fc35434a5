//! The subcommands, and the words that choose among them.

pub mod ask;
pub mod city;
pub mod records;

use crate::draw;
use crate::tell::Story;
use crate::text;
use crate::town::{Ask, Town};

/// The words of the command line.
#[derive(Debug, Default)]
pub struct Wanted {
    pub command: String,
    pub files: Vec<String>,
    pub ask: Option<String>,
    pub raw: bool,
    pub brief: bool,
    pub svg: Option<String>,
    pub geojson: Option<String>,
    pub tables: Option<String>,
    pub program: Vec<String>,
}

impl Wanted {
    /// None where the words fit no subcommand. A named option whose word is
    /// empty counts as not given.
    pub fn read(words: &[String]) -> Result<Option<Self>, String> {
        let mut wanted = Wanted::default();
        let mut words = words.iter();
        while let Some(word) = words.next() {
            let mut next = || words.next().cloned().filter(|word| !word.is_empty());
            match word.as_str() {
                "--ask" => wanted.ask = next(),
                "--svg" => wanted.svg = next(),
                "--geojson" => wanted.geojson = next(),
                "--tables" => wanted.tables = next(),
                "--raw" => wanted.raw = true,
                "--brief" => wanted.brief = true,
                "--" => wanted.program = words.by_ref().cloned().collect(),
                option if option.starts_with("--") => {
                    return Err(format!("there is no option {option}"))
                }
                word if wanted.command.is_empty() => wanted.command = word.to_string(),
                word => wanted.files.push(word.to_string()),
            }
        }
        let files = match wanted.command.as_str() {
            "ask" | "job" | "records" => wanted.files.len() == 1,
            "city" => (1..=3).contains(&wanted.files.len()),
            _ => false,
        };
        Ok(files.then_some(wanted))
    }

    /// What is asked: in place of the town's own lines where it is given. A
    /// picture shows one answer.
    pub fn asks(&self, town: &Town) -> Result<Vec<Ask>, String> {
        let asks = match &self.ask {
            Some(text) => vec![text::question(text)?],
            None => town.asks.clone(),
        };
        let drawn = self.svg.is_some() || self.geojson.is_some();
        match drawn && asks.len() != 1 {
            true => Err(format!(
                "a picture shows one answer, and {} questions are asked: give one with ASK",
                asks.len()
            )),
            false => Ok(asks),
        }
    }

    /// Writes the pictures that are wanted.
    pub fn draw(&self, story: &Story) -> Result<(), String> {
        if let Some(path) = &self.svg {
            keep(path, &draw::svg(story)?)?;
        }
        if let Some(path) = &self.geojson {
            keep(path, &draw::geojson(story)?)?;
        }
        Ok(())
    }
}

pub fn keep(path: &str, bytes: impl AsRef<[u8]>) -> Result<(), String> {
    std::fs::write(path, bytes).map_err(|error| format!("{path}: {error}"))
}

/// Prints all at once, or tells why it cannot.
pub fn print(text: impl AsRef<[u8]>) -> Result<(), String> {
    use std::io::Write;
    let mut out = std::io::stdout().lock();
    let written = out.write_all(text.as_ref()).and_then(|()| out.flush());
    written.map_err(|error| format!("cannot write the answer: {error}"))
}
