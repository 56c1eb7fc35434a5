//! `town city`: tables up to the full size, by the library.

use outside::network::Scene;
use outside::records::NONE;

use super::{keep, print, Wanted};
use crate::oracle::{self, Reply};
use crate::refusal;
use crate::tables::Tables;
use crate::tell::Story;
use crate::town::{Ask, Town};
use crate::{csv, text};

/// Tables are written once the library has found them in order, answers are
/// printed once all are there. Where no driver is named the city is only read.
pub fn run(wanted: &Wanted) -> Result<(), String> {
    let town = match wanted.files.as_slice() {
        [file] => text::read(file)?,
        files => csv::read(files)?,
    };
    let tables = Tables::of(&town);
    let asks = wanted.asks(&town)?;
    if wanted.program.is_empty() {
        return Ok(());
    }
    let checked = oracle::check(&wanted.program, &tables.network.check_case())?;
    if let Some(refused) = checked {
        return Err(refusal::in_town(&town, &tables, None, refused));
    }
    if let Some(folder) = &wanted.tables {
        write(folder, &town, &tables)?;
    }
    let mut told = Vec::new();
    for ask in &asks {
        told.push(one(wanted, &town, &tables, ask)?);
    }
    if asks.is_empty() {
        told.push(format!(
            "The tables are in order: {} corners, {} walks (a street for both ways is two), {} rides. Nothing is asked.\n",
            tables.corner.len(),
            tables.lane.len(),
            tables.ride.len()
        ));
    }
    print(told.join("\n"))
}

fn one(wanted: &Wanted, town: &Town, tables: &Tables, ask: &Ask) -> Result<String, String> {
    let query = tables.query(town, ask)?;
    let network = tables.network.clone();
    let found = match oracle::library(&wanted.program, &Scene { network, query })? {
        Reply::Found(found) => found,
        Reply::Refused(refused) => return Err(refusal::in_town(town, tables, Some(ask), refused)),
        Reply::Faulty(_) => return Err("the library reads no jobs".to_string()),
    };
    let story = Story {
        town,
        tables,
        ask,
        query,
        found: &found,
    };
    wanted.draw(&story)?;
    let asked = format!(
        "As a query: record {}, offset {}, arrival {}, duration {}, speed {}.\n",
        query.record, query.offset, query.arrival, query.duration, query.speed
    );
    Ok(story.told(wanted.brief) + &asked)
}

/// The tables as the library reads them, and what their numbers mean.
fn write(folder: &str, town: &Town, tables: &Tables) -> Result<(), String> {
    std::fs::create_dir_all(folder).map_err(|error| format!("{folder}: {error}"))?;
    let bytes = tables.bytes();
    keep(&format!("{folder}/vertices"), &bytes.vertices)?;
    keep(&format!("{folder}/walks"), &bytes.walks)?;
    keep(&format!("{folder}/hops"), &bytes.hops)?;
    let mut names = String::from("vertex,name\n");
    for (vertex, &corner) in tables.corner.iter().enumerate() {
        names += &format!("{vertex},{}\n", field(town.name(corner)));
    }
    keep(&format!("{folder}/names.csv"), names)?;
    let mut walks = String::from("walk,from,to,decimetres,wait,twin\n");
    for (record, walk) in tables.network.walks.iter().enumerate() {
        let name = |vertex: u32| field(town.name(tables.corner[vertex as usize]));
        let twin = match walk.twin {
            NONE => String::new(),
            twin => twin.to_string(),
        };
        let (from, to) = (name(walk.from), name(walk.to));
        let (length, wait) = (walk.length, walk.wait);
        walks += &format!("{record},{from},{to},{length},{wait},{twin}\n");
    }
    keep(&format!("{folder}/walks.csv"), walks)
}

/// A field of a CSV file.
fn field(text: &str) -> String {
    match text.contains([',', '"']) {
        true => format!("\"{}\"", text.replace('"', "\"\"")),
        false => text.to_string(),
    }
}
