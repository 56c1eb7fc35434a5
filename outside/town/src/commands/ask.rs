//! `town ask` and `town job`: a town of at most 512 corners, by the program.

use outside::cases::jobs::encode;
use outside::network::Scene;

use super::{print, Wanted};
use crate::oracle::{self, Reply};
use crate::refusal;
use crate::tables::Tables;
use crate::tell::Story;
use crate::text;
use crate::town::{Ask, Town};

/// Every answer is found before the first is printed, so that nothing stands
/// beside an error. Where no program is named the town is only read.
pub fn run(wanted: &Wanted) -> Result<(), String> {
    let town = text::read(&wanted.files[0])?;
    let tables = Tables::of(&town);
    let mut told = Vec::new();
    for ask in some(wanted, &town)? {
        told.push(one(wanted, &town, &tables, &ask)?);
    }
    print(told.join("\n"))
}

fn some(wanted: &Wanted, town: &Town) -> Result<Vec<Ask>, String> {
    let asks = wanted.asks(town)?;
    match asks.is_empty() {
        true => Err(format!(
            "{}: nothing is asked; add a line such as: ask on Mill Church at 50 m, by 10:00, within 10 min, at 1 m/s",
            wanted.files[0]
        )),
        false => Ok(asks),
    }
}

fn one(wanted: &Wanted, town: &Town, tables: &Tables, ask: &Ask) -> Result<String, String> {
    let query = tables.query(town, ask)?;
    let network = tables.network.clone();
    let job = encode(&Scene { network, query });
    if wanted.program.is_empty() {
        return Ok(String::new());
    }
    let (lines, reply) = oracle::reach(&wanted.program, &job)?;
    let found = match reply {
        Reply::Found(found) => found,
        Reply::Refused(refused) => return Err(refusal::in_town(town, tables, Some(ask), refused)),
        Reply::Faulty(record) => {
            return Err(refusal::crowded(town, tables)
                .unwrap_or_else(|| format!("the program reads no job there (job {record})")))
        }
    };
    if wanted.raw {
        return Ok(lines);
    }
    let story = Story {
        town,
        tables,
        ask,
        query,
        found: &found,
    };
    wanted.draw(&story)?;
    Ok(story.told(wanted.brief))
}

/// The job of what is asked first, as `reach` reads it.
pub fn job(wanted: &Wanted) -> Result<(), String> {
    let town = text::read(&wanted.files[0])?;
    let tables = Tables::of(&town);
    let query = tables.query(&town, &some(wanted, &town)?[0])?;
    let network = tables.network;
    print(encode(&Scene { network, query }))
}
