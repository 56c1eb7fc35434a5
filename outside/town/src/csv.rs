//! A city as CSV files: streets with from, to, metres, and where there are any
//! oneway and the waits, wait and back; rides with from, to, departure,
//! arrival; corners with name, east, north. The first line names the columns, which may stand in any order with others beside
//! them. Fields may be "quoted".

use crate::quantity;
use crate::text::coordinate;
use crate::town::{Ride, Source, Street, Town};

/// Reads the files in this order; the last may be absent.
pub fn read(paths: &[String]) -> Result<Town, String> {
    let mut town = Town::default();
    let adders: [(&[&str], Adder); 3] = [
        (&["from", "to", "metres"], add_street),
        (&["from", "to", "departure", "arrival"], add_ride),
        (&["name", "east", "north"], add_corner),
    ];
    for (path, (columns, adder)) in paths.iter().zip(adders) {
        let text = std::fs::read_to_string(path).map_err(|error| format!("{path}: {error}"))?;
        town.files.push(path.clone());
        add_file(&mut town, &text, columns, adder)?;
    }
    Ok(town)
}

type Adder = fn(&mut Town, &Row, &Source) -> Result<(), String>;

/// The fields of a line, by the names of the columns.
struct Row<'a> {
    columns: &'a [String],
    fields: Vec<String>,
}

impl Row<'_> {
    fn get(&self, name: &str) -> &str {
        let place = self.columns.iter().position(|column| column == name);
        place.map_or("", |place| self.fields[place].trim())
    }

    fn corner(&self, name: &str) -> Result<&str, String> {
        match self.get(name) {
            "" => Err(format!("'{name}' is empty")),
            corner => Ok(corner),
        }
    }
}

fn add_file(town: &mut Town, text: &str, wanted: &[&str], adder: Adder) -> Result<(), String> {
    let file = town.files.len() - 1;
    let mut columns: Option<Vec<String>> = None;
    for (number, line) in text.lines().enumerate() {
        let source = Source {
            file,
            line: number + 1,
        };
        if line.trim().is_empty() {
            continue;
        }
        let done = match &columns {
            None => head(line, wanted).map(|names| columns = Some(names)),
            Some(columns) => row(columns, line).and_then(|row| adder(town, &row, &source)),
        };
        done.map_err(|message| town.told(&source, &message))?;
    }
    match columns {
        Some(_) => Ok(()),
        None => Err(format!(
            "{}: there is no line that names the columns",
            town.files[file]
        )),
    }
}

fn head(line: &str, wanted: &[&str]) -> Result<Vec<String>, String> {
    let names: Vec<String> = fields(line)?
        .iter()
        .map(|f| f.trim().to_lowercase())
        .collect();
    for name in wanted {
        if names.iter().filter(|one| one == name).count() != 1 {
            return Err(format!(
                "the first line has to name the column '{name}' once"
            ));
        }
    }
    Ok(names)
}

fn row<'a>(columns: &'a [String], line: &str) -> Result<Row<'a>, String> {
    let fields = fields(line)?;
    match fields.len() == columns.len() {
        true => Ok(Row { columns, fields }),
        false => Err(format!(
            "{} fields instead of {}",
            fields.len(),
            columns.len()
        )),
    }
}

/// The fields of a line; a doubled quote inside quotes is one quote.
fn fields(line: &str) -> Result<Vec<String>, String> {
    let mut fields = vec![String::new()];
    let mut inside = false;
    let mut letters = line.chars().peekable();
    while let Some(letter) = letters.next() {
        let last = fields.len() - 1;
        match (letter, inside) {
            ('"', true) if letters.peek() == Some(&'"') => {
                letters.next();
                fields[last].push('"');
            }
            ('"', _) => inside = !inside,
            (',', false) => fields.push(String::new()),
            _ => fields[last].push(letter),
        }
    }
    match inside {
        true => Err("a quote is not closed".to_string()),
        false => Ok(fields),
    }
}

fn add_street(town: &mut Town, row: &Row, source: &Source) -> Result<(), String> {
    let length = quantity::metres(row.get("metres"))?;
    let oneway = match row.get("oneway").to_lowercase().as_str() {
        "" | "0" | "no" | "false" => false,
        "1" | "yes" | "true" | "oneway" => true,
        other => return Err(format!("oneway '{other}' is neither yes nor no")),
    };
    let wait = quantity::seconds(row.get("wait"))?;
    let back = quantity::seconds(row.get("back"))?;
    let (from, to) = (row.corner("from")?, row.corner("to")?);
    let (from, to) = (town.corner(from), town.corner(to));
    let street = Street {
        from,
        to,
        length,
        wait,
        back,
        oneway,
        source: source.clone(),
    };
    town.streets.push(street.judged()?);
    Ok(())
}

fn add_ride(town: &mut Town, row: &Row, source: &Source) -> Result<(), String> {
    let departure = quantity::time(row.get("departure"))?;
    let arrival = quantity::time(row.get("arrival"))?;
    let (from, to) = (row.corner("from")?, row.corner("to")?);
    let (from, to) = (town.corner(from), town.corner(to));
    town.rides.push(Ride {
        from,
        to,
        departure,
        arrival,
        source: source.clone(),
    });
    Ok(())
}

fn add_corner(town: &mut Town, row: &Row, _: &Source) -> Result<(), String> {
    let at = (coordinate(row.get("east"))?, coordinate(row.get("north"))?);
    town.place(row.corner("name")?, at)
}

#[cfg(test)]
mod tests {
    use super::*;

    #[test]
    fn fields_may_be_quoted() {
        let right = vec!["a".to_string(), "b, \"c\"".to_string(), String::new()];
        assert_eq!(fields("a,\"b, \"\"c\"\"\","), Ok(right));
        assert!(fields("a,\"b").is_err());
    }

    #[test]
    fn columns_are_found_by_name() {
        let mut town = Town::from(&["s"]);
        let wanted = ["from", "to", "metres"];
        let text = "To,Metres,From,colour\nB,12.5,A,red\n";
        assert_eq!(add_file(&mut town, text, &wanted, add_street), Ok(()));
        assert_eq!(
            (town.name(town.streets[0].from), town.streets[0].length),
            ("A", 125)
        );
        let text = "from,to,metres,wait,back,oneway\nA,B,9,30,45,\nB,C,9,7,,yes\n";
        assert_eq!(add_file(&mut town, text, &wanted, add_street), Ok(()));
        let lights: Vec<[u32; 2]> = town.streets.iter().map(|s| [s.wait, s.back]).collect();
        assert_eq!(lights, [[0, 0], [30, 45], [7, 0]]);
        let mut message = |text: &str| {
            let done = add_file(&mut town, text, &wanted, add_street);
            done.err().unwrap_or_default()
        };
        assert!(
            message("to,metres\n").contains("line 1: the first line has to name the column 'from'")
        );
        assert!(message("from,to,metres\nA,B\n").contains("line 2: 2 fields instead of 3"));
        assert!(message("from,to,metres\nA,B,x\n").contains("line 2: 'x' is no length"));
        assert!(message("from,to,metres,wait\nA,B,9,x\n").contains("'x' is no wait in seconds"));
        assert!(message("from,to,metres,back,oneway\nA,B,9,5,1\n").contains("goes one way"));
        assert!(message("").contains("no line that names the columns"));
    }
}
