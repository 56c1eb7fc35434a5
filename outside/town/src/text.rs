//! The town as a text: one line for a street, a ride, a corner's place or
//! what is asked.
//!
//! ```text
//! street Mill Church 200 m            # both ways
//! street Church Station 1.2 km oneway
//! street Mill Station 300 m wait 30 s back 45 s   # before Station, before Mill
//! ride Mill Church 9:55:00 9:58:00
//! corner Mill 0 120                   # east and north, for pictures
//! ask on Mill Church at 50 m, by 10:00, within 10 min, at 1 m/s
//! ask at Church, by 10:00, within 10 min, at 1.4 m/s
//! ```

use crate::quantity;
use crate::town::{Ask, Place, Ride, Source, Street, Town};

/// Reads a town file.
pub fn read(path: &str) -> Result<Town, String> {
    let text = std::fs::read_to_string(path).map_err(|error| format!("{path}: {error}"))?;
    parse(path, &text)
}

pub fn parse(path: &str, text: &str) -> Result<Town, String> {
    let mut town = Town::from(&[path]);
    for (number, line) in text.lines().enumerate() {
        let source = Source {
            file: 0,
            line: number + 1,
        };
        let done = words(line).and_then(|words| add(&mut town, &words, &source));
        done.map_err(|message| town.told(&source, &message))?;
    }
    Ok(town)
}

/// What is asked, without the word `ask` before it.
pub fn question(text: &str) -> Result<Ask, String> {
    let all = words(text).and_then(|words| match words.split_first() {
        Some((first, rest)) if first == "ask" => ask(rest, None),
        _ => ask(&words, None),
    });
    all.map_err(|message| format!("what is asked: {message}"))
}

/// The words of a line. `#` begins a comment, a comma parts words as a space
/// does, and "quotes" keep a name with spaces together.
fn words(line: &str) -> Result<Vec<String>, String> {
    let mut words = Vec::new();
    let mut rest = line.trim_start_matches(apart);
    while !rest.is_empty() && !rest.starts_with('#') {
        if let Some(quoted) = rest.strip_prefix('"') {
            let end = quoted.find('"').ok_or("a quote is not closed")?;
            words.push(quoted[..end].to_string());
            rest = &quoted[end + 1..];
        } else {
            let end = rest.find(|c| apart(c) || c == '#' || c == '"');
            let (word, behind) = rest.split_at(end.unwrap_or(rest.len()));
            words.push(word.to_string());
            rest = behind;
        }
        rest = rest.trim_start_matches(apart);
    }
    Ok(words)
}

fn apart(c: char) -> bool {
    c.is_whitespace() || c == ','
}

fn add(town: &mut Town, words: &[String], source: &Source) -> Result<(), String> {
    let Some((name, rest)) = words.split_first() else {
        return Ok(());
    };
    match name.as_str() {
        "street" => street(town, rest, source),
        "ride" => ride(town, rest, source),
        "corner" => corner(town, rest),
        "ask" => {
            let ask = ask(rest, Some(source.clone()))?;
            town.asks.push(ask);
            Ok(())
        }
        _ => Err(format!(
            "'{name}' is no word that begins a line; there are street, ride, corner and ask"
        )),
    }
}

/// The next word, which is a corner's name.
fn named<'a>(words: &mut &'a [String], what: &str) -> Result<&'a str, String> {
    let (first, rest) = words
        .split_first()
        .ok_or_else(|| format!("{what} is missing"))?;
    *words = rest;
    match first.is_empty() {
        true => Err(format!("{what} has an empty name")),
        false => Ok(first),
    }
}

fn ended(words: &[String]) -> Result<(), String> {
    match words.first() {
        None => Ok(()),
        Some(word) => Err(format!("'{word}' is one word too many")),
    }
}

fn street(town: &mut Town, mut words: &[String], source: &Source) -> Result<(), String> {
    let from = named(&mut words, "the corner where the street begins")?;
    let to = named(&mut words, "the corner where the street ends")?;
    let length = quantity::length(&mut words)?;
    let wait = lights(&mut words, "wait")?;
    let back = lights(&mut words, "back")?;
    let oneway = words.first().is_some_and(|word| word == "oneway");
    ended(&words[usize::from(oneway)..])?;
    let (from, to) = (town.corner(from), town.corner(to));
    let street = Street {
        from,
        to,
        length,
        wait,
        back,
        oneway,
        source: source.clone(),
    };
    town.streets.push(street.judged()?);
    Ok(())
}

/// The wait behind this word, 0 where the word is not there.
fn lights(words: &mut &[String], word: &str) -> Result<u32, String> {
    match words.split_first() {
        Some((first, rest)) if first == word => {
            *words = rest;
            quantity::wait(words)
        }
        _ => Ok(0),
    }
}

fn ride(town: &mut Town, mut words: &[String], source: &Source) -> Result<(), String> {
    let from = named(&mut words, "the corner where the ride begins")?;
    let to = named(&mut words, "the corner where the ride ends")?;
    let departure = quantity::time(named(&mut words, "the departure")?)?;
    let arrival = quantity::time(named(&mut words, "the arrival")?)?;
    ended(words)?;
    let (from, to) = (town.corner(from), town.corner(to));
    town.rides.push(Ride {
        from,
        to,
        departure,
        arrival,
        source: source.clone(),
    });
    Ok(())
}

fn corner(town: &mut Town, mut words: &[String]) -> Result<(), String> {
    let name = named(&mut words, "the corner")?;
    let east = coordinate(named(&mut words, "how far east it lies")?)?;
    let north = coordinate(named(&mut words, "how far north it lies")?)?;
    ended(words)?;
    town.place(name, (east, north))
}

pub fn coordinate(word: &str) -> Result<f64, String> {
    let value: Option<f64> = word.parse().ok();
    value
        .filter(|value| value.is_finite())
        .ok_or_else(|| format!("'{word}' is no coordinate"))
}

/// The next word has to be this one.
fn expect(words: &mut &[String], right: &str) -> Result<(), String> {
    let got = named(words, &format!("'{right}'"))?;
    match got == right {
        true => Ok(()),
        false => Err(format!("'{got}' stands where '{right}' should")),
    }
}

fn ask(mut words: &[String], source: Option<Source>) -> Result<Ask, String> {
    let place = match named(
        &mut words,
        "the place: 'on' and two corners, or 'at' and one",
    )? {
        "on" => on_street(&mut words)?,
        "at" => Place::Corner(named(&mut words, "the corner")?.to_string()),
        other => return Err(format!("'{other}' stands where 'on' or 'at' should")),
    };
    expect(&mut words, "by")?;
    let arrival = quantity::time(named(&mut words, "the arrival")?)?;
    expect(&mut words, "within")?;
    let duration = quantity::duration(&mut words)?;
    expect(&mut words, "at")?;
    let speed = quantity::speed(&mut words)?;
    ended(words)?;
    Ok(Ask {
        place,
        arrival,
        duration,
        speed,
        source,
    })
}

fn on_street(words: &mut &[String]) -> Result<Place, String> {
    let from = named(words, "the street's first corner")?.to_string();
    let to = named(words, "the street's other corner")?.to_string();
    let mut of = None;
    if words.first().is_some_and(|word| word == "of") {
        expect(words, "of")?;
        of = Some(quantity::length(words)?);
    }
    expect(words, "at")?;
    let at = quantity::length(words)?;
    Ok(Place::On { from, to, of, at })
}

#[cfg(test)]
mod tests {
    use super::*;

    #[test]
    fn lines_are_read_in_any_order() {
        let text = "ride \"Old Mill\" Church 9:55:00 9:58\n\n# a comment\n\
                    street Church \"Old Mill\" 20.5 m oneway # behind it\n\
                    ask on Church \"Old Mill\" at 5 m, by 10:00, within 10 min, at 1 m/s\n";
        let town = parse("x", text).unwrap_or_default();
        assert_eq!(town.corners.len(), 2);
        assert_eq!(town.name(town.streets[0].to), "Old Mill");
        assert_eq!(
            (town.streets[0].length, town.streets[0].oneway),
            (205, true)
        );
        assert_eq!(
            (town.rides[0].departure, town.rides[0].arrival),
            (35_700, 35_880)
        );
        assert_eq!((town.asks[0].duration, town.asks[0].speed), (600, 10));
        assert_eq!(town.streets[0].source.line, 4);
    }

    #[test]
    fn messages_name_the_line() {
        let message = |text: &str| parse("t", text).err().unwrap_or_default();
        assert!(message("\nstret A B 1 m").starts_with("t: line 2: 'stret' is no word"));
        assert!(message("street A B").contains("line 1: the length is missing"));
        assert!(message("street A B 1 m two").contains("'two' is one word too many"));
        assert!(message("ride A B 9:00 25").contains("'25' is no time of day"));
        assert!(message("street \"A B 1 m").contains("a quote is not closed"));
        assert!(message("ask at A by 10:00 within 10 min").contains("'at' is missing"));
        assert!(message("ask in A").contains("'in' stands where 'on' or 'at' should"));
        assert!(message("corner A 1 2\ncorner A 1 2").contains("line 2: corner 'A' has its place"));
    }
}
