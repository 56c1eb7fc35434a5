//! Lengths, times of day, durations and speeds, in words and as whole numbers.
//! Nothing is rounded on the way in: what is no whole number of the unit that
//! the tables have is an error.

/// A decimal number times `factor`, if that is whole.
fn scaled(word: &str, factor: i64) -> Option<i64> {
    let (whole, part) = word.split_once('.').unwrap_or((word, ""));
    let digits = |text: &str| text.bytes().all(|b| b.is_ascii_digit());
    if whole.is_empty() || !digits(whole) || !digits(part) || part.len() > 12 {
        return None;
    }
    let unit = 10i128.pow(part.len() as u32);
    let all: i128 = format!("{whole}{part}").parse().ok()?;
    let value = all.checked_mul(i128::from(factor))?;
    (value % unit == 0).then_some(())?;
    i64::try_from(value / unit).ok()
}

/// Splits `200m` into number and unit.
fn split(word: &str) -> (&str, &str) {
    let end = word.find(|c: char| !c.is_ascii_digit() && c != '.');
    word.split_at(end.unwrap_or(word.len()))
}

/// A number and its unit, which may stand in one word or in two. `units` has
/// each unit with its factor.
fn measured(words: &mut &[String], what: &str, units: &[(&str, i64)]) -> Result<i64, String> {
    let known: Vec<&str> = units.iter().map(|unit| unit.0).collect();
    let known = known.join(", ");
    let Some((first, rest)) = words.split_first() else {
        return Err(format!("{what} is missing, in one of: {known}"));
    };
    let (number, mut unit) = split(first);
    *words = rest;
    if unit.is_empty() {
        let Some((next, rest)) = words.split_first() else {
            return Err(format!("{what} {first} has no unit: {known}"));
        };
        unit = next;
        *words = rest;
    }
    let Some(&(_, factor)) = units.iter().find(|one| one.0 == unit) else {
        return Err(format!("{what} '{number} {unit}' has no unit of: {known}"));
    };
    if number.is_empty() {
        return Err(format!("{what} '{first}' is no number"));
    }
    scaled(number, factor)
        .ok_or_else(|| format!("{what} {number} {unit} is no number that the tables can hold"))
}

fn within(value: i64, what: &str, most: i64) -> Result<u32, String> {
    match u32::try_from(value) {
        Ok(small) if value <= most => Ok(small),
        _ => Err(format!("{what} is too large to be written down")),
    }
}

/// A walk has three bytes for its length.
const MOST_LENGTH: i64 = 0xff_ffff;

/// A length in decimetres.
pub fn length(words: &mut &[String]) -> Result<u32, String> {
    let units = [("m", 10), ("km", 10_000), ("dm", 1)];
    let value = measured(words, "the length", &units)?;
    within(value, "the length", MOST_LENGTH)
}

/// Metres without a unit, as in a CSV file.
pub fn metres(word: &str) -> Result<u32, String> {
    let value = scaled(word, 10)
        .ok_or_else(|| format!("'{word}' is no length in metres and whole decimetres"))?;
    within(value, "the length", MOST_LENGTH)
}

/// Seconds; several times may follow one another, as in `1 h 30 min`.
fn lasting(words: &mut &[String], what: &str, most: i64) -> Result<u32, String> {
    let units = [("min", 60), ("s", 1), ("h", 3_600)];
    let mut total = measured(words, what, &units)?;
    while words
        .first()
        .is_some_and(|w| w.starts_with(|c: char| c.is_ascii_digit()))
    {
        total += measured(words, what, &units)?;
    }
    within(total, what, most)
}

/// A duration in seconds. A job has three bytes for it.
pub fn duration(words: &mut &[String]) -> Result<u32, String> {
    lasting(words, "the duration", 0xff_ffff)
}

/// A wait in seconds. A walk has one byte for it.
pub fn wait(words: &mut &[String]) -> Result<u32, String> {
    lasting(words, "the wait", 255)
}

/// A wait in seconds without a unit, as in a CSV file; none is 0.
pub fn seconds(word: &str) -> Result<u32, String> {
    if word.is_empty() {
        return Ok(0);
    }
    let value = scaled(word, 1).ok_or_else(|| format!("'{word}' is no wait in seconds"))?;
    within(value, "the wait", 255)
}

/// A speed in decimetres a second. A job has one byte for it.
pub fn speed(words: &mut &[String]) -> Result<u32, String> {
    let units = [("m/s", 10), ("dm/s", 1)];
    let value = measured(words, "the speed", &units)?;
    within(value, "the speed", 255)
}

/// H:MM or H:MM:SS in seconds from midnight; with a `-` before it, so much
/// before midnight. Hours above 23 are those of the next day.
pub fn time(word: &str) -> Result<i32, String> {
    let bad = || format!("'{word}' is no time of day such as 9:55 or 9:55:00");
    let (sign, plain) = match word.strip_prefix('-') {
        Some(rest) => (-1, rest),
        None => (1, word),
    };
    let fields: Vec<&str> = plain.split(':').collect();
    let digits = |f: &&str| (1..=3).contains(&f.len()) && f.bytes().all(|b| b.is_ascii_digit());
    if !(2..=3).contains(&fields.len()) || !fields.iter().all(digits) {
        return Err(bad());
    }
    let number = |i: usize| fields.get(i).map_or(0, |f| f.parse::<i32>().unwrap_or(0));
    if fields[1..].iter().any(|f| f.len() != 2) || number(1) > 59 || number(2) > 59 {
        return Err(bad());
    }
    Ok(sign * (3_600 * number(0) + 60 * number(1) + number(2)))
}

/// Seconds from midnight as a time of day.
pub fn tell_time(seconds: i64) -> String {
    let day = seconds.div_euclid(86_400);
    let rest = seconds.rem_euclid(86_400);
    let clock = format!("{}:{:02}:{:02}", rest / 3_600, rest / 60 % 60, rest % 60);
    match day {
        0 => clock,
        -1 => format!("{clock} the day before"),
        1 => format!("{clock} the next day"),
        _ => format!("{clock}, day {day:+}"),
    }
}

/// Decimetres as metres.
pub fn tell_metres(decimetres: u32) -> String {
    match decimetres % 10 {
        0 => format!("{}", decimetres / 10),
        tenth => format!("{}.{tenth}", decimetres / 10),
    }
}

pub fn tell_duration(seconds: u32) -> String {
    let (h, min, s) = (seconds / 3_600, seconds / 60 % 60, seconds % 60);
    let parts = [(h, "h"), (min, "min"), (s, "s")];
    let said: Vec<String> = parts
        .iter()
        .filter(|part| part.0 > 0)
        .map(|part| format!("{} {}", part.0, part.1))
        .collect();
    match said.is_empty() {
        true => "0 s".to_string(),
        false => said.join(" "),
    }
}

#[cfg(test)]
mod tests {
    use super::*;

    fn words(text: &str) -> Vec<String> {
        text.split_whitespace().map(String::from).collect()
    }

    #[test]
    fn lengths_are_whole_decimetres() {
        for (text, right) in [
            ("200 m", 2_000),
            ("200.5 m", 2_005),
            ("1.2 km", 12_000),
            ("7dm", 7),
        ] {
            assert_eq!(length(&mut words(text).as_slice()), Ok(right), "{text}");
        }
        for text in [
            "200",
            "200 ft",
            "0.55 m",
            "m",
            "-3 m",
            "x m",
            "1.2.3 m",
            "16777216 dm",
            "500000000 km",
        ] {
            assert!(length(&mut words(text).as_slice()).is_err(), "{text}");
        }
    }

    #[test]
    fn times_of_day_reach_beyond_midnight() {
        for (text, right) in [
            ("9:55", 35_700),
            ("9:55:30", 35_730),
            ("25:00", 90_000),
            ("-0:30", -1_800),
        ] {
            assert_eq!(time(text), Ok(right), "{text}");
        }
        for text in [
            "9",
            "9:5",
            "9:60",
            "9:55:60",
            "a:00",
            "9:55:00:00",
            "",
            "1234:00",
        ] {
            assert!(time(text).is_err(), "{text}");
        }
        assert_eq!(tell_time(-600), "23:50:00 the day before");
        assert_eq!(tell_time(35_999), "9:59:59");
        assert_eq!(tell_time(90_000), "1:00:00 the next day");
    }

    #[test]
    fn durations_add_up() {
        for (text, right) in [("10 min", 600), ("1 h 30 min", 5_400), ("90s", 90)] {
            assert_eq!(duration(&mut words(text).as_slice()), Ok(right), "{text}");
        }
        for (text, right) in [("30 s", 30), ("1 min 30 s", 90), ("255 s", 255)] {
            assert_eq!(wait(&mut words(text).as_slice()), Ok(right), "{text}");
        }
        assert!(wait(&mut words("256 s").as_slice()).is_err());
        assert_eq!((seconds(""), seconds("45")), (Ok(0), Ok(45)));
        assert!(seconds("4.5").is_err() && seconds("45 s").is_err() && seconds("256").is_err());
        assert_eq!(tell_duration(5_401), "1 h 30 min 1 s");
        assert_eq!(speed(&mut words("1.4 m/s").as_slice()), Ok(14));
        assert!(speed(&mut words("1.45 m/s").as_slice()).is_err());
    }
}
