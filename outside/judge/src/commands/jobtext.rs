//! `outside job`: a binary job from readable lines.
//!
//! The words are put into bytes and not judged, so that wrong jobs can be
//! written down too; only what does not fit its field is an error here.

use std::io::{Read, Write};

use crate::cases::jobs::query_record;
use crate::records::{Hop, Query, Vertex, Walk, JOB, NONE};

pub fn run(file: Option<&str>) -> Result<(), String> {
    let text = match file {
        Some(file) => std::fs::read_to_string(file).map_err(|e| format!("{file}: {e}"))?,
        None => {
            let mut text = String::new();
            let read = std::io::stdin().lock().read_to_string(&mut text);
            read.map_err(|e| format!("cannot read the text: {e}"))?;
            text
        }
    };
    let job = encode(&text)?;
    let written = std::io::stdout().lock().write_all(&job);
    written.map_err(|e| format!("cannot write the job: {e}"))
}

/// The job's bytes, or a message that names the line.
pub fn encode(text: &str) -> Result<Vec<u8>, String> {
    Ok(encode_lines(text)?.0)
}

/// The job's bytes, and for each record, the last one perhaps cut, the line
/// in which it begins.
pub fn encode_lines(text: &str) -> Result<(Vec<u8>, Vec<usize>), String> {
    let (mut job, mut lines) = (Vec::new(), Vec::new());
    for (number, line) in text.lines().enumerate() {
        let plain = line.split('#').next().unwrap_or("");
        let words: Vec<&str> = plain.split_whitespace().collect();
        if let Some((name, fields)) = words.split_first() {
            let record = record(name, fields);
            job.extend(record.map_err(|e| format!("line {}: {e}", number + 1))?);
            lines.resize(job.len().div_ceil(JOB), number + 1);
        }
    }
    Ok((job, lines))
}

fn record(name: &str, fields: &[&str]) -> Result<Vec<u8>, String> {
    match name {
        "vertex" => vertex(fields),
        "walk" => walk(fields),
        "hop" => hop(fields),
        "query" => query(fields),
        "raw" => raw(fields),
        _ => Err(format!(
            "'{name}' is no record; there are vertex, walk, hop, query and raw"
        )),
    }
}

/// The fields, if their number is right; `names` lists them for the message.
fn counted<'a>(
    fields: &'a [&'a str],
    counts: &[usize],
    names: &str,
) -> Result<&'a [&'a str], String> {
    if counts.contains(&fields.len()) {
        return Ok(fields);
    }
    Err(format!("{} fields instead of: {names}", fields.len()))
}

/// A whole number from `least` to `most`.
fn number(word: &str, what: &str, least: i64, most: i64) -> Result<i64, String> {
    let value: Option<i64> = word.parse().ok();
    match value {
        Some(value) if (least..=most).contains(&value) => Ok(value),
        Some(_) => Err(format!("{what} {word} does not fit, {least} to {most} do")),
        None => Err(format!("{what} '{word}' is no whole number")),
    }
}

fn unsigned(word: &str, what: &str) -> Result<u32, String> {
    Ok(number(word, what, 0, i64::from(u32::MAX))? as u32)
}

fn signed(word: &str, what: &str) -> Result<i32, String> {
    Ok(number(word, what, i64::from(i32::MIN), i64::from(i32::MAX))? as i32)
}

fn laid(kind: u8, body: &[u8]) -> Vec<u8> {
    let mut bytes = vec![0, 0, 0, kind];
    bytes.extend_from_slice(body);
    bytes.resize(JOB, 0);
    bytes
}

fn vertex(fields: &[&str]) -> Result<Vec<u8>, String> {
    let names = "first walk, first hop, departing (and zero, if it is not 0)";
    let f = counted(fields, &[3, 4], names)?;
    let zero = f.get(3).copied().unwrap_or("0");
    let vertex = Vertex {
        first_walk: unsigned(f[0], "first walk")?,
        first_hop: unsigned(f[1], "first hop")?,
        departing: number(f[2], "departing", 0, 65_535)? as u16,
        zero: number(zero, "zero", 0, 65_535)? as u16,
    };
    Ok(laid(1, &vertex.bytes()))
}

fn walk(fields: &[&str]) -> Result<Vec<u8>, String> {
    let names = "from, to, length, twin (- for none; and the wait, if it is not 0)";
    let f = counted(fields, &[4, 5], names)?;
    let wait = f.get(4).copied().unwrap_or("0");
    let twin = match f[3] {
        "-" => NONE,
        word => unsigned(word, "twin")?,
    };
    let walk = Walk {
        from: unsigned(f[0], "from")?,
        to: unsigned(f[1], "to")?,
        length: number(f[2], "length", 0, 0xff_ffff)? as u32,
        wait: number(wait, "wait", 0, 255)? as u32,
        twin,
    };
    Ok(laid(2, &walk.bytes()))
}

fn hop(fields: &[&str]) -> Result<Vec<u8>, String> {
    let f = counted(fields, &[4], "from, to, departure, arrival")?;
    let hop = Hop {
        from: unsigned(f[0], "from")?,
        to: unsigned(f[1], "to")?,
        departure: signed(f[2], "departure")?,
        arrival: signed(f[3], "arrival")?,
    };
    Ok(laid(3, &hop.bytes()))
}

fn query(fields: &[&str]) -> Result<Vec<u8>, String> {
    let f = counted(
        fields,
        &[5],
        "walk record, offset, arrival, duration, speed",
    )?;
    Ok(query_record(Query {
        record: unsigned(f[0], "walk record")?,
        offset: unsigned(f[1], "offset")?,
        arrival: signed(f[2], "arrival")?,
        duration: number(f[3], "duration", 0, 0xff_ffff)? as u32,
        speed: number(f[4], "speed", 0, 255)? as u32,
    }))
}

/// Bytes as they are, two hex digits each, any number of them: for records
/// that no other line can give.
fn raw(fields: &[&str]) -> Result<Vec<u8>, String> {
    let digits: Vec<char> = fields.concat().chars().collect();
    let pair = |pair: &[char]| {
        let text: String = pair.iter().collect();
        let byte = u8::from_str_radix(&text, 16).ok();
        byte.filter(|_| pair.len() == 2)
            .ok_or(format!("'{text}' is no pair of hex digits"))
    };
    digits.chunks(2).map(pair).collect()
}

#[cfg(test)]
mod tests {
    use super::encode;

    #[test]
    fn lines_become_records() {
        let text = "# one of each\nvertex 1 2 3\n\nwalk 1 0 2000 - # no twin\n\
                    walk 0 1 2000 0 45\nhop 3 1 -5 7\nquery 1 2 3 70000 10\nraw 00ff 1\n";
        assert!(encode(text).is_err_and(|e| e.starts_with("line 8:")));
        let job = encode(&text.replace("00ff 1", "00 ff")).unwrap_or_default();
        let mut right = vec![0, 0, 0, 1, 0, 0, 0, 1, 0, 0, 0, 2, 0, 3, 0, 0, 0, 0, 0, 0];
        right.extend([
            0, 0, 0, 2, 0, 0, 0, 1, 0, 0, 0, 0, 0, 0, 7, 0xd0, 255, 255, 255, 255,
        ]);
        right.extend([
            0, 0, 0, 2, 0, 0, 0, 0, 0, 0, 0, 1, 45, 0, 7, 0xd0, 0, 0, 0, 0,
        ]);
        right.extend([
            0, 0, 0, 3, 0, 0, 0, 3, 0, 0, 0, 1, 255, 255, 255, 251, 0, 0, 0, 7,
        ]);
        right.extend([
            0, 0, 0, 4, 0, 0, 0, 1, 0, 0, 0, 2, 0, 0, 0, 3, 1, 0x11, 0x70, 10,
        ]);
        right.extend([0, 255]);
        assert_eq!(job, right);
    }

    #[test]
    fn messages_name_the_line() {
        let message = |text: &str| encode(text).err().unwrap_or_default();
        assert_eq!(
            message("vertex 0 0 1\nwalk 1 0 x -"),
            "line 2: length 'x' is no whole number"
        );
        assert_eq!(
            message("walk 1 0 16777216 -"),
            "line 1: length 16777216 does not fit, 0 to 16777215 do"
        );
        assert_eq!(
            message("walk 1 0 7 - 256"),
            "line 1: wait 256 does not fit, 0 to 255 do"
        );
        assert_eq!(
            message("query 1 2 3 4 256"),
            "line 1: speed 256 does not fit, 0 to 255 do"
        );
        assert!(message("\n\nstop 1").starts_with("line 3: 'stop' is no record"));
        assert!(message("hop 1 2 3").starts_with("line 1: 3 fields instead of: from"));
    }
}
