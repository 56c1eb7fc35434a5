//! The covered streets as a picture, or as GeoJSON for a map.

use std::fmt::Write;

use crate::quantity::{tell_duration, tell_metres, tell_time};
use crate::tell::Story;
use crate::town::Street;

type Point = (f64, f64);

/// The points of a street's stretch; a street is a straight line.
fn stretch(ends: (Point, Point), street: &Street, (start, end): (u32, u32)) -> (Point, Point) {
    let share = |at: u32| f64::from(at) / f64::from(street.length.max(1));
    let ((x1, y1), (x2, y2)) = ends;
    let point = |at: u32| (x1 + (x2 - x1) * share(at), y1 + (y2 - y1) * share(at));
    (point(start), point(end))
}

/// Where each corner lies; an error where one has no place.
fn places(story: &Story) -> Result<Vec<Point>, String> {
    let places: Option<Vec<Point>> = story.town.corners.iter().map(|c| c.at).collect();
    places.ok_or_else(|| {
        let bare = story.town.corners.iter().find(|corner| corner.at.is_none());
        let name = bare.map_or("", |corner| &corner.name);
        format!("a picture needs a place for every corner, and '{name}' has none: corner {name} EAST NORTH")
    })
}

/// From coordinates to the picture's own.
struct Frame {
    west: f64,
    north: f64,
    scale: f64,
    width: f64,
    height: f64,
}

/// Room around the corners; on the right for their names too.
const MARGIN: f64 = 50.0;
const NAMES: f64 = 110.0;
const LONGEST: f64 = 900.0;

impl Frame {
    fn over(points: &[Point]) -> Self {
        let least = |values: &mut dyn Iterator<Item = f64>| values.fold(f64::INFINITY, f64::min);
        let west = least(&mut points.iter().map(|p| p.0));
        let south = least(&mut points.iter().map(|p| p.1));
        let east = -least(&mut points.iter().map(|p| -p.0));
        let north = -least(&mut points.iter().map(|p| -p.1));
        let across = (east - west).max(north - south).max(f64::MIN_POSITIVE);
        let scale = (LONGEST - 2.0 * MARGIN - NAMES) / across;
        Frame {
            west,
            north,
            scale,
            width: (east - west) * scale + 2.0 * MARGIN + NAMES,
            height: (north - south) * scale + 2.0 * MARGIN + 20.0,
        }
    }

    fn place(&self, (x, y): Point) -> Point {
        let across = (x - self.west) * self.scale + MARGIN;
        let down = (self.north - y) * self.scale + MARGIN + 20.0;
        (across, down)
    }
}

/// A line of a path.
fn line(frame: &Frame, (from, to): (Point, Point)) -> String {
    let ((x1, y1), (x2, y2)) = (frame.place(from), frame.place(to));
    format!("M{x1:.1} {y1:.1}L{x2:.1} {y2:.1}")
}

fn path(lines: &str, style: &str) -> String {
    format!("<path d=\"{lines}\" fill=\"none\" {style}/>\n")
}

fn stroke(colour: &str, width: f64) -> String {
    format!("stroke=\"{colour}\" stroke-width=\"{width:.1}\" stroke-linecap=\"round\"")
}

/// The picture: streets grey, covered stretches over them, rides dashed,
/// corners in time as full dots, the place red.
pub fn svg(story: &Story) -> Result<String, String> {
    let places = places(story)?;
    let frame = Frame::over(&places);
    let ends = |street: &Street| (places[street.from], places[street.to]);
    let (mut all, mut covered, mut rides) = (String::new(), String::new(), String::new());
    for (street, stretches) in story.town.streets.iter().zip(story.covered()) {
        all += &line(&frame, ends(street));
        for one in stretches {
            covered += &line(&frame, stretch(ends(street), street, one));
        }
    }
    for ride in &story.town.rides {
        rides += &line(&frame, (places[ride.from], places[ride.to]));
    }
    let few = story.town.corners.len() <= 400;
    let thick = if few { 6.0 } else { 1.2 };
    let (width, height) = (frame.width, frame.height);
    let mut svg = format!(
        "<svg xmlns=\"http://www.w3.org/2000/svg\" viewBox=\"0 0 {width:.0} {height:.0}\" font-family=\"sans-serif\" font-size=\"13\">\n\
         <rect width=\"100%\" height=\"100%\" fill=\"white\"/>\n"
    );
    svg += &path(&all, &stroke("#c9c9c9", thick / 3.0));
    svg += &path(&covered, &stroke("#1b8a5a", thick));
    if few {
        svg += &path(
            &rides,
            "stroke=\"#8a5fbf\" stroke-width=\"1.5\" stroke-dasharray=\"7 5\"",
        );
        svg += &corners(story, &frame, &places);
    }
    svg += &place(story, &frame, &places);
    Ok(svg + "</svg>\n")
}

fn corners(story: &Story, frame: &Frame, places: &[Point]) -> String {
    let mut leave = vec![None; places.len()];
    for settled in &story.found.settled {
        let corner = story.tables.corner[settled.vertex as usize];
        leave[corner] = Some(tell_time(story.leave(settled.distance)));
    }
    let mut svg = String::new();
    for ((corner, &at), leave) in story.town.corners.iter().zip(places).zip(leave) {
        let (x, y) = frame.place(at);
        let fill = if leave.is_some() { "#1b8a5a" } else { "white" };
        let name = escaped(&corner.name);
        let time = leave.map_or(String::new(), |time| {
            format!(" <tspan fill=\"#555\">{time}</tspan>")
        });
        let _ = writeln!(
            svg,
            "<circle cx=\"{x:.1}\" cy=\"{y:.1}\" r=\"5\" fill=\"{fill}\" stroke=\"#555\"/>\n\
             <text x=\"{:.1}\" y=\"{:.1}\" paint-order=\"stroke\" stroke=\"white\" stroke-width=\"4\">{name}{time}</text>",
            x + 9.0,
            y - 8.0
        );
    }
    svg
}

/// The place, and what is asked above the picture.
fn place(story: &Story, frame: &Frame, places: &[Point]) -> String {
    let (x, y) = frame.place(asked(story, places));
    let by = tell_time(i64::from(story.query.arrival));
    let title = format!(
        "{}, by {by}, within {}",
        story.place(),
        tell_duration(story.query.duration)
    );
    format!(
        "<circle cx=\"{x:.1}\" cy=\"{y:.1}\" r=\"7\" fill=\"#d0312d\" stroke=\"white\" stroke-width=\"2\"/>\n\
         <text x=\"{MARGIN}\" y=\"30\" font-size=\"16\">{}</text>\n",
        escaped(&title)
    )
}

/// Where the place lies on the map.
fn asked(story: &Story, places: &[Point]) -> Point {
    let walk = story.walk();
    let corner = |vertex: u32| places[story.tables.corner[vertex as usize]];
    let ((x1, y1), (x2, y2)) = (corner(walk.from), corner(walk.to));
    let share = f64::from(story.query.offset) / f64::from(walk.length.max(1));
    (x1 + (x2 - x1) * share, y1 + (y2 - y1) * share)
}

fn escaped(text: &str) -> String {
    text.replace('&', "&amp;")
        .replace('<', "&lt;")
        .replace('>', "&gt;")
}

/// A string of JSON.
fn quoted(text: &str) -> String {
    let mut json = String::from("\"");
    for letter in text.chars() {
        match letter {
            '"' | '\\' => {
                json.push('\\');
                json.push(letter);
            }
            c if u32::from(c) < 32 => json += &format!("\\u{:04x}", u32::from(c)),
            c => json.push(c),
        }
    }
    json + "\""
}

/// Covered stretches as lines, corners in time as points. Coordinates are
/// those of the corners, east first: for a map, longitude and latitude.
pub fn geojson(story: &Story) -> Result<String, String> {
    let places = places(story)?;
    let mut features = Vec::new();
    let point = |(x, y): Point| format!("[{x},{y}]");
    for (street, stretches) in story.town.streets.iter().zip(story.covered()) {
        let ends = (places[street.from], places[street.to]);
        let name = quoted(&story.town.street_name(street));
        for one in stretches {
            let (from, to) = stretch(ends, street, one);
            features.push(format!(
                "{{\"type\":\"Feature\",\"properties\":{{\"street\":{name},\"start_m\":{},\"end_m\":{}}},\
                 \"geometry\":{{\"type\":\"LineString\",\"coordinates\":[{},{}]}}}}",
                tell_metres(one.0),
                tell_metres(one.1),
                point(from),
                point(to)
            ));
        }
    }
    for settled in &story.found.settled {
        let corner = story.tables.corner[settled.vertex as usize];
        features.push(format!(
            "{{\"type\":\"Feature\",\"properties\":{{\"corner\":{},\"leave_by\":\"{}\"}},\
             \"geometry\":{{\"type\":\"Point\",\"coordinates\":{}}}}}",
            quoted(story.town.name(corner)),
            tell_time(story.leave(settled.distance)),
            point(places[corner])
        ));
    }
    Ok(format!(
        "{{\"type\":\"FeatureCollection\",\"features\":[\n{}\n]}}\n",
        features.join(",\n")
    ))
}

#[cfg(test)]
mod tests {
    use super::{escaped, quoted};

    #[test]
    fn names_stay_whole() {
        assert_eq!(quoted("a\"b\\c\n"), "\"a\\\"b\\\\c\\u000a\"");
        assert_eq!(escaped("a<b & c"), "a&lt;b &amp; c");
    }
}
