//! A plain picture of some lines between two axes, both by powers of ten.

use std::fmt::Write;

const WIDTH: f64 = 720.0;
const HEIGHT: f64 = 440.0;
const LEFT: f64 = 70.0;
const RIGHT: f64 = 250.0;
const TOP: f64 = 40.0;
const BOTTOM: f64 = 55.0;

/// How a line is drawn: what was counted has dots, full or hollow; a formula
/// is dashed and black, so that it shows on top of what it foretells.
#[derive(Clone, Copy)]
pub enum Kind {
    Full,
    Hollow,
    Formula,
}

pub struct Line {
    pub name: String,
    pub colour: &'static str,
    pub kind: Kind,
    pub points: Vec<(f64, f64)>,
}

impl Line {
    /// The attributes of its stroke.
    fn stroke(&self) -> String {
        match self.kind {
            Kind::Formula => "stroke=\"black\" stroke-dasharray=\"6 4\"".to_string(),
            _ => format!("stroke=\"{}\" stroke-width=\"1.6\"", self.colour),
        }
    }

    /// The dot at a place, if the line has dots.
    fn dot(&self, (x, y): (f64, f64)) -> String {
        let fill = match self.kind {
            Kind::Full => self.colour,
            Kind::Hollow => "white",
            Kind::Formula => return String::new(),
        };
        let colour = self.colour;
        format!(
            "<circle cx=\"{x:.1}\" cy=\"{y:.1}\" r=\"2.8\" fill=\"{fill}\" stroke=\"{colour}\"/>\n"
        )
    }

    fn drawn(&self, x: &Axis, y: &Axis) -> String {
        let place = |p: &(f64, f64)| (x.place(p.0), y.place(p.1));
        let places: Vec<(f64, f64)> = self.points.iter().map(place).collect();
        let path: Vec<String> = places
            .iter()
            .map(|p| format!("{:.1},{:.1}", p.0, p.1))
            .collect();
        let (path, stroke) = (path.join(" "), self.stroke());
        let dots: String = places.into_iter().map(|place| self.dot(place)).collect();
        format!("<polyline points=\"{path}\" fill=\"none\" {stroke}/>\n{dots}")
    }

    /// Its entry in the legend.
    fn entry(&self, index: usize) -> String {
        let (left, up) = (WIDTH - RIGHT + 20.0, TOP + 14.0 + 22.0 * index as f64);
        let (end, stroke) = (left + 30.0, self.stroke());
        let dot = self.dot((left + 15.0, up));
        let name = text(end + 8.0, up + 4.0, "start", &self.name);
        format!("<line x1=\"{left}\" y1=\"{up}\" x2=\"{end}\" y2=\"{up}\" {stroke}/>\n{dot}{name}")
    }
}

pub struct Picture {
    pub title: &'static str,
    pub across: &'static str,
    pub up: &'static str,
    pub lines: Vec<Line>,
}

/// An axis from one power of ten to another, on so many pixels.
struct Axis {
    low: i32,
    high: i32,
    start: f64,
    end: f64,
}

impl Axis {
    /// An axis by powers has no end below; numbers under 1 stand at 1.
    fn over(values: impl Iterator<Item = f64>, start: f64, end: f64) -> Self {
        let (mut low, mut high) = (i32::MAX, i32::MIN);
        for power in values.map(|value| value.max(1.0).log10()) {
            low = low.min(power.floor() as i32);
            high = high.max(power.ceil() as i32);
        }
        Axis {
            low,
            high: high.max(low + 1),
            start,
            end,
        }
    }

    fn place(&self, value: f64) -> f64 {
        let share =
            (value.max(1.0).log10() - f64::from(self.low)) / f64::from(self.high - self.low);
        self.start + share * (self.end - self.start)
    }

    fn marks(&self) -> impl Iterator<Item = f64> {
        (self.low..=self.high).map(|power| 10f64.powi(power))
    }
}

impl Picture {
    pub fn svg(&self) -> String {
        let points = || self.lines.iter().flat_map(|line| line.points.iter());
        let x = Axis::over(points().map(|p| p.0), LEFT, WIDTH - RIGHT);
        let y = Axis::over(points().map(|p| p.1), HEIGHT - BOTTOM, TOP);
        let mut svg = format!(
            "<svg xmlns=\"http://www.w3.org/2000/svg\" viewBox=\"0 0 {WIDTH} {HEIGHT}\" font-family=\"sans-serif\" font-size=\"13\">\n\
             <rect width=\"{WIDTH}\" height=\"{HEIGHT}\" fill=\"white\"/>\n"
        );
        svg += &text(LEFT, TOP - 16.0, "start", self.title);
        svg += &self.axes(&x, &y);
        for (index, line) in self.lines.iter().enumerate() {
            svg += &line.drawn(&x, &y);
            svg += &line.entry(index);
        }
        svg + "</svg>\n"
    }

    /// Both axes with their names, and a thin line at every power of ten.
    fn axes(&self, x: &Axis, y: &Axis) -> String {
        let mut svg = String::new();
        for value in x.marks() {
            let at = x.place(value);
            svg += &straight((at, y.start), (at, y.end), "#ddd");
            svg += &text(at, y.start + 18.0, "middle", &value.to_string());
        }
        for value in y.marks() {
            let at = y.place(value);
            svg += &straight((x.start, at), (x.end, at), "#ddd");
            svg += &text(x.start - 8.0, at + 4.0, "end", &value.to_string());
        }
        svg += &straight((x.start, y.start), (x.end, y.start), "black");
        svg += &straight((x.start, y.start), (x.start, y.end), "black");
        let middle = (x.start + x.end) / 2.0;
        svg += &text(middle, HEIGHT - 14.0, "middle", self.across);
        let middle = (y.start + y.end) / 2.0;
        let name = text(0.0, 0.0, "middle", self.up);
        let _ = writeln!(
            svg,
            "<g transform=\"translate(18 {middle:.1}) rotate(-90)\">{}</g>",
            name.trim()
        );
        svg
    }
}

fn straight(from: (f64, f64), to: (f64, f64), colour: &str) -> String {
    let ((x1, y1), (x2, y2)) = (from, to);
    format!(
        "<line x1=\"{x1:.1}\" y1=\"{y1:.1}\" x2=\"{x2:.1}\" y2=\"{y2:.1}\" stroke=\"{colour}\"/>\n"
    )
}

fn text(x: f64, y: f64, anchor: &str, words: &str) -> String {
    format!("<text x=\"{x:.1}\" y=\"{y:.1}\" text-anchor=\"{anchor}\">{words}</text>\n")
}
