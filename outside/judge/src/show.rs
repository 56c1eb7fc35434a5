//! Cases and outcomes in readable form; tables in the words of `outside job`.

use std::fmt::Write;

use crate::outcome::{Call, Case, Outcome};
use crate::records::{
    trip, word, Answer, Asked, Held, Hop, Listed, Part, PartsAnswer, Query, Settled, Vertex, Walk,
    Way, ANSWER, ASKED, HELD, HOP, LISTED, NONE, PART, PARTS_ANSWER, SETTLED, TRIP_HOP, VERTEX,
    WALK,
};

/// More records than this are only counted.
const MOST_SHOWN: usize = 60;

fn hex(bytes: &[u8]) -> String {
    bytes.iter().map(|b| format!("{b:02x}")).collect()
}

/// One line per record; what is behind the last whole record in hex.
fn table(text: &mut String, bytes: &[u8], size: usize, line: impl Fn(usize) -> String) {
    let count = bytes.len() / size;
    for i in 0..count.min(MOST_SHOWN) {
        let _ = writeln!(text, "{}", line(i));
    }
    if count > MOST_SHOWN {
        let _ = writeln!(text, "# ... {count} records in all");
    }
    let rest = &bytes[count * size..];
    if !rest.is_empty() {
        let _ = writeln!(text, "# and {} bytes more: {}", rest.len(), hex(rest));
    }
}

fn vertex_line(v: Vertex) -> String {
    let zero = match v.zero {
        0 => String::new(),
        zero => format!(" {zero}"),
    };
    format!(
        "vertex {} {} {}{zero}",
        v.first_walk, v.first_hop, v.departing
    )
}

fn walk_line(w: Walk) -> String {
    let twin = match w.twin {
        NONE => "-".to_string(),
        twin => twin.to_string(),
    };
    let wait = match w.wait {
        0 => String::new(),
        wait => format!(" {wait}"),
    };
    format!("walk {} {} {} {twin}{wait}", w.from, w.to, w.length)
}

fn hop_line(h: Hop) -> String {
    format!("hop {} {} {} {}", h.from, h.to, h.departure, h.arrival)
}

fn query_line(q: Query) -> String {
    let Query {
        record,
        offset,
        arrival,
        duration,
        speed,
    } = q;
    format!("query {record} {offset} {arrival} {duration} {speed}")
}

/// Hops of either size; those of another are read as 16 bytes.
fn hops(text: &mut String, bytes: &[u8], size: u32) {
    match size as usize {
        TRIP_HOP => table(text, bytes, TRIP_HOP, |i| {
            let line = hop_line(Hop::read(bytes, TRIP_HOP, i));
            format!("{line} # trip {}", trip(bytes, i))
        }),
        _ => table(text, bytes, HOP, |i| hop_line(Hop::read(bytes, HOP, i))),
    }
    if size as usize != HOP {
        let _ = writeln!(text, "# hop size {size}");
    }
}

pub fn case(case: &Case) -> String {
    let mut text = String::new();
    if let Call::Move(way) = case.call {
        let size = if way == Way::Forward { HOP } else { TRIP_HOP };
        hops(&mut text, &case.hops, size as u32);
        let lent = case.target.len();
        let _ = writeln!(text, "# moved {way:?}, bytes lent: target {lent}");
        return text;
    }
    table(&mut text, &case.vertices, VERTEX, |i| {
        vertex_line(Vertex::read(&case.vertices, i))
    });
    table(&mut text, &case.walks, WALK, |i| {
        walk_line(Walk::read(&case.walks, i))
    });
    hops(&mut text, &case.hops, case.hop_size);
    if case.call == Call::Check {
        text += "# the check alone\n";
        return text;
    }
    if case.call.takes_query() {
        let _ = writeln!(text, "{}", query_line(case.query));
    }
    if case.call == Call::Runs {
        table(&mut text, &case.queries, ASKED, |i| {
            let asked = Asked::read(&case.queries, i);
            format!("{} # limit {}", query_line(asked.query), asked.limit)
        });
    }
    if case.call == Call::Patients {
        let _ = writeln!(
            text,
            "# gap {}, arrivals {}, report of {} bytes, patients:{}",
            case.gap,
            case.arrivals,
            case.report.len(),
            figures(&case.patients)
        );
    }
    if case.call.searches() {
        let _ = writeln!(
            text,
            "# limit {}, bytes lent: held {}, settled {}, answer {}",
            case.limit,
            case.held.len(),
            case.settled.len(),
            case.answer.len()
        );
    }
    if case.call.takes_list() {
        let (rows, size) = match case.call {
            Call::Judge => (listed_rows(&case.list), LISTED),
            _ => (settled_rows(&case.list), SETTLED),
        };
        let _ = writeln!(text, "# list:{rows}");
        let rest = case.list.len() % size;
        if rest != 0 {
            let _ = writeln!(text, "# and {rest} bytes more");
        }
    }
    if case.call.parts() {
        let _ = writeln!(
            text,
            "# bytes lent: parts {}, their answer {}",
            case.parts.len(),
            case.parts_answer.len()
        );
    }
    text
}

/// The outcome of a call; of a refusal or a wrong call only what was changed.
pub fn outcome(case: &Case, after: &Outcome) -> String {
    if case.call.returns_refusal() {
        let (number, place) = (after.returned >> 32, after.returned & 0xffff_ffff);
        let mut text = format!("  {:?} {number} {place}\n", case.call);
        if !case.call.takes_tables() {
            let _ = writeln!(text, "  target: {}", hex(&after.target));
        }
        return text;
    }
    let mut text = format!("  returned {:x}\n", after.returned);
    let changed = |name: &str, before: &[u8], now: &[u8], list: String| match now {
        now if now == before => format!("  {name}: as it was lent\n"),
        now if now.iter().all(|&b| b == 0) => format!("  {name}: all zero\n"),
        _ => format!("  {name}:{list}\n"),
    };
    if case.call.searches() {
        for answer in after.answer.chunks_exact(ANSWER).take(MOST_SHOWN) {
            let _ = writeln!(text, "  {:?}", Answer::read(answer));
        }
        let held = rows(&after.held, HELD, |i| {
            let h = Held::read(&after.held, i);
            format!(" ({} {} {} {})", h.vertex, h.distance, h.state, h.remaining)
        });
        text += &changed("held", &case.held, &after.held, held);
        let settled = settled_rows(&after.settled);
        text += &changed("settled", &case.settled, &after.settled, settled);
    }
    if case.call == Call::Patients {
        let report = figures(&after.report);
        text += &changed("report", &case.report, &after.report, report);
    }
    if case.call.parts() {
        if after.parts_answer.len() == PARTS_ANSWER {
            let _ = writeln!(text, "  {:?}", PartsAnswer::read(&after.parts_answer));
        }
        let parts = rows(&after.parts, PART, |i| {
            let p = Part::read(&after.parts, i);
            format!(" ({} {} {})", p.record, p.start, p.end)
        });
        text += &changed("parts", &case.parts, &after.parts, parts);
    }
    text
}

fn settled_rows(bytes: &[u8]) -> String {
    rows(bytes, SETTLED, |i| {
        let s = Settled::read(bytes, i);
        format!(" ({} {})", s.vertex, s.distance)
    })
}

fn figures(bytes: &[u8]) -> String {
    rows(bytes, 4, |i| format!(" {}", word(bytes, 4 * i)))
}

fn listed_rows(bytes: &[u8]) -> String {
    rows(bytes, LISTED, |i| {
        let l = Listed::read(bytes, i);
        format!(" ({} {} {})", l.vertex, l.distance, l.record)
    })
}

fn rows(bytes: &[u8], size: usize, row: impl Fn(usize) -> String) -> String {
    let count = bytes.len() / size;
    let mut text: String = (0..count.min(MOST_SHOWN)).map(row).collect();
    if count > MOST_SHOWN {
        let _ = write!(text, " ... {count} in all");
    }
    text
}
