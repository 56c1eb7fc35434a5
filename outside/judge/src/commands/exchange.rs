//! `outside make` and `outside judge`: cases out to the library's driver,
//! its answers back, as `wire` has them. README.md has the layout.

use std::io::{BufReader, Read, Write};
use std::process::{Command, Stdio};

use super::{seeded, Tally};
use crate::cases::{big, stream};
use crate::marked::{self, Marked};
use crate::mutant::Sound;
use crate::outcome::{Call, Case, Outcome};
use crate::pair;
use crate::records::Way;
use crate::show;
use crate::wire::{self, bytes, put, slice, END};

/// Which cases are meant: those of a seed, the big ones, or the marked ones.
#[derive(Clone, Copy)]
pub enum Choice {
    Seed(u64, usize),
    Big,
    Marked,
}

impl Choice {
    /// What is chosen by words: `big`, `marked`, or the words of `seeded`.
    pub fn told(words: &[&str], cases: usize) -> Option<Choice> {
        match words {
            ["big"] => Some(Choice::Big),
            ["marked"] => Some(Choice::Marked),
            _ => seeded(words, cases).map(|(seed, cases)| Choice::Seed(seed, cases)),
        }
    }

    fn cases(self) -> Box<dyn Iterator<Item = Case>> {
        match self {
            Choice::Seed(seed, count) => Box::new(stream(seed).take(count)),
            Choice::Big => Box::new(big::ALL.iter().map(|big| (big.make)())),
            Choice::Marked => Box::new(marked::all().map(|marked| (marked.make)())),
        }
    }

    /// What the rules say of the case of this number, if it is a marked one.
    fn marked(self, number: usize) -> Option<&'static Marked> {
        match self {
            Choice::Marked => marked::all().nth(number),
            Choice::Seed(..) | Choice::Big => None,
        }
    }
}

const CHECK: u8 = 1;
const RUN: u8 = 2;
const PARTS: u8 = 3;
const PAIR: u8 = 4;
const FORWARD: u8 = 5;
const BACKWARD: u8 = 6;
const JUDGE: u8 = 7;
const RUNS: u8 = 8;
const PATIENTS: u8 = 9;

fn kind(call: Call) -> u8 {
    match call {
        Call::Check => CHECK,
        Call::Run => RUN,
        Call::Parts => PARTS,
        Call::Pair => PAIR,
        Call::Move(Way::Forward) => FORWARD,
        Call::Move(Way::Backward) => BACKWARD,
        Call::Judge => JUDGE,
        Call::Runs => RUNS,
        Call::Patients => PATIENTS,
    }
}

pub fn make(choice: Choice) -> Result<(), String> {
    let written = wire::make(choice.cases(), write_case);
    written.map_err(|error| format!("cannot write the cases: {error}"))
}

pub fn write_case(out: &mut impl Write, case: &Case) -> std::io::Result<()> {
    out.write_all(&[kind(case.call), u8::from(case.null)])?;
    if !case.call.takes_tables() {
        put(out, &case.hops)?;
        return put(out, &case.target);
    }
    for table in [&case.vertices, &case.walks, &case.hops] {
        put(out, table)?;
    }
    out.write_all(&case.hop_size.to_be_bytes())?;
    if case.call.takes_query() {
        let q = case.query;
        let numbers = [q.record, q.offset, q.arrival as u32, q.duration, q.speed];
        for number in numbers {
            out.write_all(&number.to_be_bytes())?;
        }
    }
    if case.call.runs() {
        out.write_all(&case.limit.to_be_bytes())?;
    }
    if case.call == Call::Runs {
        put(out, &case.queries)?;
    }
    if case.call == Call::Patients {
        out.write_all(&case.gap.to_be_bytes())?;
        out.write_all(&case.arrivals.to_be_bytes())?;
        put(out, &case.patients)?;
        put(out, &case.report)?;
    }
    if case.call.searches() {
        put(out, &case.held)?;
        put(out, &case.settled)?;
        put(out, &case.answer)?;
    }
    if case.call.takes_list() {
        put(out, &case.list)?;
    }
    if case.call.parts() {
        put(out, &case.parts)?;
        put(out, &case.parts_answer)?;
    }
    Ok(())
}

/// What the driver wrote about one case.
pub struct Reply {
    pub outcome: Outcome,
    /// One bit for each slice whose surroundings (or, for a table, contents)
    /// were changed.
    pub touched: u16,
}

pub fn judge(choice: Choice) -> Result<(), String> {
    let mut input = BufReader::with_capacity(1 << 16, std::io::stdin().lock());
    let mut tally = Tally::new();
    for (number, case) in choice.cases().enumerate() {
        let reply = match read_reply(&mut input, &case) {
            Ok(reply) => reply,
            Err(error) => {
                tally.count(false, || format!("case {number}: no answer ({error})"));
                tally.close()?;
                break;
            }
        };
        match choice.marked(number) {
            Some(marked) => judge_marked(marked, &case, &reply, &mut tally),
            None => judge_one(
                &format!("case {number}"),
                &case,
                &reply,
                case.small(),
                &mut tally,
            ),
        }
    }
    let mut end = Vec::new();
    let read = input.read_to_end(&mut end);
    if read.is_err() || end != [END] {
        tally.count(false, || "the answers do not end where they should".into());
    }
    tally.close()
}

/// One case through a driver that is started for it alone: what the library
/// behind it answers, unless it wrote where it may not.
pub fn ask(driver: &[String], case: &Case) -> Result<Outcome, String> {
    let (name, words) = driver.split_first().ok_or("no driver is named")?;
    let mut bytes = Vec::new();
    let written = write_case(&mut bytes, case);
    written.map_err(|error| format!("cannot write the case: {error}"))?;
    bytes.push(END);
    let failed = |error| format!("{name}: {error}");
    let mut child = Command::new(name)
        .args(words)
        .stdin(Stdio::piped())
        .stdout(Stdio::piped())
        .spawn()
        .map_err(failed)?;
    if let Some(mut input) = child.stdin.take() {
        input.write_all(&bytes).map_err(failed)?;
    }
    let output = child.wait_with_output().map_err(failed)?;
    let reply = read_reply(&mut output.stdout.as_slice(), case).map_err(failed)?;
    match (output.status.success(), reply.touched) {
        (true, 0) => Ok(reply.outcome),
        (true, touched) => Err(format!("touched beside the slices: {}", names(touched))),
        (false, _) => Err(format!("{name} ended with {}", output.status)),
    }
}

/// `fast` decides; `slow` has a say where it is asked, which should be wherever
/// it can look at every step.
pub fn judge_one(name: &str, case: &Case, reply: &Reply, ask_slow: bool, tally: &mut Tally) {
    let right = case.fast(Sound);
    let old = pair::gives_old_bytes(case, &right, ask_slow).unwrap_or(true);
    let agreed = old && (!ask_slow || case.slow() == right);
    let good = agreed && reply.outcome == right && reply.touched == 0;
    tally.count(good, || {
        let mut text = format!("{name}\n{}", show::case(case));
        if !agreed {
            text += "fast and slow, or two operations and one, differ here\n";
        }
        if reply.touched != 0 {
            text += &format!("touched beside the slices: {}\n", names(reply.touched));
        }
        text += &format!("library\n{}", show::outcome(case, &reply.outcome));
        text + &format!("expected\n{}", show::outcome(case, &right))
    });
}

/// What the rules say decides here; what they leave open is judged as in other
/// cases.
fn judge_marked(marked: &Marked, case: &Case, reply: &Reply, tally: &mut Tally) {
    tally.count(marked.fits(case, &reply.outcome), || {
        let library = show::outcome(case, &reply.outcome);
        format!(
            "{}: not what the rules say\n{}library\n{library}",
            marked.name,
            show::case(case)
        )
    });
    judge_one(marked.name, case, reply, case.small(), tally);
}

fn names(touched: u16) -> String {
    let slices = [
        "vertices",
        "walks",
        "hops",
        "held",
        "settled",
        "answer",
        "list",
        "parts",
        "the parts' answer",
        "target",
        "queries",
        "patients",
        "report",
    ];
    let bits = slices.iter().enumerate();
    let set: Vec<&str> = bits
        .filter(|(bit, _)| touched >> bit & 1 == 1)
        .map(|(_, name)| *name)
        .collect();
    set.join(", ")
}

pub fn read_reply(input: &mut impl Read, case: &Case) -> std::io::Result<Reply> {
    wire::begin(input, kind(case.call))?;
    let mut outcome = case.before();
    outcome.returned = u64::from_be_bytes(bytes(input)?);
    if case.call.searches() {
        outcome.held = slice(input)?;
        outcome.settled = slice(input)?;
        outcome.answer = slice(input)?;
    }
    if case.call == Call::Patients {
        outcome.report = slice(input)?;
    }
    if case.call.parts() {
        outcome.parts = slice(input)?;
        outcome.parts_answer = slice(input)?;
    }
    if !case.call.takes_tables() {
        outcome.target = slice(input)?;
    }
    let touched = u16::from_be_bytes(bytes(input)?);
    Ok(Reply { outcome, touched })
}
