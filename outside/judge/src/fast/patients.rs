//! The patients of an evening: the tables are judged once, each arrival is
//! searched, and its list read back into the report.

use super::check::{asked, judge_lengths, judge_records};
use super::run::{searched, wipe};
use crate::mutant::{Fault, Mutant};
use crate::records::{
    word, Answer, Evening, Lent, Query, Refusal, Settled, Tables, HELD, SETTLED, VERTEX,
};

/// The bytes of a count, and of a figure of the report.
const FIGURE: usize = 4;
const MOST_PATIENTS: u32 = 65_535;
const MOST_GAP: u32 = 3_600;
const MOST_ARRIVALS: u32 = 96;
const LAST_TIME: i64 = 172_800;

pub fn patients<F: Fault>(
    tables: Tables,
    evening: Evening,
    patients: &[u8],
    lent: &mut Lent,
    report: &mut [u8],
    fault: F,
) -> Answer {
    let mut own = Report {
        vertices: tables.vertices.len() / VERTEX,
        patients,
        report,
        fault,
    };
    if let Some(refusal) = own.judged(tables, evening, lent) {
        if refusal.number > 7 && fault.is(Mutant::PatientsRefusalZeroes) {
            own.report.fill(0);
        }
        return Answer::refused(refusal);
    }
    own.report.fill(0);
    let skipped = u32::from(fault.is(Mutant::PatientsLastSkipped));
    let (mut first, mut last) = (None, Answer::default());
    let mut refused = None;
    for index in 0..evening.arrivals - skipped {
        last = searched(tables, at(evening, index, fault), u32::MAX, lent, fault);
        if last.refusal != 0 {
            refused = Some((index, last));
            if !fault.is(Mutant::PatientsLastRefusal) {
                break;
            }
            continue;
        }
        first = first.or(Some(last));
        own.add(index as usize, lent.settled, last.settled as usize);
    }
    if let Some((index, answer)) = refused {
        wipe(lent);
        if !fault.is(Mutant::PatientsReportLeft) {
            own.report.fill(0);
        }
        let place = match fault.is(Mutant::PatientsArrivalPlace) {
            true => index,
            false => answer.place,
        };
        return Answer { place, ..answer };
    }
    own.put_total(evening.arrivals as usize);
    match fault.is(Mutant::PatientsFirstAnswer) {
        true => first.unwrap_or(last),
        false => last,
    }
}

/// The query of one arrival.
fn at<F: Fault>(evening: Evening, index: u32, fault: F) -> Query {
    let more = evening.gap * (index + u32::from(fault.is(Mutant::PatientsGapFirst)));
    let arrival = match fault.is(Mutant::PatientsBackward) {
        true => evening.query.arrival - more as i32,
        false => evening.query.arrival + more as i32,
    };
    Query {
        arrival,
        ..evening.query
    }
}

/// The counts, and the report that is made of them.
struct Report<'a, F> {
    vertices: usize,
    patients: &'a [u8],
    report: &'a mut [u8],
    fault: F,
}

impl<F: Fault> Report<'_, F> {
    /// 1 to 7, 19 and 20.
    fn judged(&self, tables: Tables, evening: Evening, lent: &Lent) -> Option<Refusal> {
        let fault = self.fault;
        let rows = [(3, lent.held.len(), HELD), (4, lent.settled.len(), SETTLED)];
        let lengths = judge_lengths(tables, &rows, fault).or_else(|| self.sizes(evening));
        let counts = || self.too_many();
        let hours = || self.hours(evening);
        let records = || judge_records(tables, fault);
        let query = || asked(tables, evening.query, fault);
        if fault.is(Mutant::PatientsBeforeQuery) {
            return lengths
                .or_else(records)
                .or_else(counts)
                .or_else(query)
                .or_else(hours);
        }
        let early = lengths.or_else(records).or_else(query);
        match fault.is(Mutant::PatientsHoursFirst) {
            true => early.or_else(hours).or_else(counts),
            false => early.or_else(counts).or_else(hours),
        }
    }

    /// Places 6 and 7.
    fn sizes(&self, evening: Evening) -> Option<Refusal> {
        let fault = self.fault;
        let counts = self.vertices * FIGURE;
        let mut figures = (self.vertices + evening.arrivals as usize + 1) * FIGURE;
        if fault.is(Mutant::PatientsSizeWraps) {
            figures = figures as u32 as usize;
        }
        let given = self.patients.len();
        let table = given == counts || (fault.is(Mutant::PatientsLonger) && given > counts);
        let longer = fault.is(Mutant::PatientsReportLonger) && self.report.len() > figures;
        let report = self.report.len() == figures || longer;
        match (table, report) {
            (true, true) => None,
            (false, false) if fault.is(Mutant::PatientsReportFirst) => Some(Refusal::at(1, 7)),
            (false, _) if fault.is(Mutant::PatientsPlace) => Some(Refusal::at(1, 5)),
            (false, _) => Some(Refusal::at(1, 6)),
            (true, false) => Some(Refusal::at(1, 7)),
        }
    }

    fn count(&self, vertex: usize) -> u32 {
        match self.fault.is(Mutant::PatientsLonger) && self.patients.len() < FIGURE * (vertex + 1) {
            true => 0,
            false => word(self.patients, FIGURE * vertex),
        }
    }

    fn too_many(&self) -> Option<Refusal> {
        let fault = self.fault;
        let most = match fault {
            _ if fault.is(Mutant::PatientsLoose) => MOST_PATIENTS + 1,
            _ if fault.is(Mutant::PatientsTight) => MOST_PATIENTS - 1,
            _ => MOST_PATIENTS,
        };
        let judged = self.vertices - usize::from(fault.is(Mutant::PatientsLastUnjudged));
        let over = |v: &usize| match fault.is(Mutant::PatientsSigned) {
            true => self.count(*v) as i32 > most as i32,
            false => self.count(*v) > most,
        };
        let bad = (0..judged).find(over)?;
        Some(Refusal::at(19, bad))
    }

    fn hours(&self, evening: Evening) -> Option<Refusal> {
        let fault = self.fault;
        let more = |mutant: Mutant| u32::from(fault.is(mutant));
        let gaps = 1..=MOST_GAP + more(Mutant::GapLoose) - more(Mutant::GapTight);
        let most = MOST_ARRIVALS + more(Mutant::ArrivalsLoose) - more(Mutant::ArrivalsTight);
        let last = LAST_TIME + i64::from(fault.is(Mutant::LastArrivalLoose))
            - i64::from(fault.is(Mutant::LastArrivalTight));
        let gap = gaps.contains(&evening.gap);
        let arrivals = (1..=most).contains(&evening.arrivals);
        let times = i64::from(evening.arrivals) - i64::from(!fault.is(Mutant::LastArrivalNext));
        let end = i64::from(evening.query.arrival) + i64::from(evening.gap) * times;
        let good = [gap, arrivals, end <= last];
        if fault.is(Mutant::ArrivalsBeforeGap) && !gap && !arrivals {
            return Some(Refusal::at(20, 1));
        }
        let bad = good.iter().position(|good| !good)?;
        Some(Refusal::at(20, bad))
    }

    fn figure(&self, at: usize) -> u32 {
        word(self.report, FIGURE * at)
    }

    fn put(&mut self, at: usize, figure: u32) {
        self.report[FIGURE * at..][..FIGURE].copy_from_slice(&figure.to_be_bytes());
    }

    /// Adds what an arrival has settled.
    fn add(&mut self, index: usize, settled: &[u8], count: usize) {
        let fault = self.fault;
        let mut covered = 0u32;
        for step in 0..count {
            let vertex = Settled::read(settled, step).vertex as usize;
            let before = self.figure(vertex);
            if before == 0 || !fault.is(Mutant::PatientsOnce) {
                self.put(vertex, before + 1);
            }
            covered += match fault.is(Mutant::PatientsByStep) {
                true => self.count(step),
                false => self.count(vertex),
            };
            if fault.is(Mutant::PatientsNewOnly) && before > 0 {
                covered -= self.count(vertex);
            }
        }
        let place = self.vertices + index + usize::from(fault.is(Mutant::PatientsTotalFirst));
        self.put(place, covered);
    }

    /// The total of all, covered or not.
    fn put_total(&mut self, arrivals: usize) {
        let fault = self.fault;
        let counted = |v: &usize| !fault.is(Mutant::PatientsTotalCovered) || self.figure(*v) > 0;
        let mut total = (0..self.vertices)
            .filter(counted)
            .fold(0, |sum: u32, v| sum + self.count(v));
        if fault.is(Mutant::PatientsTotalSigned) {
            total = total.min(i32::MAX as u32);
        }
        match fault.is(Mutant::PatientsTotalFirst) {
            true => self.put(self.vertices, total),
            false => self.put(self.vertices + arrivals, total),
        }
    }
}
