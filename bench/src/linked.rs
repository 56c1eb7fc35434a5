//! The library, called as C calls it.

use bench::frames::Framer;
use bench::program::Program;
use bench::timetables::Reader;
use courier::call::Program as Courier;
use outside::records::{Evening, Lent, Query, Tables, Way};

macro_rules! declared {
    ($name:ident($($argument:ident: $kind:ty),*) -> $out:ty) => {
        extern "C" {
            fn $name($($argument: $kind),*) -> $out;
        }
    };
}

outside::calls!(declared);
outside::courier_calls!(declared);
outside::boarding_calls!(declared);

extern "C" {
    fn siltbrow_frame(
        vertices: *const u8,
        vertices_len: usize,
        list: *const u8,
        list_len: usize,
        coordinates: *const u8,
        coordinates_len: usize,
        answer: *mut u8,
        answer_len: usize,
    ) -> u32;

    fn siltbrow_timetable(
        stop_times: *const u8,
        stop_times_len: usize,
        stops: *const u8,
        stops_len: usize,
        trips: *const u8,
        trips_len: usize,
        hops: *mut u8,
        hops_len: usize,
        answer: *mut u8,
        answer_len: usize,
    ) -> u32;
}

/// A call over tables: numbers, slices that are read, slices that are written.
macro_rules! call {
    ($name:ident, $tables:expr, [$($number:expr),*], [$($read:expr),*], [$($written:expr),*]) => {{
        let (v, w, h) = ($tables.vertices, $tables.walks, $tables.hops);
        // SAFETY: each pair is a whole slice; those written to are borrowed alone.
        unsafe {
            $name(
                v.as_ptr(),
                v.len(),
                w.as_ptr(),
                w.len(),
                h.as_ptr(),
                h.len(),
                $tables.hop_size,
                $($number,)*
                $($read.as_ptr(), $read.len(),)*
                $($written.as_mut_ptr(), $written.len(),)*
            )
        }
    }};
}

/// The library that this program is linked with.
pub struct Linked;

impl Program for Linked {
    fn check(&self, tables: Tables) -> u64 {
        call!(siltbrow_check, tables, [], [], [])
    }

    fn run(&self, tables: Tables, q: Query, limit: u32, lent: Lent, answer: &mut [u8]) -> u32 {
        let Lent { held, settled } = lent;
        call!(
            siltbrow_run,
            tables,
            [q.record, q.offset, q.arrival, q.duration, q.speed, limit],
            [],
            [held, settled, answer]
        )
    }

    fn parts(
        &self,
        tables: Tables,
        q: Query,
        list: &[u8],
        parts: &mut [u8],
        answer: &mut [u8],
    ) -> u32 {
        call!(
            siltbrow_parts,
            tables,
            [q.record, q.offset, q.arrival, q.duration, q.speed],
            [list],
            [parts, answer]
        )
    }

    fn move_hops(&self, way: Way, source: &[u8], target: &mut [u8]) -> u64 {
        let call = match way {
            Way::Forward => siltbrow_hops_forward,
            Way::Backward => siltbrow_hops_backward,
        };
        // SAFETY: each pair is a whole slice; the one written to is borrowed alone.
        unsafe {
            call(
                source.as_ptr(),
                source.len(),
                target.as_mut_ptr(),
                target.len(),
            )
        }
    }

    fn judge(&self, tables: Tables, q: Query, list: &[u8]) -> u64 {
        call!(
            siltbrow_judge,
            tables,
            [q.record, q.offset, q.arrival, q.duration, q.speed],
            [list],
            []
        )
    }

    fn runs(&self, tables: Tables, queries: &[u8], lent: Lent, answers: &mut [u8]) -> u32 {
        let Lent { held, settled } = lent;
        call!(siltbrow_runs, tables, [], [queries], [held, settled, answers])
    }

    fn patients(
        &self,
        tables: Tables,
        evening: Evening,
        patients: &[u8],
        lent: Lent,
        report: &mut [u8],
        answer: &mut [u8],
    ) -> u32 {
        let Lent { held, settled } = lent;
        let (q, gap, arrivals) = (evening.query, evening.gap, evening.arrivals);
        call!(
            siltbrow_patients,
            tables,
            [q.record, q.offset, q.arrival, q.duration, q.speed, gap, arrivals],
            [patients],
            [held, settled, report, answer]
        )
    }
}

impl Courier for Linked {
    fn list(&self, tables: Tables, list: &mut [u8]) -> u64 {
        call!(siltbrow_courier_list, tables, [], [], [list])
    }

    fn run(&self, tables: Tables, list: &[u8], q: Query, limit: u32, lent: Lent, answer: &mut [u8]) -> u32 {
        let (v, w, h, Lent { held, settled }) = (tables.vertices, tables.walks, tables.hops, lent);
        // SAFETY: each pair is a whole slice; those written to are borrowed alone.
        unsafe {
            siltbrow_courier(
                v.as_ptr(),
                v.len(),
                w.as_ptr(),
                w.len(),
                h.as_ptr(),
                h.len(),
                tables.hop_size,
                list.as_ptr(),
                list.len(),
                q.record,
                q.offset,
                q.arrival,
                q.duration,
                q.speed,
                limit,
                held.as_mut_ptr(),
                held.len(),
                settled.as_mut_ptr(),
                settled.len(),
                answer.as_mut_ptr(),
                answer.len(),
            )
        }
    }

    fn parts(&self, tables: Tables, list: &[u8], q: Query, entries: &[u8], parts: &mut [u8], answer: &mut [u8]) -> u32 {
        let (v, w, h) = (tables.vertices, tables.walks, tables.hops);
        // SAFETY: as of the run.
        unsafe {
            siltbrow_courier_parts(
                v.as_ptr(),
                v.len(),
                w.as_ptr(),
                w.len(),
                h.as_ptr(),
                h.len(),
                tables.hop_size,
                list.as_ptr(),
                list.len(),
                q.record,
                q.offset,
                q.arrival,
                q.duration,
                q.speed,
                entries.as_ptr(),
                entries.len(),
                parts.as_mut_ptr(),
                parts.len(),
                answer.as_mut_ptr(),
                answer.len(),
            )
        }
    }
}

impl boarding::call::Program for Linked {
    fn run(&self, tables: Tables, q: Query, boarding: u32, limit: u32, lent: boarding::call::Lent, answer: &mut [u8]) -> u32 {
        let boarding::call::Lent { settled, scratch } = lent;
        call!(
            siltbrow_run_boarding,
            tables,
            [q.record, q.offset, q.arrival, q.duration, q.speed, boarding, limit],
            [],
            [settled, scratch, answer]
        )
    }
}

impl Framer for Linked {
    fn frame(&self, v: &[u8], l: &[u8], c: &[u8], answer: &mut [u8]) -> u32 {
        // SAFETY: each pair is a whole slice; the one written to is borrowed alone.
        unsafe {
            siltbrow_frame(
                v.as_ptr(),
                v.len(),
                l.as_ptr(),
                l.len(),
                c.as_ptr(),
                c.len(),
                answer.as_mut_ptr(),
                answer.len(),
            )
        }
    }
}

impl Reader for Linked {
    fn timetable(&self, t: &[u8], s: &[u8], i: &[u8], hops: &mut [u8], answer: &mut [u8]) -> u32 {
        // SAFETY: each pair is a whole slice; the two written to are borrowed alone.
        unsafe {
            siltbrow_timetable(
                t.as_ptr(),
                t.len(),
                s.as_ptr(),
                s.len(),
                i.as_ptr(),
                i.len(),
                hops.as_mut_ptr(),
                hops.len(),
                answer.as_mut_ptr(),
                answer.len(),
            )
        }
    }
}
