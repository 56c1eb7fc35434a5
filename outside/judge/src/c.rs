//! The calls of include/siltbrow.h over walks and hops as Rust has them, each
//! written once: for the stand-in, which defines them, and for the bench, which
//! calls the library. A slice is a pointer and then its length.

/// Gives `$make!` each call: its name, its arguments, what it returns.
#[rustfmt::skip] // a kind of arguments a line
#[macro_export]
macro_rules! calls {
    ($make:ident) => {
        $make! { siltbrow_check(
            vertices: *const u8, vertices_len: usize, walks: *const u8, walks_len: usize, hops: *const u8, hops_len: usize, hop_size: u32
        ) -> u64 }
        $make! { siltbrow_run(
            vertices: *const u8, vertices_len: usize, walks: *const u8, walks_len: usize, hops: *const u8, hops_len: usize, hop_size: u32,
            record: u32, offset: u32, arrival: i32, duration: u32, speed: u32, limit: u32,
            held: *mut u8, held_len: usize, settled: *mut u8, settled_len: usize, answer: *mut u8, answer_len: usize
        ) -> u32 }
        $make! { siltbrow_parts(
            vertices: *const u8, vertices_len: usize, walks: *const u8, walks_len: usize, hops: *const u8, hops_len: usize, hop_size: u32,
            record: u32, offset: u32, arrival: i32, duration: u32, speed: u32,
            list: *const u8, list_len: usize, parts: *mut u8, parts_len: usize, answer: *mut u8, answer_len: usize
        ) -> u32 }
        $make! { siltbrow_hops_forward(source: *const u8, source_len: usize, target: *mut u8, target_len: usize) -> u64 }
        $make! { siltbrow_hops_backward(source: *const u8, source_len: usize, target: *mut u8, target_len: usize) -> u64 }
        $make! { siltbrow_judge(
            vertices: *const u8, vertices_len: usize, walks: *const u8, walks_len: usize, hops: *const u8, hops_len: usize, hop_size: u32,
            record: u32, offset: u32, arrival: i32, duration: u32, speed: u32, list: *const u8, list_len: usize
        ) -> u64 }
        $make! { siltbrow_runs(
            vertices: *const u8, vertices_len: usize, walks: *const u8, walks_len: usize, hops: *const u8, hops_len: usize, hop_size: u32,
            queries: *const u8, queries_len: usize,
            held: *mut u8, held_len: usize, settled: *mut u8, settled_len: usize, answers: *mut u8, answers_len: usize
        ) -> u32 }
        $make! { siltbrow_patients(
            vertices: *const u8, vertices_len: usize, walks: *const u8, walks_len: usize, hops: *const u8, hops_len: usize, hop_size: u32,
            record: u32, offset: u32, arrival: i32, duration: u32, speed: u32, gap: u32, arrivals: u32,
            patients: *const u8, patients_len: usize, held: *mut u8, held_len: usize, settled: *mut u8, settled_len: usize,
            report: *mut u8, report_len: usize, answer: *mut u8, answer_len: usize
        ) -> u32 }
    };
}

/// The same of the courier's calls. `list` has the record numbers, `settled_list` is the list whose parts are asked for.
#[rustfmt::skip]
#[macro_export]
macro_rules! courier_calls {
    ($make:ident) => {
        $make! { siltbrow_courier_list(
            vertices: *const u8, vertices_len: usize, walks: *const u8, walks_len: usize, hops: *const u8, hops_len: usize, hop_size: u32,
            list: *mut u8, list_len: usize
        ) -> u64 }
        $make! { siltbrow_courier(
            vertices: *const u8, vertices_len: usize, walks: *const u8, walks_len: usize, hops: *const u8, hops_len: usize, hop_size: u32,
            list: *const u8, list_len: usize, record: u32, offset: u32, departure: i32, duration: u32, speed: u32, limit: u32,
            held: *mut u8, held_len: usize, settled: *mut u8, settled_len: usize, answer: *mut u8, answer_len: usize
        ) -> u32 }
        $make! { siltbrow_courier_parts(
            vertices: *const u8, vertices_len: usize, walks: *const u8, walks_len: usize, hops: *const u8, hops_len: usize, hop_size: u32,
            list: *const u8, list_len: usize, record: u32, offset: u32, departure: i32, duration: u32, speed: u32,
            settled_list: *const u8, settled_list_len: usize, parts: *mut u8, parts_len: usize, answer: *mut u8, answer_len: usize
        ) -> u32 }
    };
}

/// The same of the run with a boarding time.
#[rustfmt::skip]
#[macro_export]
macro_rules! boarding_calls {
    ($make:ident) => {
        $make! { siltbrow_run_boarding(
            vertices: *const u8, vertices_len: usize, walks: *const u8, walks_len: usize, hops: *const u8, hops_len: usize, hop_size: u32,
            record: u32, offset: u32, arrival: i32, duration: u32, speed: u32, boarding: u32, limit: u32,
            settled: *mut u8, settled_len: usize, scratch: *mut u8, scratch_len: usize, answer: *mut u8, answer_len: usize
        ) -> u32 }
    };
}
