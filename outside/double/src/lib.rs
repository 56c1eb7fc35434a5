//! A stand-in for the library, made of the judge's own fast program. It shows
//! that driver and judge work, and says nothing about the library. With
//! OUTSIDE_MUTANT set it answers as that wrong version does; with TIMETABLE_WRONG
//! it reads timetables as that wrong version of their reader; with COURIER_WRONG the
//! courier is that wrong version, with BOARDING_WRONG the run with a boarding time.

use boarding::call::{Lent as Boarded, Program as Boarding};
use courier::call::Program as Courier;
use courier::quick::Quick;
use courier::wrong;
use outside::mutant::{Mutant, Sound};
use outside::outcome::{Fast, Program};
use outside::records::{Evening, Lent, Query, Tables, Way};
use timetable::{call, plain, quick, wrong as misread};

/// An argument as C gives it.
#[derive(Clone, Copy)]
enum Given {
    Number(usize),
    Bytes(*mut u8),
}

impl From<usize> for Given {
    fn from(number: usize) -> Self {
        Given::Number(number)
    }
}

impl From<u32> for Given {
    fn from(number: u32) -> Self {
        Given::Number(number as usize)
    }
}

impl From<i32> for Given {
    fn from(number: i32) -> Self {
        Given::from(number as u32)
    }
}

impl From<*mut u8> for Given {
    fn from(bytes: *mut u8) -> Self {
        Given::Bytes(bytes)
    }
}

impl From<*const u8> for Given {
    fn from(bytes: *const u8) -> Self {
        Given::Bytes(bytes.cast_mut())
    }
}

/// A call with its arguments by name. The length of a slice stands behind it.
struct Call<'a> {
    name: &'a str,
    given: &'a [(&'static str, Given)],
}

impl<'a> Call<'a> {
    fn number(&self, name: &str) -> u32 {
        let named = |&&(own, _): &&(&str, Given)| own == name;
        match self.given.iter().find(named) {
            Some(&(_, Given::Number(number))) => number as u32,
            _ => unreachable!("{} has no number {name}", self.name),
        }
    }

    fn slice(&self, name: &str) -> Option<(*mut u8, usize)> {
        let at = self.given.iter().position(|&(own, _)| own == name)?;
        match self.given[at..] {
            [(_, Given::Bytes(bytes)), (_, Given::Number(len)), ..] => Some((bytes, len)),
            _ => None,
        }
    }

    /// An empty slice may come as NULL, which no Rust slice can begin at.
    ///
    /// # Safety
    /// The pointer begins as many readable bytes as its length says, which nobody
    /// writes meanwhile.
    unsafe fn read(&self, name: &str) -> &'a [u8] {
        match self.slice(name) {
            None | Some((_, 0)) => &[],
            Some((bytes, len)) => std::slice::from_raw_parts(bytes, len),
        }
    }

    /// # Safety
    /// The same of bytes that nobody else uses meanwhile.
    unsafe fn write(&self, name: &str) -> &'a mut [u8] {
        match self.slice(name) {
            None | Some((_, 0)) => &mut [],
            Some((bytes, len)) => std::slice::from_raw_parts_mut(bytes, len),
        }
    }

    unsafe fn tables(&self) -> Tables<'a> {
        Tables {
            vertices: self.read("vertices"),
            walks: self.read("walks"),
            hops: self.read("hops"),
            hop_size: self.number("hop_size"),
        }
    }

    fn query(&self) -> Query {
        Query {
            record: self.number("record"),
            offset: self.number("offset"),
            arrival: self.number("arrival") as i32,
            duration: self.number("duration"),
            speed: self.number("speed"),
        }
    }

    unsafe fn lent(&self) -> Lent<'a> {
        Lent {
            held: self.write("held"),
            settled: self.write("settled"),
        }
    }

    unsafe fn moved<P: Program>(&self, program: P, way: Way) -> u64 {
        program.move_hops(way, self.read("source"), self.write("target"))
    }

    /// What a program returns, in the slices that are lent.
    unsafe fn by<P: Program>(&self, program: P) -> u64 {
        match self.name {
            "check" => program.check(self.tables()),
            "run" => {
                let (query, limit) = (self.query(), self.number("limit"));
                let answer = self.write("answer");
                program
                    .run(self.tables(), query, limit, self.lent(), answer)
                    .into()
            }
            "parts" => {
                let (list, parts) = (self.read("list"), self.write("parts"));
                let answer = self.write("answer");
                program
                    .parts(self.tables(), self.query(), list, parts, answer)
                    .into()
            }
            "hops_forward" => self.moved(program, Way::Forward),
            "hops_backward" => self.moved(program, Way::Backward),
            "judge" => program.judge(self.tables(), self.query(), self.read("list")),
            "runs" => {
                let (queries, answers) = (self.read("queries"), self.write("answers"));
                program
                    .runs(self.tables(), queries, self.lent(), answers)
                    .into()
            }
            "patients" => {
                let evening = Evening {
                    query: self.query(),
                    gap: self.number("gap"),
                    arrivals: self.number("arrivals"),
                };
                let (patients, lent) = (self.read("patients"), self.lent());
                let (report, answer) = (self.write("report"), self.write("answer"));
                program
                    .patients(self.tables(), evening, patients, lent, report, answer)
                    .into()
            }
            name => unreachable!("{name} is not among these calls"),
        }
    }

    /// What the quick reader of timetables returns, or the wrong version that is asked for.
    unsafe fn timetable(&self) -> u32 {
        let times = self.read("stop_times");
        let (stops, trips) = (self.read("stops"), self.read("trips"));
        let (hops, answer) = (self.write("hops"), self.write("answer"));
        let Some(rules) = wrong_reader() else {
            return quick::timetable(times, stops, trips, hops, answer);
        };
        let mut case = call::Case::new(times, stops, trips, 0);
        case.hops = hops.to_vec();
        case.answer = answer.to_vec();
        let left = plain::answered(&case, rules);
        hops.copy_from_slice(&left.hops);
        answer.copy_from_slice(&left.answer);
        left.value
    }

    /// What the quick courier returns, or the wrong version of it that is asked for.
    unsafe fn courier(&self) -> u64 {
        match wrong::Wrong::from_environment() {
            Ok(None) => self.carried(Quick(wrong::Sound)),
            Ok(Some(version)) => self.carried(Quick(version)),
            Err(message) => {
                eprintln!("double: {message}");
                std::process::exit(2)
            }
        }
    }

    /// What the quick run with a boarding time returns, or the wrong version of it that is asked for.
    unsafe fn boarding(&self) -> u32 {
        match boarding::wrong::Wrong::from_environment() {
            Ok(None) => self.boarded(boarding::quick::Quick(boarding::wrong::Sound)),
            Ok(Some(version)) => self.boarded(boarding::quick::Quick(version)),
            Err(message) => {
                eprintln!("double: {message}");
                std::process::exit(2)
            }
        }
    }

    unsafe fn boarded<B: Boarding>(&self, program: B) -> u32 {
        let lent = Boarded {
            settled: self.write("settled"),
            scratch: self.write("scratch"),
        };
        let (boarding, limit) = (self.number("boarding"), self.number("limit"));
        let answer = self.write("answer");
        program.run(self.tables(), self.query(), boarding, limit, lent, answer)
    }

    unsafe fn carried<C: Courier>(&self, courier: C) -> u64 {
        let tables = self.tables();
        if self.name == "courier_list" {
            return courier.list(tables, self.write("list"));
        }
        let list = self.read("list");
        let query = Query {
            arrival: self.number("departure") as i32,
            record: self.number("record"),
            offset: self.number("offset"),
            duration: self.number("duration"),
            speed: self.number("speed"),
        };
        let answer = self.write("answer");
        let returned = match self.name {
            "courier" => courier.run(tables, list, query, self.number("limit"), self.lent(), answer),
            _ => courier.parts(tables, list, query, self.read("settled_list"), self.write("parts"), answer),
        };
        returned.into()
    }

    /// With DOUBLE_STRAY set to a call, one of its slices, and `before`, `behind`
    /// or `inside`, as in `run held behind`, one byte there is changed: a library
    /// that the driver's guards have to find out.
    ///
    /// # Safety
    /// The byte meant is writable, as it is between the driver's guards.
    unsafe fn stray(&self) {
        let Ok(text) = std::env::var("DOUBLE_STRAY") else {
            return;
        };
        let words: Vec<&str> = text.split_whitespace().collect();
        let [own, name, place] = words[..] else {
            return;
        };
        let Some((bytes, len)) = self.slice(name).filter(|_| own == self.name) else {
            return;
        };
        let at = match place {
            "before" => bytes.wrapping_sub(1),
            "behind" => bytes.wrapping_add(len),
            _ => bytes,
        };
        if !bytes.is_null() && len > 0 {
            *at ^= 0x10;
        }
    }
}

/// The wrong version of the timetable's reader that is asked for.
fn wrong_reader() -> Option<&'static plain::Rules> {
    let name = std::env::var("TIMETABLE_WRONG").ok()?;
    let rules = misread::named(&name);
    if rules.is_none() {
        eprintln!("double: there is no wrong version {name}");
        std::process::exit(2)
    }
    rules
}

/// The answer of the fast program, or of the wrong version of it that is asked for.
///
/// # Safety
/// Each pointer begins as many bytes as the length behind it says, and those that
/// are written overlap nothing else.
unsafe fn answered(name: &str, given: &[(&'static str, Given)]) -> u64 {
    let name = name.trim_start_matches("siltbrow_");
    let call = Call { name, given };
    let returned = match Mutant::from_environment() {
        _ if name == "timetable" => call.timetable().into(),
        _ if name.starts_with("courier") => call.courier(),
        _ if name == "run_boarding" => call.boarding().into(),
        Ok(None) => call.by(Fast(Sound)),
        Ok(Some(mutant)) => call.by(Fast(mutant)),
        Err(message) => {
            eprintln!("double: {message}");
            std::process::exit(2)
        }
    };
    call.stray();
    returned
}

macro_rules! exported {
    ($name:ident($($argument:ident: $kind:ty),*) -> $out:ty) => {
        /// # Safety
        /// As of `answered`.
        #[no_mangle]
        pub unsafe extern "C" fn $name($($argument: $kind),*) -> $out {
            answered(stringify!($name), &[$((stringify!($argument), $argument.into())),*]) as $out
        }
    };
}

outside::calls!(exported);
outside::courier_calls!(exported);
outside::boarding_calls!(exported);

exported! { siltbrow_timetable(
    stop_times: *const u8, stop_times_len: usize, stops: *const u8, stops_len: usize, trips: *const u8, trips_len: usize,
    hops: *mut u8, hops_len: usize, answer: *mut u8, answer_len: usize
) -> u32 }
