//! `outside make fuzz` and `judge fuzz`: as many damaged cases as there is
//! time for; `outside fuzz-jobs`: the same for jobs.

use std::io::{BufReader, BufWriter, Read, Write};
use std::time::{Duration, Instant};

use super::exchange::{judge_one, read_reply, write_case};
use super::jobs::{judge_job, printed};
use super::Tally;
use crate::cases::fuzz;
use crate::show;
use crate::wire::END;

/// Writes cases for so many seconds.
pub fn make(seed: u64, seconds: u64) -> Result<(), String> {
    let mut out = BufWriter::with_capacity(1 << 16, std::io::stdout().lock());
    let end = Instant::now() + Duration::from_secs(seconds);
    let failed = |error| format!("cannot write the cases: {error}");
    let mut index = 0;
    while Instant::now() < end {
        write_case(&mut out, &fuzz::case(seed, index)).map_err(failed)?;
        index += 1;
    }
    out.write_all(&[END])
        .and_then(|()| out.flush())
        .map_err(failed)
}

/// Judges what the driver answers, up to its end.
pub fn judge(seed: u64) -> Result<(), String> {
    let mut input = BufReader::with_capacity(1 << 16, std::io::stdin().lock());
    let mut tally = Tally::new();
    for index in 0.. {
        let case = fuzz::case(seed, index);
        let mut kind = [END];
        let answered = input.read_exact(&mut kind);
        if answered.is_ok() && kind == [END] {
            break;
        }
        let reply = answered.and_then(|()| read_reply(&mut kind.chain(&mut input), &case));
        match reply {
            // `slow` has a say in some of them: it takes its time.
            Ok(reply) => {
                let ask_slow = index % 16 == 0 && case.small();
                judge_one(
                    &format!("case {index}"),
                    &case,
                    &reply,
                    ask_slow,
                    &mut tally,
                );
            }
            Err(error) => {
                let shown = show::case(&case);
                tally.count(false, || {
                    format!("case {index}: no answer ({error})\n{shown}")
                });
                break;
            }
        }
    }
    tally.close()
}

/// Runs a program on damaged jobs for so many seconds.
pub fn jobs(seed: u64, seconds: u64, program: &[String]) -> Result<(), String> {
    let end = Instant::now() + Duration::from_secs(seconds);
    let mut tally = Tally::new();
    for index in 0.. {
        if Instant::now() >= end {
            break;
        }
        let bytes = fuzz::job(seed, index);
        let output = printed(program, bytes.clone());
        judge_job(
            &format!("job {index} of seed {seed}"),
            &bytes,
            output,
            &mut tally,
        );
    }
    tally.close()
}
