//! `town records`: a job that was written record by record. The program's
//! lines stay as they are; what it refuses is told with the line. Where no
//! program is named the job is only read.

use outside::commands::jobtext;

use super::{print, Wanted};
use crate::oracle::{self, Reply};
use crate::refusal;

pub fn run(wanted: &Wanted) -> Result<(), String> {
    let path = &wanted.files[0];
    let text = std::fs::read_to_string(path).map_err(|error| format!("{path}: {error}"))?;
    let encoded = jobtext::encode_lines(&text);
    let (job, lines) = encoded.map_err(|message| format!("{path}: {message}"))?;
    if wanted.program.is_empty() {
        return Ok(());
    }
    let (said, reply) = oracle::reach(&wanted.program, &job)?;
    match reply {
        Reply::Found(_) => print(said),
        Reply::Refused(refused) => Err(refusal::in_job(path, &job, &lines, refused)),
        Reply::Faulty(record) => Err(refusal::faulty(path, &lines, record)),
    }
}
