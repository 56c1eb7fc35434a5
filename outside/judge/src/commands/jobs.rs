//! `outside reach`, and the jobs for the library's own `reach`.

use std::fs;
use std::io::{Read, Write};
use std::path::{Path, PathBuf};
use std::process::{Command, Stdio};

use super::Tally;
use crate::cases::jobs::job;
use crate::fast;
use crate::mutant::{Fault, Sound};
use crate::slow;

/// The program itself: a job on standard input, its lines on standard output.
pub fn reach<F: Fault>(fault: F) -> Result<(), String> {
    let mut bytes = Vec::new();
    let read = std::io::stdin().lock().read_to_end(&mut bytes);
    read.map_err(|error| format!("cannot read the job: {error}"))?;
    let text = fast::print(&bytes, fault);
    let written = std::io::stdout().lock().write_all(text.as_bytes());
    written.map_err(|error| format!("cannot write the lines: {error}"))
}

fn path(dir: &Path, number: usize, ending: &str) -> PathBuf {
    dir.join(format!("{number:06}.{ending}"))
}

/// Writes the jobs as DIR/000000.job and so on.
pub fn make(seed: u64, count: usize, dir: &Path) -> Result<(), String> {
    let failed = |error| format!("{}: {error}", dir.display());
    fs::create_dir_all(dir).map_err(failed)?;
    for number in 0..count {
        let bytes = job(seed, number as u64);
        fs::write(path(dir, number, "job"), bytes).map_err(failed)?;
    }
    Ok(())
}

/// Judges the outputs DIR/000000.out and so on.
pub fn judge(seed: u64, count: usize, dir: &Path) -> Result<(), String> {
    let mut tally = Tally::new();
    for number in 0..count {
        let output = fs::read(path(dir, number, "out")).map_err(|error| error.to_string());
        judge_one(seed, number, output, &mut tally);
    }
    tally.close()
}

/// Runs a program on each job and judges what it prints.
pub fn drive(seed: u64, count: usize, program: &[String]) -> Result<(), String> {
    let mut tally = Tally::new();
    for number in 0..count {
        let output = printed(program, job(seed, number as u64));
        judge_one(seed, number, output, &mut tally);
    }
    tally.close()
}

/// What a program prints on a job.
pub fn printed(program: &[String], job: Vec<u8>) -> Result<Vec<u8>, String> {
    let started = Command::new(&program[0])
        .args(&program[1..])
        .stdin(Stdio::piped())
        .stdout(Stdio::piped())
        .spawn();
    let mut child = started.map_err(|error| format!("{}: {error}", program[0]))?;
    // The program may stop reading at the first fault, so a pipe that is
    // closed early is no error; and it may print before it has read all, so
    // the job is written beside the reading.
    let input = child.stdin.take();
    let writer = std::thread::spawn(move || {
        if let Some(mut input) = input {
            let _ = input.write_all(&job);
        }
    });
    let output = child.wait_with_output().map_err(|error| error.to_string());
    let _ = writer.join();
    match output? {
        output if output.status.success() => Ok(output.stdout),
        output => Err(format!("the program ended with {}", output.status)),
    }
}

fn judge_one(seed: u64, number: usize, output: Result<Vec<u8>, String>, tally: &mut Tally) {
    let name = format!("job {number} of seed {seed}");
    judge_job(&name, &job(seed, number as u64), output, tally);
}

/// Both programs have to print the same, and so has the one that is judged.
pub fn judge_job(name: &str, job: &[u8], output: Result<Vec<u8>, String>, tally: &mut Tally) {
    let (right, slow) = (fast::print(job, Sound), slow::print(job));
    let good = right == slow && output.as_deref() == Ok(right.as_bytes());
    tally.count(good, || {
        let got = match &output {
            Ok(bytes) => String::from_utf8_lossy(bytes).into_owned(),
            Err(error) => format!("{error}\n"),
        };
        let agreed = if right == slow {
            ""
        } else {
            "fast and slow differ here\n"
        };
        format!("{name}\n{agreed}printed\n{got}expected\n{right}")
    });
}
