//! Whole transfers of 16,000 bytes, by the program and by the same algorithm in Rust.

use std::fs::{self, File};
use std::io;
use std::path::{Path, PathBuf};
use std::process::Command;

use super::clock::{self, Job, Times};

pub const FIELDS: [(&str, &str); 3] = [("1", "bits"), ("2", "bytes"), ("3", "residues")];
const SOURCES: [(&str, &str); 2] = [("1", "plain"), ("2", "woven")];
const SCRIPTS: [&str; 3] = ["k", "kdlh", "kkkl"];
const TURNS: usize = 100;

/// Writes a job to a file of its own.
fn write(directory: &Path, line: &str, size: usize) -> io::Result<PathBuf> {
    let mut input = format!("{line}\n").into_bytes();
    let mut number = 1u32;
    input.extend((0..size).map(|_| {
        number = number.wrapping_mul(1_664_525).wrapping_add(1_013_904_223);
        (number >> 24) as u8
    }));
    let path = directory.join(format!("job-{}-{size}", line.replace(' ', "-")));
    fs::write(&path, input)?;
    Ok(path)
}

/// A job with a file of this size.
pub fn job(directory: &Path, field: &str, source: &str, script: &str, size: usize) -> io::Result<Job> {
    let line = format!("{field}{source} {script}");
    Ok(Job { empty: write(directory, &line, 0)?, input: write(directory, &line, size)? })
}

/// What the program writes.
pub fn output(program: &Path, input: &Path) -> io::Result<Vec<u8>> {
    Ok(Command::new(program).stdin(File::open(input)?).output()?.stdout)
}

/// How many frames were sent, which is the first line of what the program writes.
pub fn sent(written: &[u8]) -> String {
    let line = written.split(|byte| *byte == b'\n').next().unwrap_or_default();
    String::from_utf8_lossy(line).trim_start_matches("sent ").to_string()
}

/// Whether both programs wrote the same for every job.
pub fn measure(programs: &[&Path; 2], directory: &Path) -> io::Result<bool> {
    let mut names = Vec::new();
    let mut jobs = Vec::new();
    for (field, field_name) in FIELDS {
        for (source, source_name) in SOURCES {
            for script in SCRIPTS {
                let job = job(directory, field, source, script, 16_000)?;
                let written = output(programs[0], &job.input)?;
                if written != output(programs[1], &job.input)? {
                    return Ok(false);
                }
                names.push((field_name, source_name, script, sent(&written)));
                jobs.push(job);
            }
        }
    }
    let times = clock::jobs(programs, &jobs, TURNS)?;
    println!("\nTransfers of 16,000 bytes: CPU time in milliseconds, the whole and what goes beyond an empty file's transfer");
    print!("{:<10}{:<8}{:<8}{:>8}", "field", "source", "script", "sent");
    println!("{:>10}{:>8}{:>8}{:>10}{:>8}{:>8}", "proved", "Rust", "ratio", "proved", "Rust", "ratio");
    for ((field, source, script, sent), Times { whole, beyond }) in names.iter().zip(times) {
        print!("{field:<10}{source:<8}{script:<8}{sent:>8}");
        print!("{:>10.2}{:>8.2}{:>8.2}", whole[0], whole[1], whole[0] / whole[1]);
        println!("{:>10.2}{:>8.2}{:>8.2}", beyond[0], beyond[1], beyond[0] / beyond[1]);
    }
    Ok(true)
}
