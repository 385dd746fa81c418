//! What the program `haul` writes for a job, by the protocol's rules: each packet crosses in a frame of its own.

use crate::field::Field;
use crate::job::{self, Job};

/// The answer to any bytes on standard input.
pub fn answer(input: &[u8]) -> Vec<u8> {
    match job::parse(input) {
        Ok(job) => carried(&job),
        Err(number) => format!("job {number}\n").into_bytes(),
    }
}

/// Every packet is in a frame of its own, so every frame is fresh.
fn carried(job: &Job) -> Vec<u8> {
    let bytes_a_packet = if job.field == Field::Bits { 16 } else { 128 };
    let n = (4 + job.file.len()).div_ceil(bytes_a_packet);
    let length = job.file.len();
    let text = format!("packets {n}\nframes {n}\nfresh {n}\nrepeat 0\nrefused 0\nwhole {length}\n");
    [text.as_bytes(), &job.file].concat()
}
