//! A job: a line with the digits of a field and a source and a link's script, and behind it the file.

use crate::field::Field;
use crate::link::Link;
use crate::random::Random;
use crate::source::Source;

pub struct Job {
    pub field: Field,
    pub source: Source,
    pub link: Link,
    pub file: Vec<u8>,
}

/// A job, or the number of the first refusal.
pub fn parse(input: &[u8]) -> Result<Job, u32> {
    let end = input.iter().position(|&b| b == b'\n').ok_or(6u32)?;
    let (line, file) = (&input[..end], &input[end + 1..]);
    let [field, source, b' ', script @ ..] = line else {
        return Err(6);
    };
    let field = match field {
        b'1' => Field::Bits,
        b'2' => Field::Bytes,
        b'3' => Field::Residues,
        _ => return Err(6),
    };
    let source = match source {
        b'1' => Source::plain(),
        b'2' => Source::woven(0),
        _ => return Err(6),
    };
    let link = Link::scripted(script)?;
    if file.len() > 16_000 {
        return Err(8);
    }
    Ok(Job { field, source, link, file: file.to_vec() })
}

/// The bytes of a job.
pub fn with_file(digits: &str, script: &str, file: &[u8]) -> Vec<u8> {
    let mut job = format!("{digits} {script}\n").into_bytes();
    job.extend_from_slice(file);
    job
}

/// A job with any byte in place of one of its first three.
pub fn with_bad_line(mut job: Vec<u8>, random: &mut Random) -> Vec<u8> {
    let at = random.below(3) as usize;
    job[at] = random.next() as u8;
    job
}
