//! Jobs to compare `haul` on: right ones of every kind, and wrong ones of every kind.

use crate::job::{with_bad_line, with_file};
use crate::random::Random;

/// So many jobs chosen by the generator.
pub fn chosen(count: usize, random: &mut Random) -> Vec<Vec<u8>> {
    (0..count).map(|_| job(random)).collect()
}

/// A job chosen by the generator; about one in four is refused.
fn job(random: &mut Random) -> Vec<u8> {
    match random.below(16) {
        0 => no_line(random),
        1 => bad_line(random),
        2 => bad_script(random),
        3 => long_file(random),
        _ => good(random),
    }
}

/// Jobs at the edges of the rules.
pub fn edges() -> Vec<Vec<u8>> {
    let mut jobs: Vec<Vec<u8>> = Vec::new();
    for line in ["", "\n", "11 kdl", "11 \n", "1\n", "11\n", "11  k\n", "11 k\r\n", "41 k\n", "13 k\n", "11_k\n", "11 K\n"] {
        jobs.push(line.as_bytes().to_vec());
    }
    for letters in [1, 63, 64, 65] {
        jobs.push(with_file("21", &"h".repeat(letters), b"x"));
    }
    for length in [0, 1, 11, 12, 13, 123, 124, 125, 15_999, 16_000, 16_001] {
        for field in ["11", "22", "31"] {
            let file: Vec<u8> = (0..length).map(|i| (i * 7 + 255) as u8).collect();
            jobs.push(with_file(field, "k", &file));
        }
    }
    // every check fails at once: the first number wins
    jobs.push(with_file("91", "x", &[0; 17_000]));
    jobs.push(with_file("11", "x", &[0; 17_000]));
    jobs
}

fn script(random: &mut Random) -> String {
    let letters = 1 + random.below(64);
    (0..letters).map(|_| random.pick(&['k', 'l', 'd', 'h'])).collect()
}

fn good(random: &mut Random) -> Vec<u8> {
    let most = random.pick(&[0, 40, 600, 16_000]);
    let length = random.below(most + 1) as usize;
    let digits = format!("{}{}", 1 + random.below(3), 1 + random.below(2));
    let script = script(random);
    with_file(&digits, &script, &random.bytes(length))
}

fn no_line(random: &mut Random) -> Vec<u8> {
    let length = random.below(30) as usize;
    random.bytes(length).into_iter().filter(|&b| b != b'\n').collect()
}

fn bad_line(random: &mut Random) -> Vec<u8> {
    let job = good(random);
    with_bad_line(job, random)
}

fn bad_script(random: &mut Random) -> Vec<u8> {
    let mut letters = script(random);
    letters.push(random.pick(&['K', 'x', ' ', '\r', '\t', '0']));
    with_file("12", &letters, b"unused")
}

fn long_file(random: &mut Random) -> Vec<u8> {
    let script = script(random);
    let length = 16_001 + random.below(2_000) as usize;
    with_file("31", &script, &random.bytes(length))
}
