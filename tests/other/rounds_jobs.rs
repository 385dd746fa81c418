//! Jobs to compare `deliver` on: right ones of every kind, and wrong ones of every kind.

use crate::job::{with_bad_line, with_file};
use crate::random::Random;
use crate::rounds;

/// A job, and what the program has to write for it.
pub struct Case {
    pub job: Vec<u8>,
    pub answer: Vec<u8>,
}

impl Case {
    fn new(job: Vec<u8>) -> Case {
        let answer = rounds::answer(&job);
        Case { job, answer }
    }

    /// What the job is about: its two digits and the word that it ends with, or its refusal.
    pub fn kind(&self) -> String {
        match ending(&self.answer) {
            Some((word, _)) => format!("{} {word}", String::from_utf8_lossy(&self.job[..2])),
            None => String::from_utf8_lossy(self.answer.trim_ascii()).into_owned(),
        }
    }

    /// Whether an ending is none with a file, or the file is the one that was handed in.
    pub fn shows_the_file(&self, answer: &[u8]) -> bool {
        match ending(answer) {
            Some(("whole", shown)) => self.job.splitn(2, |&b| b == b'\n').nth(1) == Some(shown),
            _ => true,
        }
    }
}

/// The word of the line behind the four counts, and all that follows that line.
fn ending(answer: &[u8]) -> Option<(&str, &[u8])> {
    let mut parts = answer.splitn(6, |&b| b == b'\n');
    let line = str::from_utf8(parts.nth(4)?).ok()?;
    Some((line.split(' ').next()?, parts.next()?))
}

/// So many jobs chosen by the generator. Those that use up all rounds take long, so only the first few of them are
/// kept.
pub fn chosen(count: usize, random: &mut Random) -> Vec<Case> {
    let mut spent = 0;
    let drawn = std::iter::repeat_with(|| Case::new(job(random)));
    let kept = drawn.filter(|case| {
        let ran_out = case.kind().ends_with("spent");
        spent += usize::from(ran_out);
        !ran_out || spent <= 6
    });
    kept.take(count).collect()
}

/// Jobs at the edges of the rules.
pub fn edges() -> Vec<Case> {
    let mut jobs: Vec<Vec<u8>> = Vec::new();
    let lines = [
        "", "\n", "1\n", "11\n", "11 \n", "11  k\n", "11 kdl", "11 k\r\n", "11 K\n", "11 k l\n", "11_k\n", "11\tk\n", " 11 k\n",
        "01 k\n", "41 k\n", "10 k\n", "13 k\n", "k\n", "11 k\n\n", "11 \r\n", "11 k\0\n", "\u{feff}11 k\n",
    ];
    jobs.extend(lines.map(|line| line.as_bytes().to_vec()));
    for letters in [1, 63, 64, 65] {
        jobs.push(with_file("21", &"h".repeat(letters), b"x"));
    }
    for length in [0, 1, 11, 12, 13, 27, 28, 123, 124, 125, 508, 509, 3_964, 15_999, 16_000, 16_001] {
        for digits in DIGITS {
            let file: Vec<u8> = (0..length).map(|i| (i * 7 + 255) as u8).collect();
            jobs.push(with_file(digits, "k", &file));
        }
    }
    for script in ["d", "h", "hl", "lh", "hd", "dh", "kdl", "hhhhl", "lllllllk"] {
        for digits in ["12", "22", "32"] {
            jobs.push(with_file(digits, script, &[0x5A; 700]));
        }
    }
    jobs.push(with_file("11", "kdl", b"barley 40\noats 7\nwheat 120\nok\n"));
    // a held frame comes late and is refused
    jobs.push(with_file("11", "dhhhdd", &[0; 976]));
    // nothing gets through, or never packet 1: all rounds are used up
    jobs.push(with_file("11", "l", b""));
    jobs.push(with_file("32", &"l".repeat(64), &[1; 600]));
    jobs.push(with_file("21", "kl", &[2; 300]));
    // the same file over the same link, woven
    jobs.push(with_file("22", "kl", &[2; 300]));
    // every check fails at once: the first number wins
    jobs.push(with_file("91", "x", &[0; 17_000]));
    jobs.push(with_file("11", "x", &[0; 17_000]));
    jobs.into_iter().map(Case::new).collect()
}

/// Every field with every source.
pub const DIGITS: [&str; 6] = ["11", "12", "21", "22", "31", "32"];

/// A job chosen by the generator; about one in six is refused.
fn job(random: &mut Random) -> Vec<u8> {
    match random.below(24) {
        0 => no_line(random),
        1 => bad_line(random),
        2 => bad_script(random),
        3 => long_file(random),
        _ => good(random),
    }
}

/// A script, short or long, of all letters alike or with few or many of one kind.
fn script(random: &mut Random) -> String {
    let most = random.pick(&[3, 8, 64]);
    let letters = 1 + random.below(most);
    let mix = random.pick(&["kldh", "kldh", "kkkkkkl", "kklh", "kd", "kh", "hhl", "dl", "lllk", "kkkkkkkkkkkkh"]);
    (0..letters).map(|_| char::from(random.pick(mix.as_bytes()))).collect()
}

/// A file, mostly short, with every byte alike, of few values, or of all.
fn file(random: &mut Random) -> Vec<u8> {
    let most = random.pick(&[1, 40, 600, 4_000, 16_000]);
    let length = match random.below(8) {
        0 => random.pick(&[0, 1, 12, 13, 124, 125, 16_000]),
        _ => random.below(most + 1),
    };
    let bytes = random.bytes(length as usize);
    match random.below(5) {
        0 => vec![random.pick(&[0, 10, 255]); bytes.len()],
        1 => bytes.into_iter().map(|byte| b"0123456789 \n"[usize::from(byte) % 12]).collect(),
        _ => bytes,
    }
}

fn good(random: &mut Random) -> Vec<u8> {
    let digits = random.pick(&DIGITS);
    let script = script(random);
    with_file(digits, &script, &file(random))
}

fn no_line(random: &mut Random) -> Vec<u8> {
    let length = random.below(30) as usize;
    let job = if random.below(2) == 0 { good(random) } else { random.bytes(length) };
    job.into_iter().filter(|&b| b != b'\n').collect()
}

fn bad_line(random: &mut Random) -> Vec<u8> {
    let job = good(random);
    with_bad_line(job, random)
}

fn bad_script(random: &mut Random) -> Vec<u8> {
    let mut letters: Vec<char> = script(random).chars().collect();
    let at = random.below(letters.len() as u32 + 1) as usize;
    match random.below(4) {
        0 => letters = vec!['k'; 65 + at],
        _ => letters.insert(at, random.pick(&['K', 'x', ' ', '\r', '\t', '\0', '0', 'é'])),
    }
    let letters: String = letters.into_iter().collect();
    with_file(random.pick(&DIGITS), &letters, &file(random))
}

fn long_file(random: &mut Random) -> Vec<u8> {
    let script = script(random);
    let length = 16_001 + random.below(2_000) as usize;
    with_file(random.pick(&DIGITS), &script, &random.bytes(length))
}
