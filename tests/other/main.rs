//! Another implementation of the protocol, written from docs/PROTOCOL.md, and the runs that compare the two.
//!
//!     other CRATES [SEED]     CRATES is the folder of the crates, each with its built program in out/
//!
//! What is compared by the first seed is the same in each run, and by the second another each time: the first is 1, and
//! the clock gives the second. A SEED stands for both. Prints each seed, a line for each comparison, and last
//! 'N passed, M failed'.

mod alone;
mod alone_jobs;
mod damage;
mod equations;
mod field;
mod file;
mod frame;
mod job;
mod lean_receiver;
mod link;
mod listening;
mod random;
mod receiver;
mod rig;
mod rounds;
mod rounds_jobs;
mod sender;
mod source;

use field::Field;
use lean_receiver::LeanReceiver;
use listening::{ALL_BREAKS, Break, FOUR_BREAKS};
use random::Random;
use receiver::{Receiver, Receives};
use rounds_jobs::Case;
use std::collections::BTreeMap;
use std::io::Write;
use std::process::{Command, Stdio};

unsafe extern "C" {
    safe fn lambjade_bytes_mul(a: u16, b: u16) -> u16;
    safe fn lambjade_bytes_inverse(a: u16) -> u16;
    safe fn lambjade_residues_mul(a: u16, b: u16) -> u16;
    safe fn lambjade_residues_inverse(a: u16) -> u16;
}

type Check = Result<String, String>;

/// All products of two codes and all inverses, against the proved field's.
fn tables(field: Field, mul: extern "C" fn(u16, u16) -> u16, inverse: extern "C" fn(u16) -> u16) -> Check {
    let q = field.order();
    for a in 0..q {
        for b in 0..q {
            let (here, there) = (field.mul(a, b), u32::from(mul(a as u16, b as u16)));
            if here != there {
                return Err(format!("{field:?}: {a} times {b} is {here} here and {there} there"));
            }
        }
        let (here, there) = (field.inverse(a).unwrap_or(0), u32::from(inverse(a as u16)));
        if here != there {
            return Err(format!("{field:?}: the inverse of {a} is {here} here and {there} there"));
        }
    }
    Ok(format!("{field:?}: {} products and {q} inverses agree", q * q))
}

/// What the built program writes for the input; it has to end with status 0.
fn run(program: &str, input: &[u8]) -> Result<Vec<u8>, String> {
    let mut child = Command::new(program)
        .stdin(Stdio::piped())
        .stdout(Stdio::piped())
        .spawn()
        .map_err(|e| format!("{program} does not start: {e}"))?;
    let mut stdin = child.stdin.take().expect("a pipe");
    let bytes = input.to_vec();
    let writer = std::thread::spawn(move || stdin.write_all(&bytes));
    let output = child.wait_with_output().map_err(|e| e.to_string())?;
    let _ = writer.join();
    if !output.status.success() {
        return Err(format!("{program} ends with {}", output.status));
    }
    Ok(output.stdout)
}

fn show(bytes: &[u8]) -> String {
    String::from_utf8_lossy(&bytes[..bytes.len().min(80)]).into_owned()
}

/// What `haul` writes for jobs, byte for byte.
fn alone(haul: &str, jobs: &[Vec<u8>], what: &str) -> Check {
    for (i, job) in jobs.iter().enumerate() {
        let (here, there) = (alone::answer(job), run(haul, job)?);
        if here != there {
            return Err(format!("{what}, job {i}, {:?}: {:?} here, {:?} there", show(job), show(&here), show(&there)));
        }
    }
    Ok(format!("{what}: {} jobs agree", jobs.len()))
}

/// What `deliver` writes for jobs, byte for byte. Every field and source has to end whole at least once, and every
/// refusal has to come up.
fn rounds(deliver: &str, cases: &[Case], what: &str) -> Check {
    let mut kinds: BTreeMap<String, u32> = BTreeMap::new();
    for (i, case) in cases.iter().enumerate() {
        let there = run(deliver, &case.job)?;
        if case.answer != there || !case.shows_the_file(&there) {
            let path = format!("target/tests/{}.job", what.replace(' ', "_"));
            std::fs::write(&path, &case.job).map_err(|e| e.to_string())?;
            let (job, here, there) = (show(&case.job), show(&case.answer), show(&there));
            return Err(format!("{what}, job {i}, kept as {path}, {job:?}: {here:?} here, {there:?} there"));
        }
        *kinds.entry(case.kind()).or_default() += 1;
    }
    let wanted = rounds_jobs::DIGITS.map(|digits| format!("{digits} whole")).into_iter();
    match wanted.chain([6, 7, 8].map(|n| format!("job {n}"))).find(|kind| !kinds.contains_key(kind)) {
        Some(kind) => Err(format!("{what}: {kind} never came up")),
        None => Ok(format!("{what}: {} jobs agree, {kinds:?}", cases.len())),
    }
}

/// What a frame and every damage to one of its bytes are read as.
fn readings(inspect: &str, frame: &[u8], what: &str) -> Check {
    let frames = damage::damaged(frame);
    let there = String::from_utf8(run(inspect, &damage::capture(&frames))?).map_err(|e| e.to_string())?;
    let mut lines = there.split_inclusive('\n');
    for (i, frame) in frames.iter().enumerate() {
        let (here, there) = (damage::say(frame), lines.next().unwrap_or("nothing"));
        if here != there {
            return Err(format!("{what}, damage {i}: {here} here, {there} there"));
        }
    }
    match lines.next() {
        None => Ok(format!("{what}: {} readings agree", frames.len())),
        Some(more) => Err(format!("{what}: {more} more there")),
    }
}

/// What a receiver answers to random and adversarial frames. Every kind of answer has to come up; only in residues are
/// there bytes that hold no code.
fn sessions<R: Receives>(listen: &str, field: Field, breaks: &[Break], random: &mut Random) -> Check {
    let (count, frames) = (12, 150);
    let mut answers: BTreeMap<String, u32> = BTreeMap::new();
    for i in 0..count {
        let (capture, here) = listening::session::<R>(field, frames, breaks, random);
        let there = String::from_utf8(run(listen, &capture)?).map_err(|e| e.to_string())?;
        if let Some((line, (a, b))) = here.lines().zip(there.lines()).enumerate().find(|(_, (a, b))| a != b) {
            let (a, b) = (show(a.as_bytes()), show(b.as_bytes()));
            return Err(format!("receiver in {field:?}, session {i}, line {line}: {a} here, {b} there"));
        }
        if here.len() != there.len() {
            return Err(format!("receiver in {field:?}, session {i}: of other lengths"));
        }
        for answer in here.lines().filter_map(|line| line.split_once(" report ")) {
            let kind = if answer.0.starts_with("fresh") { "fresh" } else { answer.0 };
            *answers.entry(kind.to_string()).or_default() += 1;
        }
    }
    let wanted = ["fresh", "repeat"].map(String::from).into_iter();
    let refusals = (11..=18).filter(|n| *n != 14 || field == Field::Residues).map(|n| format!("refused {n}"));
    match wanted.chain(refusals).find(|kind| !answers.contains_key(kind)) {
        Some(kind) => Err(format!("receiver in {field:?}: {kind} never came up")),
        None => Ok(format!("receiver in {field:?}: {} frames agree, {answers:?}", count * frames)),
    }
}

/// What sources draw, or what links do with frames.
fn driven(program: &str, commands: &[rig::Command], what: &str) -> Check {
    let lines: Vec<&str> = commands.iter().map(|command| command.line.as_str()).collect();
    let there = String::from_utf8(run(program, (lines.join("\n") + "\n").as_bytes())?).map_err(|e| e.to_string())?;
    let mut rest = there.as_str();
    for command in commands {
        match rest.strip_prefix(command.says.as_str()) {
            Some(more) => rest = more,
            None => return Err(format!("{what}: {} gives {} here, {} there", command.line, command.says, show(rest.as_bytes()))),
        }
    }
    if rest.is_empty() { Ok(format!("{what}: {} commands agree", commands.len())) } else { Err(format!("{what}: more there")) }
}

struct Programs {
    haul: String,
    deliver: String,
    inspect: String,
    listen: String,
    rig: String,
}

impl Programs {
    fn below(crates: &str) -> Programs {
        let [haul, deliver, inspect, listen, rig] =
            ["haul", "deliver", "inspect", "listen", "rig"].map(|name| format!("{crates}/{name}/out/{name}"));
        Programs { haul, deliver, inspect, listen, rig }
    }
}

/// What the first seed is for. The order of the draws is part of what it chooses.
fn same_each_time(programs: &Programs, seed: u64) -> Vec<bool> {
    let Programs { haul, inspect, listen, rig, .. } = programs;
    println!("other: seed {seed}");
    let mut random = Random::new(seed);
    let chosen = alone_jobs::chosen(300, &mut random);
    vec![
        tell(tables(Field::Bytes, lambjade_bytes_mul, lambjade_bytes_inverse)),
        tell(tables(Field::Residues, lambjade_residues_mul, lambjade_residues_inverse)),
        tell(readings(inspect, &damage::full(Field::Bits, &mut random), "data in bits")),
        tell(readings(inspect, &damage::full(Field::Bytes, &mut random), "data in bytes")),
        tell(readings(inspect, &damage::full(Field::Residues, &mut random), "data in residues")),
        tell(readings(inspect, &[4, 0, 0, 1, 2, 0, 1, 0, 0], "reports")),
        tell(driven(rig, &rig::all_draws(&mut random), "sources")),
        tell(driven(rig, &rig::all_steps(&mut random), "links")),
        tell(sessions::<Receiver>(listen, Field::Bits, &FOUR_BREAKS, &mut random)),
        tell(sessions::<Receiver>(listen, Field::Bytes, &FOUR_BREAKS, &mut random)),
        tell(sessions::<Receiver>(listen, Field::Residues, &FOUR_BREAKS, &mut random)),
        tell(alone(haul, &alone_jobs::edges(), "packets alone at the edges")),
        tell(alone(haul, &chosen, "packets alone chosen")),
    ]
}

/// What the second seed is for. The order of the draws is part of what it chooses.
fn others_each_time(programs: &Programs, seed: u64) -> Vec<bool> {
    let Programs { haul, deliver, inspect, listen, rig } = programs;
    println!("other: seed {seed}; tests/compare {seed} repeats what follows");
    let mut random = Random::new(seed);
    vec![
        tell(readings(inspect, &damage::full(Field::Bits, &mut random), "data in bits")),
        tell(readings(inspect, &damage::full(Field::Bytes, &mut random), "data in bytes")),
        tell(readings(inspect, &damage::full(Field::Residues, &mut random), "data in residues")),
        tell(driven(rig, &rig::all_draws(&mut random), "sources")),
        tell(driven(rig, &rig::all_steps(&mut random), "links")),
        tell(sessions::<LeanReceiver>(listen, Field::Bits, &ALL_BREAKS, &mut random)),
        tell(sessions::<LeanReceiver>(listen, Field::Bytes, &ALL_BREAKS, &mut random)),
        tell(sessions::<LeanReceiver>(listen, Field::Residues, &ALL_BREAKS, &mut random)),
        tell(rounds(deliver, &rounds_jobs::edges(), "rounds at the edges")),
        tell(rounds(deliver, &rounds_jobs::chosen(320, &mut random), "rounds chosen")),
        tell(alone(haul, &alone_jobs::chosen(300, &mut random), "packets alone chosen")),
    ]
}

fn main() {
    let mut arguments = std::env::args().skip(1);
    let programs = Programs::below(&arguments.next().expect("the folder of the crates"));
    let seed: Option<u64> = arguments.next().map(|s| s.parse().expect("a number as seed"));
    let passed = [
        same_each_time(&programs, seed.unwrap_or(1)),
        others_each_time(&programs, seed.unwrap_or_else(clock)),
    ]
    .concat();
    let failed = passed.iter().filter(|&&passed| !passed).count();
    println!("{} passed, {failed} failed", passed.len() - failed);
    std::process::exit(i32::from(failed > 0));
}

/// Prints how a comparison ended, and whether it passed.
fn tell(check: Check) -> bool {
    match &check {
        Ok(said) => println!("other: ok, {said}"),
        Err(said) => println!("other: FAILED, {said}"),
    }
    check.is_ok()
}

/// A seed that is another one each time.
fn clock() -> u64 {
    let now = std::time::UNIX_EPOCH.elapsed().expect("a clock past 1970");
    now.as_nanos() as u64 % 1_000_000_007
}
