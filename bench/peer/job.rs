//! The job line, and the rounds that carry its file.

use std::io::Write;

use super::carried::Carried;
use super::field::{Bits, Bytes, Residues};
use super::file::{FILE_MOST, Filling, packet, packet_count};
use super::frame::{FRAME_MOST, Refusal, SYMBOLS, WINDOW, write_report};
use super::link::{PlainLink, ScriptedLink};
use super::receiver::{Answer, Receiver};
use super::sender::Sender;
use super::source::{Plain, Source, Woven};

const ROUNDS: u32 = 64_000;

struct Job<'a> {
    field: u8,
    source: u8,
    script: &'a [u8],
    file: &'a [u8],
}

fn parse(input: &[u8]) -> Result<Job<'_>, Refusal> {
    let end = input.iter().position(|byte| *byte == b'\n').ok_or(Refusal::BadLine)?;
    let (line, file) = (&input[..end], &input[end + 1..]);
    let [field @ b'1'..=b'3', source @ b'1'..=b'2', b' ', script @ ..] = line else {
        return Err(Refusal::BadLine);
    };
    if script.is_empty() || script.len() > 64 || !script.iter().all(|letter| b"kldh".contains(letter)) {
        return Err(Refusal::BadScript);
    }
    if file.len() > FILE_MOST {
        return Err(Refusal::LongFile);
    }
    Ok(Job { field: *field, source: *source, script, file })
}

#[derive(Default)]
struct Tally {
    sent: u32,
    fresh: u32,
    repeat: u32,
    refused: u32,
}

/// Both ends, the links between them, and what has come of the file.
struct Transfer<'a, C, S> {
    sender: Sender<C, S>,
    receiver: Receiver<C>,
    forward: ScriptedLink<'a>,
    reverse: PlainLink,
    released: u32,
    tally: Tally,
    filling: Filling,
}

impl<C: Carried, S: Source> Transfer<'_, C, S> {
    fn send(&mut self) {
        let mut frame = [0; FRAME_MOST];
        if let Ok(length) = self.sender.send(&mut frame) {
            self.forward.put(&frame[..length]);
            self.tally.sent += 1;
        }
    }

    fn fetch_all(&mut self, numbers: &mut [u16; WINDOW * SYMBOLS], buffer: &mut [u8; FILE_MOST]) -> Result<(), Refusal> {
        let mut frame = [0; FRAME_MOST];
        while let Some(length) = self.forward.take(&mut frame) {
            let answer = self.receiver.arrive(&frame[..length], numbers);
            self.reverse.put(&write_report(self.receiver.report()));
            match answer {
                Ok(Answer::Fresh(count)) => {
                    self.tally.fresh += 1;
                    self.released += count;
                    for symbols in numbers.chunks_exact(SYMBOLS).take(count as usize) {
                        self.filling.add::<C>(symbols, buffer)?;
                    }
                }
                Ok(Answer::Repeat) => self.tally.repeat += 1,
                Err(_) => self.tally.refused += 1,
            }
        }
        Ok(())
    }

    fn hear_all(&mut self) {
        let mut frame = [0; FRAME_MOST];
        while let Some(length) = self.reverse.take(&mut frame) {
            let _ = self.sender.hear(&frame[..length]);
        }
    }
}

fn run<C: Carried, S: Source>(source: S, script: &[u8], file: &[u8]) -> Result<Vec<u8>, Refusal> {
    let mut transfer = Transfer::<C, S> {
        sender: Sender::new(source),
        receiver: Receiver::new(),
        forward: ScriptedLink::new(script),
        reverse: PlainLink::new(),
        released: 0,
        tally: Tally::default(),
        filling: Filling::default(),
    };
    let mut numbers = [0; WINDOW * SYMBOLS];
    let mut buffer = [0; FILE_MOST];
    let packets = packet_count::<C>(file.len());
    let mut next = 0;
    let mut done = false;
    for _ in 0..ROUNDS {
        while next < packets && transfer.sender.admit(&packet::<C>(file, next)).is_ok() {
            next += 1;
        }
        transfer.send();
        transfer.fetch_all(&mut numbers, &mut buffer)?;
        transfer.hear_all();
        if next == packets && transfer.sender.is_heard() {
            done = true;
            break;
        }
    }
    let Tally { sent, fresh, repeat, refused } = transfer.tally;
    let mut output = format!("sent {sent}\nfresh {fresh}\nrepeat {repeat}\nrefused {refused}\n").into_bytes();
    match transfer.filling.finish::<C>() {
        Some(size) if done => {
            let _ = writeln!(output, "whole {size}");
            output.extend_from_slice(&buffer[..size]);
        }
        _ => {
            let _ = writeln!(output, "spent {}", transfer.released);
        }
    }
    Ok(output)
}

fn carry<C: Carried>(job: &Job) -> Result<Vec<u8>, Refusal> {
    match job.source {
        b'1' => run::<C, Plain>(Plain::default(), job.script, job.file),
        _ => run::<C, Woven>(Woven::default(), job.script, job.file),
    }
}

/// What the program writes for this input.
pub fn answer(input: &[u8]) -> Vec<u8> {
    let carried = parse(input).and_then(|job| match job.field {
        b'1' => carry::<Bits>(&job),
        b'2' => carry::<Bytes>(&job),
        _ => carry::<Residues>(&job),
    });
    carried.unwrap_or_else(|refusal| {
        let number = match refusal {
            Refusal::BadLine => 6,
            Refusal::BadScript => 7,
            Refusal::LongFile => 8,
            Refusal::BadPacket => 2,
            Refusal::NotAByte => 21,
            _ => 22,
        };
        format!("job {number}\n").into_bytes()
    })
}
