//! What the program `deliver` writes for a job, by the protocol's rules: rounds carry the file.

use crate::file;
use crate::frame::write_report;
use crate::job::{self, Job};
use crate::lean_receiver::LeanReceiver;
use crate::link::Link;
use crate::receiver::{Answer, Receives};
use crate::sender::Sender;

/// After so many rounds a transfer that did not end is given up.
const ROUNDS: u32 = 64_000;

/// The answer to any bytes on standard input.
pub fn answer(input: &[u8]) -> Vec<u8> {
    match job::parse(input) {
        Ok(job) => carried(job),
        Err(number) => format!("job {number}\n").into_bytes(),
    }
}

/// Carries the file in rounds, and says how that went.
fn carried(job: Job) -> Vec<u8> {
    let packets = file::packets(job.field, &job.file);
    let mut waiting = packets.iter().peekable();
    let mut sender = Sender::new(job.field, job.source);
    let mut receiver = LeanReceiver::new(job.field);
    let (mut data, mut reports) = (job.link, Link::plain());
    let (mut sent, mut fresh, mut repeat, mut refused) = (0, 0, 0, 0);
    let mut ended = false;
    let mut round = 0;
    while !ended && round < ROUNDS {
        while waiting.next_if(|packet| sender.admit(packet).is_ok()).is_some() {}
        if let Ok(frame) = sender.send() {
            data.put(&frame);
            sent += 1;
        }
        while let Some(frame) = data.take() {
            match receiver.arrive(&frame) {
                Ok(Answer::Fresh(_)) => fresh += 1,
                Ok(Answer::Repeat) => repeat += 1,
                Err(_) => refused += 1,
            }
            reports.put(&write_report(receiver.report()));
        }
        while let Some(report) = reports.take() {
            // a report that is refused changes nothing
            let _ = sender.hear(&report);
        }
        // with no packet left to admit the sender is sealed
        ended = waiting.peek().is_none() && sender.all_released();
        round += 1;
    }
    let counts = format!("sent {sent}\nfresh {fresh}\nrepeat {repeat}\nrefused {refused}\n");
    if !ended {
        return format!("{counts}spent {}\n", receiver.released().len()).into_bytes();
    }
    let file = file::assembled(job.field, receiver.released()).expect("the packets of a file");
    [format!("{counts}whole {}\n", file.len()).as_bytes(), &file].concat()
}
