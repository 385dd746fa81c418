//! Sequences of frames for a receiver: true ones, and all that can be wrong with a frame.

use crate::damage;
use crate::field::Field;
use crate::frame::{Data, SYMBOLS, WINDOW};
use crate::random::Random;
use crate::receiver::{Answer, Receives};

/// What can break a frame.
#[derive(Clone, Copy)]
pub enum Break {
    Cut,
    Kind,
    /// A width of 1, so that slots past it stay.
    Narrow,
    /// A width that no frame has.
    Width,
    /// A first slot that is no code in residues.
    Slot,
    Byte,
}

pub const FOUR_BREAKS: [Break; 4] = [Break::Cut, Break::Kind, Break::Narrow, Break::Byte];

pub const ALL_BREAKS: [Break; 6] = [Break::Cut, Break::Kind, Break::Narrow, Break::Width, Break::Slot, Break::Byte];

/// A capture for the program, and what it has to print by a receiver of this type.
pub fn session<R: Receives>(field: Field, frames: usize, breaks: &[Break], random: &mut Random) -> (Vec<u8>, String) {
    let packets: Vec<Vec<u32>> = (0..200).map(|_| codes(field, SYMBOLS, random)).collect();
    let mut receiver = R::new(field);
    let mut sent: Vec<Vec<u8>> = Vec::new();
    let mut said = String::new();
    for _ in 0..frames {
        let released = receiver.report().0;
        let frame = match random.below(12) {
            0 => random.pick_clone(&sent).unwrap_or_default(),
            1 => false_payload(field, &packets, released, random),
            2 => broken(field, &packets, released, breaks, random),
            3 => out_of_reach(field, released, random),
            4 => coded(field, &packets, released.saturating_sub(random.below(40)), random),
            _ => coded(field, &packets, released, random),
        };
        said += &heard(&mut receiver, &frame);
        sent.push(frame);
    }
    let mut capture = vec![b'0' + field.kind()];
    capture.extend(damage::capture(&sent));
    (capture, said)
}

fn codes(field: Field, count: usize, random: &mut Random) -> Vec<u32> {
    (0..count).map(|_| random.below(field.order())).collect()
}

/// A combination of the stream's packets from about here on; many coefficients are 0.
fn combination(field: Field, packets: &[Vec<u32>], from: u32, random: &mut Random) -> Data {
    let most = random.pick(&[2, 5, 32]);
    let width = 1 + random.below(most) as usize;
    let base = (from + random.below(4)).min(168);
    let mut slots = vec![0; WINDOW];
    for slot in &mut slots[..width] {
        if random.below(3) > 0 {
            *slot = random.below(field.order());
        }
    }
    let symbols = (0..SYMBOLS)
        .map(|p| {
            let terms = slots[..width].iter().enumerate();
            terms.fold(0, |sum, (i, &c)| field.add(sum, field.mul(c, packets[base as usize + i][p])))
        })
        .collect();
    Data { base, width: width as u8, slots, symbols }
}

fn coded(field: Field, packets: &[Vec<u32>], from: u32, random: &mut Random) -> Vec<u8> {
    combination(field, packets, from, random).write(field).expect("contents in order")
}

/// A frame whose payload is wrong at one place.
fn false_payload(field: Field, packets: &[Vec<u32>], from: u32, random: &mut Random) -> Vec<u8> {
    let mut data = combination(field, packets, from, random);
    let at = random.below(SYMBOLS as u32) as usize;
    data.symbols[at] = (data.symbols[at] + 1) % field.order();
    data.write(field).expect("contents in order")
}

/// A frame that one of these breaks was done to.
fn broken(field: Field, packets: &[Vec<u32>], from: u32, breaks: &[Break], random: &mut Random) -> Vec<u8> {
    let mut frame = coded(field, packets, from, random);
    match random.pick(breaks) {
        Break::Cut => frame.truncate(random.below(frame.len() as u32) as usize),
        Break::Kind => frame[0] = random.next() as u8,
        Break::Narrow => frame[5] = 1,
        Break::Width => frame[5] = random.pick(&[0, 33, 255]),
        Break::Slot => frame[6] = 2,
        Break::Byte => {
            let part = random.pick(&[7, frame.len() as u32]);
            let at = random.below(part) as usize;
            frame[at] ^= 1 + random.below(255) as u8;
        }
    }
    frame
}

fn out_of_reach(field: Field, released: u32, random: &mut Random) -> Vec<u8> {
    let base = random.pick(&[0, released.saturating_sub(33), released + 32, 65_504, 65_535]);
    let mut slots = vec![0; WINDOW];
    slots[0] = 1;
    let symbols = vec![0; SYMBOLS];
    Data { base, width: 1, slots, symbols }.write(field).expect("contents in order")
}

fn heard(receiver: &mut impl Receives, frame: &[u8]) -> String {
    let answer = receiver.arrive(frame);
    let (released, unseen) = receiver.report();
    let mut said = match &answer {
        Ok(Answer::Fresh(packets)) => format!("fresh {}", packets.len()),
        Ok(Answer::Repeat) => "repeat".to_string(),
        Err(number) => format!("refused {number}"),
    };
    said += &format!(" report {released} {unseen}\n");
    if let Ok(Answer::Fresh(packets)) = answer {
        for packet in packets {
            said += &format!("packet {packet:?}\n");
        }
    }
    said + &format!("missing {:?}\n", receiver.missing())
}
