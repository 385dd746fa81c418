//! Every damage to one byte of one frame of each kind.

use crate::field::Field;
use crate::frame::{Data, SYMBOLS, WINDOW, read_report};
use crate::random::Random;

/// A frame and all that differ from it in one byte.
pub fn damaged(frame: &[u8]) -> Vec<Vec<u8>> {
    let mut frames = vec![frame.to_vec()];
    for at in 0..frame.len() {
        for change in 1..=255 {
            let mut other = frame.to_vec();
            other[at] ^= change;
            frames.push(other);
        }
    }
    frames
}

/// A data frame with every slot of its width and every symbol in use.
pub fn full(field: Field, random: &mut Random) -> Vec<u8> {
    let width = 20;
    let mut slots = vec![0; WINDOW];
    for slot in &mut slots[..width] {
        *slot = random.below(field.order());
    }
    let symbols = (0..SYMBOLS).map(|_| random.below(field.order())).collect();
    let data = Data { base: 65_500, width: width as u8, slots, symbols };
    data.write(field).expect("contents in order")
}

/// Frames end to end, each behind its length.
pub fn capture(frames: &[Vec<u8>]) -> Vec<u8> {
    frames.iter().flat_map(|frame| (frame.len() as u16).to_be_bytes().into_iter().chain(frame.iter().copied())).collect()
}

/// What a frame says, in words.
pub fn say(frame: &[u8]) -> String {
    let field = match frame.first() {
        Some(1) => Field::Bits,
        Some(2) => Field::Bytes,
        Some(3) => Field::Residues,
        _ => {
            return match read_report(frame) {
                Ok((released, unseen)) => format!("released {released} unseen {unseen}\n"),
                Err(number) => format!("refused {number}\n"),
            };
        }
    };
    match Data::read(field, frame) {
        Ok(Data { base, width, slots, symbols }) => {
            format!("base {base} width {width} slots {slots:?} symbols {symbols:?}\n")
        }
        Err(number) => format!("refused {number}\n"),
    }
}
