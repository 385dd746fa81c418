//! Frames, written another way: a data frame is one long string of bits, cut by the width of a code.

use crate::field::Field;

pub const WINDOW: usize = 32;
pub const SYMBOLS: usize = 128;
pub const STREAM: u64 = 65_536;

#[derive(Clone, PartialEq, Eq, PartialOrd, Ord, Debug)]
pub struct Data {
    pub base: u32,
    pub width: u8,
    pub slots: Vec<u32>,
    pub symbols: Vec<u32>,
}

impl Field {
    pub fn kind(self) -> u8 {
        match self {
            Field::Bits => 1,
            Field::Bytes => 2,
            Field::Residues => 3,
        }
    }

    /// How many bits a code takes in a frame.
    fn bits_a_code(self) -> usize {
        match self {
            Field::Bits => 1,
            Field::Bytes => 8,
            Field::Residues => 16,
        }
    }

    pub fn frame_len(self) -> usize {
        6 + (WINDOW + SYMBOLS) * self.bits_a_code() / 8
    }
}

impl Data {
    /// The number behind the last packet that the frame codes.
    pub fn end(&self) -> usize {
        self.base as usize + usize::from(self.width)
    }

    /// The first of the refusals 13 to 15 that the contents meet.
    fn check(&self, field: Field) -> Result<(), u32> {
        let width = usize::from(self.width);
        if width < 1 || width > WINDOW || u64::from(self.base) + width as u64 > STREAM {
            return Err(13);
        }
        if self.slots.iter().chain(&self.symbols).any(|&code| code >= field.order()) {
            return Err(14);
        }
        if self.slots[width..].iter().any(|&slot| slot != 0) {
            return Err(15);
        }
        Ok(())
    }

    /// The frame of these contents.
    pub fn write(&self, field: Field) -> Result<Vec<u8>, u32> {
        self.check(field)?;
        let mut frame = vec![field.kind()];
        frame.extend(self.base.to_be_bytes());
        frame.push(self.width);
        let width = field.bits_a_code();
        let bits: Vec<bool> = (self.slots.iter().chain(&self.symbols))
            .flat_map(|&code| (0..width).rev().map(move |bit| code >> bit & 1 == 1))
            .collect();
        frame.extend(bits.chunks(8).map(|byte| byte.iter().fold(0u8, |sum, &bit| sum << 1 | u8::from(bit))));
        Ok(frame)
    }

    /// The contents of a frame.
    pub fn read(field: Field, frame: &[u8]) -> Result<Data, u32> {
        if frame.first() != Some(&field.kind()) {
            return Err(11);
        }
        if frame.len() != field.frame_len() {
            return Err(12);
        }
        let bits: Vec<bool> = frame[6..].iter().flat_map(|byte| (0..8).rev().map(move |bit| byte >> bit & 1 == 1)).collect();
        let mut codes: Vec<u32> = (bits.chunks(field.bits_a_code()))
            .map(|code| code.iter().fold(0, |sum, &bit| sum << 1 | u32::from(bit)))
            .collect();
        let symbols = codes.split_off(WINDOW);
        let base = u32::from_be_bytes([frame[1], frame[2], frame[3], frame[4]]);
        let data = Data { base, width: frame[5], slots: codes, symbols };
        data.check(field)?;
        Ok(data)
    }
}

/// The two numbers of a report.
pub fn read_report(frame: &[u8]) -> Result<(u32, u32), u32> {
    if frame.first() != Some(&4) {
        return Err(11);
    }
    let &[_, a, b, c, d, e, f, g, h] = frame else {
        return Err(12);
    };
    Ok((u32::from_be_bytes([a, b, c, d]), u32::from_be_bytes([e, f, g, h])))
}

/// The report of two numbers.
pub fn write_report((released, unseen): (u32, u32)) -> Vec<u8> {
    [&[4], &released.to_be_bytes()[..], &unseen.to_be_bytes()].concat()
}
