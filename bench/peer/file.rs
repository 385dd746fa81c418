//! A file's packets, and the record that puts them together again.

use super::field::Field;
use super::frame::{Refusal, SYMBOLS, all_below};

pub const FILE_MOST: usize = 16_000;

/// How many symbols spell a byte.
fn digits<F: Field>() -> usize {
    if F::Q < 256 { 8 } else { 1 }
}

/// What each symbol is a digit to.
fn base<F: Field>() -> u16 {
    if F::Q < 256 { 2 } else { 256 }
}

/// How many bytes a packet spells.
fn room<F: Field>() -> usize {
    SYMBOLS / digits::<F>()
}

pub fn packet_count<F: Field>(size: usize) -> usize {
    (size + 4).div_ceil(room::<F>())
}

fn held(file: &[u8], i: usize) -> u8 {
    let length = (file.len() as u32).to_be_bytes();
    match i.checked_sub(4) {
        None => length[i],
        Some(i) => file.get(i).copied().unwrap_or(0),
    }
}

pub fn packet<F: Field>(file: &[u8], number: usize) -> [u16; SYMBOLS] {
    let mut symbols = [0; SYMBOLS];
    let digits = digits::<F>();
    for (i, group) in symbols.chunks_exact_mut(digits).enumerate() {
        let byte = u16::from(held(file, room::<F>() * number + i));
        for (place, symbol) in group.iter_mut().enumerate() {
            *symbol = if digits == 1 { byte } else { byte >> (7 - place) & 1 };
        }
    }
    symbols
}

#[derive(Default)]
pub struct Filling {
    taken: usize,
    size: usize,
}

impl Filling {
    pub fn add<F: Field>(&mut self, packet: &[u16], buffer: &mut [u8; FILE_MOST]) -> Result<(), Refusal> {
        if packet.len() != SYMBOLS || !all_below(packet, F::Q) {
            return Err(Refusal::BadPacket);
        }
        if !all_below(packet, base::<F>()) {
            return Err(Refusal::NotAByte);
        }
        if self.is_complete::<F>() {
            return Ok(());
        }
        let mut bytes = [0; SYMBOLS];
        for (byte, group) in bytes.iter_mut().zip(packet.chunks_exact(digits::<F>())) {
            *byte = group.iter().fold(0, |byte, symbol| byte * base::<F>() + symbol) as u8;
        }
        let bytes = &bytes[..room::<F>()];
        let size = if self.taken > 0 {
            self.size
        } else {
            u32::from_be_bytes([bytes[0], bytes[1], bytes[2], bytes[3]]) as usize
        };
        if size > FILE_MOST {
            return Err(Refusal::LongRecord);
        }
        let first = room::<F>() * self.taken;
        let start = first.saturating_sub(4);
        let end = size.min(first + room::<F>() - 4);
        if start < end {
            buffer[start..end].copy_from_slice(&bytes[start + 4 - first..end + 4 - first]);
        }
        self.taken += 1;
        self.size = size;
        Ok(())
    }

    fn is_complete<F: Field>(&self) -> bool {
        4 + self.size <= room::<F>() * self.taken
    }

    pub fn finish<F: Field>(&self) -> Option<usize> {
        self.is_complete::<F>().then_some(self.size)
    }
}
