//! A file as packets, and packets as a file: one string of bytes, and one string of symbols.

use crate::field::Field;
use crate::frame::SYMBOLS;

/// The packets of a file.
pub fn packets(field: Field, file: &[u8]) -> Vec<Vec<u32>> {
    let mut bytes = (file.len() as u32).to_be_bytes().to_vec();
    bytes.extend(file);
    let mut symbols: Vec<u32> = bytes.into_iter().flat_map(|byte| spelled(field, byte)).collect();
    symbols.resize(symbols.len().next_multiple_of(SYMBOLS), 0);
    symbols.chunks(SYMBOLS).map(<[u32]>::to_vec).collect()
}

/// The file of some packets, if they begin with all of it.
pub fn assembled(field: Field, packets: &[Vec<u32>]) -> Option<Vec<u8>> {
    let symbols = packets.concat();
    let bytes: Option<Vec<u8>> = symbols.chunks(symbols_a_byte(field)).map(byte).collect();
    let bytes = bytes?;
    let (length, rest) = bytes.split_first_chunk::<4>()?;
    rest.get(..u32::from_be_bytes(*length) as usize).map(<[u8]>::to_vec)
}

fn symbols_a_byte(field: Field) -> usize {
    if field.order() >= 256 { 1 } else { 8 }
}

fn spelled(field: Field, byte: u8) -> Vec<u32> {
    match symbols_a_byte(field) {
        1 => vec![u32::from(byte)],
        _ => format!("{byte:08b}").chars().map(|digit| digit.to_digit(2).expect("a bit")).collect(),
    }
}

/// The byte that one symbol or eight of them spell.
fn byte(symbols: &[u32]) -> Option<u8> {
    u8::try_from(symbols.iter().fold(0, |sum, symbol| 2 * sum + symbol)).ok()
}
