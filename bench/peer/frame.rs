//! Data frames and reports as bytes.

use super::carried::Carried;

pub const WINDOW: usize = 32;
pub const SYMBOLS: usize = 128;
pub const STREAM: u32 = 65_536;
pub const REPORT_KIND: u8 = 4;
pub const REPORT_LEN: usize = 9;
pub const FRAME_MOST: usize = 400;
const HEAD: usize = 6;

/// Why a call refused. The program shows none of them but a job's, so most have no number here.
#[derive(Clone, Copy, Debug, PartialEq, Eq)]
pub enum Refusal {
    ShortBuffer,
    BadPacket,
    StreamFull,
    WindowFull,
    WindowEmpty,
    BadLine,
    BadScript,
    LongFile,
    WrongKind,
    WrongLength,
    BadWidth,
    BadCode,
    StraySlot,
    Late,
    Ahead,
    Contradiction,
    BadReport,
    NotAByte,
    LongRecord,
}

pub struct Data {
    pub base: u32,
    pub width: u8,
    pub slots: [u16; WINDOW],
    pub symbols: [u16; SYMBOLS],
}

pub fn all_below(codes: &[u16], limit: u16) -> bool {
    codes.iter().all(|code| *code < limit)
}

pub fn all_zero(codes: &[u16]) -> bool {
    codes.iter().all(|code| *code == 0)
}

fn middle<C: Carried>() -> usize {
    HEAD + (C::LEN - HEAD) * WINDOW / (WINDOW + SYMBOLS)
}

fn check<C: Carried>(data: &Data) -> Result<(), Refusal> {
    let width = u32::from(data.width);
    if width < 1 || width > WINDOW as u32 || data.base > STREAM || data.base + width > STREAM {
        return Err(Refusal::BadWidth);
    }
    if !all_below(&data.slots, C::Q) || !all_below(&data.symbols, C::Q) {
        return Err(Refusal::BadCode);
    }
    if !all_zero(&data.slots[width as usize..]) {
        return Err(Refusal::StraySlot);
    }
    Ok(())
}

pub fn read_data<C: Carried>(frame: &[u8]) -> Result<Data, Refusal> {
    if frame.first() != Some(&C::KIND) {
        return Err(Refusal::WrongKind);
    }
    if frame.len() != C::LEN {
        return Err(Refusal::WrongLength);
    }
    let mut data = Data {
        base: u32::from_be_bytes([frame[1], frame[2], frame[3], frame[4]]),
        width: frame[5],
        slots: [0; WINDOW],
        symbols: [0; SYMBOLS],
    };
    C::unpack(&frame[HEAD..middle::<C>()], &mut data.slots);
    C::unpack(&frame[middle::<C>()..], &mut data.symbols);
    check::<C>(&data)?;
    Ok(data)
}

pub fn write_data<C: Carried>(data: &Data, buffer: &mut [u8]) -> Result<usize, Refusal> {
    let Some(frame) = buffer.get_mut(..C::LEN) else {
        return Err(Refusal::ShortBuffer);
    };
    check::<C>(data)?;
    frame[0] = C::KIND;
    frame[1..5].copy_from_slice(&data.base.to_be_bytes());
    frame[5] = data.width;
    C::pack(&data.slots, &mut frame[HEAD..middle::<C>()]);
    C::pack(&data.symbols, &mut frame[middle::<C>()..]);
    Ok(C::LEN)
}

pub fn read_report(frame: &[u8]) -> Result<(u32, u32), Refusal> {
    if frame.first() != Some(&REPORT_KIND) {
        return Err(Refusal::WrongKind);
    }
    let Ok([_, r0, r1, r2, r3, u0, u1, u2, u3]) = <[u8; REPORT_LEN]>::try_from(frame) else {
        return Err(Refusal::WrongLength);
    };
    Ok((
        u32::from_be_bytes([r0, r1, r2, r3]),
        u32::from_be_bytes([u0, u1, u2, u3]),
    ))
}

pub fn write_report((released, unseen): (u32, u32)) -> [u8; REPORT_LEN] {
    let mut frame = [REPORT_KIND; REPORT_LEN];
    frame[1..5].copy_from_slice(&released.to_be_bytes());
    frame[5..].copy_from_slice(&unseen.to_be_bytes());
    frame
}
