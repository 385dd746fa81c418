//! How the codes of a field lie in bytes.

use super::field::{Bits, Bytes, Field, Residues};

pub trait Carried: Field {
    const KIND: u8;
    const LEN: usize;

    fn pack(codes: &[u16], bytes: &mut [u8]);
    fn unpack(bytes: &[u8], codes: &mut [u16]);
}

impl Carried for Bits {
    const KIND: u8 = 1;
    const LEN: usize = 26;

    fn pack(codes: &[u16], bytes: &mut [u8]) {
        for (byte, group) in bytes.iter_mut().zip(codes.chunks_exact(8)) {
            *byte = group.iter().fold(0, |byte, code| byte << 1 | (code % 2) as u8);
        }
    }

    fn unpack(bytes: &[u8], codes: &mut [u16]) {
        for (group, byte) in codes.chunks_exact_mut(8).zip(bytes) {
            for (i, code) in group.iter_mut().enumerate() {
                *code = u16::from(byte >> (7 - i) & 1);
            }
        }
    }
}

impl Carried for Bytes {
    const KIND: u8 = 2;
    const LEN: usize = 166;

    fn pack(codes: &[u16], bytes: &mut [u8]) {
        for (byte, code) in bytes.iter_mut().zip(codes) {
            *byte = *code as u8;
        }
    }

    fn unpack(bytes: &[u8], codes: &mut [u16]) {
        for (code, byte) in codes.iter_mut().zip(bytes) {
            *code = u16::from(*byte);
        }
    }
}

impl Carried for Residues {
    const KIND: u8 = 3;
    const LEN: usize = 326;

    fn pack(codes: &[u16], bytes: &mut [u8]) {
        for (pair, code) in bytes.chunks_exact_mut(2).zip(codes) {
            pair.copy_from_slice(&code.to_be_bytes());
        }
    }

    fn unpack(bytes: &[u8], codes: &mut [u16]) {
        for (code, pair) in codes.iter_mut().zip(bytes.chunks_exact(2)) {
            *code = u16::from_be_bytes([pair[0], pair[1]]);
        }
    }
}
