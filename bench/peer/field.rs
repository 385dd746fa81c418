//! Finite fields over 16-bit codes. Operands count as their remainders by the order.

pub trait Field {
    const Q: u16;

    fn add(a: u16, b: u16) -> u16;
    fn sub(a: u16, b: u16) -> u16;
    fn mul(a: u16, b: u16) -> u16;
    fn inverse(a: u16) -> Option<u16>;
}

pub struct Bits;
pub struct Bytes;
pub struct Residues;

impl Field for Bits {
    const Q: u16 = 2;

    fn add(a: u16, b: u16) -> u16 {
        (a ^ b) % Self::Q
    }

    fn sub(a: u16, b: u16) -> u16 {
        Self::add(a, b)
    }

    fn mul(a: u16, b: u16) -> u16 {
        (a & b) % Self::Q
    }

    fn inverse(a: u16) -> Option<u16> {
        (a % Self::Q != 0).then_some(1)
    }
}

/// The powers of 2, from 0 to 254.
static POWERS: [u8; 255] = powers();

/// The logarithms to the base 2; 0 has none.
static LOGARITHMS: [u8; 256] = logarithms();

const fn powers() -> [u8; 255] {
    let mut table = [0; 255];
    let mut power = 1u16;
    let mut k = 0;
    while k < table.len() {
        table[k] = power as u8;
        power <<= 1;
        if power >= 256 {
            power ^= 0x11D;
        }
        k += 1;
    }
    table
}

const fn logarithms() -> [u8; 256] {
    let powers = powers();
    let mut table = [0; 256];
    let mut k = 0;
    while k < 255 {
        table[powers[k] as usize] = k as u8;
        k += 1;
    }
    table
}

fn logarithm(a: u16) -> usize {
    usize::from(LOGARITHMS[usize::from(a as u8)])
}

impl Field for Bytes {
    const Q: u16 = 256;

    fn add(a: u16, b: u16) -> u16 {
        (a ^ b) % Self::Q
    }

    fn sub(a: u16, b: u16) -> u16 {
        Self::add(a, b)
    }

    fn mul(a: u16, b: u16) -> u16 {
        if a % Self::Q == 0 || b % Self::Q == 0 {
            return 0;
        }
        u16::from(POWERS[(logarithm(a) + logarithm(b)) % 255])
    }

    fn inverse(a: u16) -> Option<u16> {
        (a % Self::Q != 0).then(|| u16::from(POWERS[(255 - logarithm(a)) % 255]))
    }
}

impl Field for Residues {
    const Q: u16 = 257;

    fn add(a: u16, b: u16) -> u16 {
        (a % Self::Q + b % Self::Q) % Self::Q
    }

    fn sub(a: u16, b: u16) -> u16 {
        (a % Self::Q + Self::Q - b % Self::Q) % Self::Q
    }

    fn mul(a: u16, b: u16) -> u16 {
        let product = u32::from(a % Self::Q) * u32::from(b % Self::Q);
        (product % u32::from(Self::Q)) as u16
    }

    fn inverse(a: u16) -> Option<u16> {
        let mut square = a % Self::Q;
        if square == 0 {
            return None;
        }
        let mut power = 1;
        for _ in 0..8 {
            power = Self::mul(power, square);
            square = Self::mul(square, square);
        }
        Some(power)
    }
}
