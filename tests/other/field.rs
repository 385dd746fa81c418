//! The three fields, written another way: no table of powers, no Fermat, an inverse by trying every code.

use std::sync::OnceLock;

#[derive(Clone, Copy, PartialEq, Eq, Debug)]
pub enum Field {
    Bits,
    Bytes,
    Residues,
}

impl Field {
    pub fn order(self) -> u32 {
        match self {
            Field::Bits => 2,
            Field::Bytes => 256,
            Field::Residues => 257,
        }
    }

    /// The sum of two codes.
    pub fn add(self, a: u32, b: u32) -> u32 {
        match self {
            Field::Bits | Field::Bytes => a ^ b,
            Field::Residues => (a + b) % 257,
        }
    }

    /// The difference of two codes.
    pub fn sub(self, a: u32, b: u32) -> u32 {
        match self {
            Field::Bits | Field::Bytes => a ^ b,
            Field::Residues => (a + 257 - b) % 257,
        }
    }

    /// The product of two codes.
    pub fn mul(self, a: u32, b: u32) -> u32 {
        match self {
            Field::Bits => a & b,
            Field::Bytes => PRODUCTS.get_or_init(products)[(a << 8 | b) as usize],
            Field::Residues => a * b % 257,
        }
    }

    /// The one code whose product with a is 1, found by trying all.
    pub fn inverse(self, a: u32) -> Option<u32> {
        (0..self.order()).find(|&b| self.mul(a, b) == 1)
    }
}

/// All products of two bytes.
static PRODUCTS: OnceLock<Vec<u32>> = OnceLock::new();

fn products() -> Vec<u32> {
    (0..1 << 16).map(|ab| peasant(ab >> 8, ab & 255)).collect()
}

/// Multiplication by doubling and adding: b's bits are used up one by one, and a is doubled and reduced each time.
fn peasant(mut a: u32, mut b: u32) -> u32 {
    let mut sum = 0;
    while b != 0 {
        if b & 1 == 1 {
            sum ^= a;
        }
        b >>= 1;
        a <<= 1;
        if a >= 256 {
            a ^= 0x11D;
        }
    }
    sum
}
