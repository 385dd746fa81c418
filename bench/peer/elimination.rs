//! Rows with payloads, and the reduced table.

use super::field::Field;
use super::frame::{SYMBOLS, WINDOW, all_zero};

#[derive(Clone, Copy)]
#[repr(C)]
pub struct Row {
    pub slots: [u16; WINDOW],
    pub payload: [u16; SYMBOLS],
}

pub fn place(k: u32) -> usize {
    k as usize % WINDOW
}

fn subtract_codes<F: Field>(target: &mut [u16], factor: u16, other: &[u16]) {
    for (code, other) in target.iter_mut().zip(other) {
        *code = F::sub(*code, F::mul(factor, *other));
    }
}

fn scale_codes<F: Field>(codes: &mut [u16], factor: u16) {
    for code in codes {
        *code = F::mul(factor, *code);
    }
}

pub fn subtract_packet<F: Field>(target: &mut Row, factor: u16, packet: &[u16; SYMBOLS]) {
    subtract_codes::<F>(&mut target.payload, factor, packet);
}

impl Row {
    pub fn subtract<F: Field>(&mut self, factor: u16, other: &Row) {
        subtract_codes::<F>(&mut self.slots, factor, &other.slots);
        subtract_codes::<F>(&mut self.payload, factor, &other.payload);
    }

    fn first(&self, start: u32) -> Option<usize> {
        (0..WINDOW as u32).map(|distance| place(start + distance)).find(|at| self.slots[*at] != 0)
    }

    fn scale<F: Field>(&mut self, at: usize) {
        if let Some(inverse) = F::inverse(self.slots[at]) {
            scale_codes::<F>(&mut self.slots, inverse);
            scale_codes::<F>(&mut self.payload, inverse);
        }
    }

    fn is_unit(&self, at: usize) -> bool {
        self.slots.iter().enumerate().all(|(i, slot)| i == at || *slot == 0)
    }
}

pub enum Verdict {
    Innovative,
    Redundant,
    Contradictory,
}

/// The row that begins at packet k stands at the place k % 32.
pub struct Table {
    rows: [Option<Row>; WINDOW],
}

impl Table {
    pub fn new() -> Table {
        Table { rows: [None; WINDOW] }
    }

    pub fn holds(&self, k: u32) -> bool {
        self.rows[place(k)].is_some()
    }

    pub fn absorb<F: Field>(&mut self, mut row: Row, start: u32) -> Verdict {
        for (at, pivot) in self.rows.iter().enumerate() {
            if let Some(pivot) = pivot {
                row.subtract::<F>(row.slots[at], pivot);
            }
        }
        let Some(at) = row.first(start) else {
            return if all_zero(&row.payload) {
                Verdict::Redundant
            } else {
                Verdict::Contradictory
            };
        };
        row.scale::<F>(at);
        for other in self.rows.iter_mut().flatten() {
            other.subtract::<F>(other.slots[at], &row);
        }
        self.rows[at] = Some(row);
        Verdict::Innovative
    }

    pub fn take_solved(&mut self, k: u32) -> Option<[u16; SYMBOLS]> {
        let at = place(k);
        let payload = self.rows[at].as_ref().filter(|row| row.is_unit(at))?.payload;
        self.rows[at] = None;
        Some(payload)
    }
}

/// Takes in 32 rows of the packets from 0 on, writes the packets that come out in order, and answers how many.
pub fn decode<F: Field>(rows: &[Row; WINDOW], packets: &mut [[u16; SYMBOLS]; WINDOW]) -> u32 {
    let mut table = Table::new();
    for row in rows {
        table.absorb::<F>(*row, 0);
    }
    for (k, packet) in packets.iter_mut().enumerate() {
        let Some(solved) = table.take_solved(k as u32) else {
            return k as u32;
        };
        *packet = solved;
    }
    WINDOW as u32
}
