//! Takes frames in, in any order, and releases packets in theirs.

use std::marker::PhantomData;

use super::carried::Carried;
use super::elimination::{Row, Table, Verdict, place, subtract_packet};
use super::frame::{Refusal, STREAM, SYMBOLS, WINDOW, read_data};

pub enum Answer {
    Fresh(u32),
    Repeat,
}

pub struct Receiver<C> {
    released: u32,
    top: u32,
    table: Table,
    kept: [[u16; SYMBOLS]; WINDOW],
    field: PhantomData<C>,
}

impl<C: Carried> Receiver<C> {
    pub fn new() -> Self {
        Receiver {
            released: 0,
            top: 0,
            table: Table::new(),
            kept: [[0; SYMBOLS]; WINDOW],
            field: PhantomData,
        }
    }

    pub fn arrive(&mut self, frame: &[u8], numbers: &mut [u16]) -> Result<Answer, Refusal> {
        if numbers.len() < WINDOW * SYMBOLS {
            return Err(Refusal::ShortBuffer);
        }
        let data = read_data::<C>(frame)?;
        let end = data.base + u32::from(data.width);
        if data.base + 32 < self.released {
            return Err(Refusal::Late);
        }
        if end > self.released + 32 {
            return Err(Refusal::Ahead);
        }
        let mut row = Row { slots: [0; WINDOW], payload: data.symbols };
        for (k, coefficient) in (data.base..end).zip(data.slots) {
            if k < self.released {
                subtract_packet::<C>(&mut row, coefficient, &self.kept[place(k)]);
            } else {
                row.slots[place(k)] = coefficient;
            }
        }
        let answer = match self.table.absorb::<C>(row, self.released) {
            Verdict::Innovative => Answer::Fresh(self.release(numbers)),
            Verdict::Redundant => Answer::Repeat,
            Verdict::Contradictory => return Err(Refusal::Contradiction),
        };
        self.top = self.top.max(end);
        Ok(answer)
    }

    fn release(&mut self, numbers: &mut [u16]) -> u32 {
        let mut count = 0;
        for symbols in numbers.chunks_exact_mut(SYMBOLS).take(WINDOW) {
            if self.released >= STREAM {
                break;
            }
            let Some(packet) = self.table.take_solved(self.released) else {
                break;
            };
            self.kept[place(self.released)] = packet;
            self.released += 1;
            symbols.copy_from_slice(&packet);
            count += 1;
        }
        count
    }

    fn sees(&self, k: u32) -> bool {
        k < self.released || (k < self.released + 32 && self.table.holds(k))
    }

    pub fn report(&self) -> (u32, u32) {
        let unseen = (self.released..STREAM).find(|k| !self.sees(*k));
        (self.released, unseen.unwrap_or(STREAM))
    }
}
