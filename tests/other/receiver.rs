//! A receiver that keeps every frame it accepted and works everything out from all of them, each time.

use crate::equations::{Equation, packet, pivot, solved};
use crate::field::Field;
use crate::frame::{Data, WINDOW};

pub struct Receiver {
    field: Field,
    accepted: Vec<Data>,
    released: usize,
}

#[derive(Clone, PartialEq, Eq, Debug)]
pub enum Answer {
    /// The packets that were released.
    Fresh(Vec<Vec<u32>>),
    Repeat,
}

/// What a session asks of a receiver.
pub trait Receives {
    fn new(field: Field) -> Self;

    fn arrive(&mut self, frame: &[u8]) -> Result<Answer, u32>;

    /// The released count and the oldest unseen number.
    fn report(&self) -> (u32, u32);

    /// The unseen numbers that some accepted frame reaches.
    fn missing(&self) -> Vec<u32>;
}

impl Receives for Receiver {
    fn new(field: Field) -> Receiver {
        Receiver { field, accepted: Vec::new(), released: 0 }
    }

    fn arrive(&mut self, frame: &[u8]) -> Result<Answer, u32> {
        let data = Data::read(self.field, frame)?;
        let (base, end) = (data.base as usize, data.base as usize + usize::from(data.width));
        if base + WINDOW < self.released {
            return Err(16);
        }
        if end > self.released + WINDOW {
            return Err(17);
        }
        let before = self.solve(&self.accepted);
        self.accepted.push(data);
        let after = self.solve(&self.accepted);
        if after.iter().any(|row| pivot(row).is_none()) {
            self.accepted.pop();
            return Err(18);
        }
        if after.len() == before.len() {
            return Ok(Answer::Repeat);
        }
        let known: Vec<Vec<u32>> = (self.released..).map_while(|k| packet(&after, k)).collect();
        self.released += known.len();
        Ok(Answer::Fresh(known))
    }

    fn report(&self) -> (u32, u32) {
        let seen = self.seen();
        let oldest = (0..).find(|k| !seen.contains(k)).expect("a number");
        (self.released as u32, oldest as u32)
    }

    fn missing(&self) -> Vec<u32> {
        let seen = self.seen();
        (self.released..self.top()).filter(|k| !seen.contains(k)).map(|k| k as u32).collect()
    }
}

impl Receiver {
    fn seen(&self) -> Vec<usize> {
        self.solve(&self.accepted).iter().filter_map(pivot).collect()
    }

    /// The end of the packets that accepted frames reach.
    fn top(&self) -> usize {
        self.accepted.iter().map(|data| data.base as usize + usize::from(data.width)).max().unwrap_or(0)
    }

    /// What the frames say, solved.
    fn solve(&self, frames: &[Data]) -> Vec<Equation> {
        let columns = frames.iter().map(|data| data.base as usize + WINDOW).max().unwrap_or(0);
        solved(self.field, frames.iter().map(|data| equation(data, columns)).collect())
    }
}

/// A frame as a row over so many packet numbers.
fn equation(data: &Data, columns: usize) -> Equation {
    let mut row = vec![0; columns];
    row[data.base as usize..data.base as usize + WINDOW].copy_from_slice(&data.slots);
    row.extend(&data.symbols);
    row
}
