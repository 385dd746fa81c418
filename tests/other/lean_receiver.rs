//! A receiver that puts the packets it released into the frames it accepted, and solves anew for those it lacks.
//!
//! It is faster than the one that works everything out from all frames, so it can carry whole files.

use crate::equations::{Equation, packet, pivot, solved, subtract};
use crate::field::Field;
use crate::frame::{Data, WINDOW};
use crate::receiver::{Answer, Receives};
use std::collections::BTreeSet;

pub struct LeanReceiver {
    field: Field,
    /// Each frame once: an equation said twice says no more.
    accepted: BTreeSet<Data>,
    /// All packets released so far.
    released: Vec<Vec<u32>>,
    /// What the accepted frames say of the packets not released.
    solved: Vec<Equation>,
}

impl Receives for LeanReceiver {
    fn new(field: Field) -> LeanReceiver {
        LeanReceiver { field, accepted: BTreeSet::new(), released: Vec::new(), solved: Vec::new() }
    }

    fn arrive(&mut self, frame: &[u8]) -> Result<Answer, u32> {
        let data = Data::read(self.field, frame)?;
        if data.base as usize + WINDOW < self.released.len() {
            return Err(16);
        }
        if data.end() > self.released.len() + WINDOW {
            return Err(17);
        }
        if !self.accepted.insert(data.clone()) {
            return Ok(Answer::Repeat);
        }
        let after = self.solve(&data);
        if after.iter().any(|row| pivot(row).is_none()) {
            self.accepted.remove(&data);
            return Err(18);
        }
        if after.len() == self.solved.len() {
            return Ok(Answer::Repeat);
        }
        let known: Vec<Vec<u32>> = (0..WINDOW).map_while(|k| packet(&after, k)).collect();
        self.released.extend(known.iter().cloned());
        self.solved = if known.is_empty() { after } else { self.solve(&data) };
        Ok(Answer::Fresh(known))
    }

    fn report(&self) -> (u32, u32) {
        let seen = self.seen();
        let oldest = (self.released.len()..).find(|k| !seen.contains(k)).expect("a number");
        (self.released.len() as u32, oldest as u32)
    }

    fn missing(&self) -> Vec<u32> {
        let seen = self.seen();
        let top = self.accepted.iter().map(Data::end).max().unwrap_or(0);
        (self.released.len()..top).filter(|k| !seen.contains(k)).map(|k| k as u32).collect()
    }
}

impl LeanReceiver {
    /// All packets released so far, in order.
    pub fn released(&self) -> &[Vec<u32>] {
        &self.released
    }

    /// The seen numbers among those not released.
    fn seen(&self) -> Vec<usize> {
        self.solved.iter().filter_map(pivot).map(|k| self.released.len() + k).collect()
    }

    /// What the newest accepted frame and all that reach past the released packets say, solved.
    fn solve(&self, newest: &Data) -> Vec<Equation> {
        let open = self.accepted.iter().filter(|data| data.end() > self.released.len() || *data == newest);
        solved(self.field, open.map(|data| self.equation(data)).collect())
    }

    /// A frame with the released packets put in: coefficients of the 32 packets from the oldest unreleased one on.
    fn equation(&self, data: &Data) -> Equation {
        let (mut row, mut payload) = (vec![0; WINDOW], data.symbols.clone());
        for (k, &coefficient) in (data.base as usize..).zip(&data.slots).filter(|(_, c)| **c != 0) {
            match self.released.get(k) {
                Some(packet) => subtract(self.field, &mut payload, coefficient, packet),
                None => row[k - self.released.len()] = coefficient,
            }
        }
        row.extend(payload);
        row
    }
}
