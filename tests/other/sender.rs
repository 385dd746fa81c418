//! A sender that keeps all packets, and cuts its window out of them for each frame.

use crate::field::Field;
use crate::frame::{Data, SYMBOLS, WINDOW, read_report};
use crate::source::Source;

pub struct Sender {
    field: Field,
    source: Source,
    /// All packets admitted so far.
    packets: Vec<Vec<u32>>,
    /// The greatest released count that was heard.
    released: usize,
    /// The greatest oldest unseen number that was heard.
    unseen: usize,
}

impl Sender {
    pub fn new(field: Field, source: Source) -> Sender {
        Sender { field, source, packets: Vec::new(), released: 0, unseen: 0 }
    }

    /// Admits a packet if the window has room for it.
    pub fn admit(&mut self, packet: &[u32]) -> Result<(), u32> {
        if self.packets.len() == self.released + WINDOW {
            return Err(4);
        }
        self.packets.push(packet.to_vec());
        Ok(())
    }

    pub fn send(&mut self) -> Result<Vec<u8>, u32> {
        let window = &self.packets[self.unseen..];
        if window.is_empty() {
            return Err(5);
        }
        let slots = self.source.draw(self.field.order(), window.len())?;
        let mut symbols = vec![0; SYMBOLS];
        for (&slot, packet) in slots.iter().zip(window).filter(|(slot, _)| **slot != 0) {
            for (sum, &symbol) in symbols.iter_mut().zip(packet) {
                *sum = self.field.add(*sum, self.field.mul(slot, symbol));
            }
        }
        Data { base: self.unseen as u32, width: window.len() as u8, slots, symbols }.write(self.field)
    }

    pub fn hear(&mut self, report: &[u8]) -> Result<(), u32> {
        let (released, unseen) = read_report(report)?;
        let (released, unseen) = (released as usize, unseen as usize);
        if released > unseen || unseen > self.packets.len() {
            return Err(19);
        }
        self.released = self.released.max(released);
        self.unseen = self.unseen.max(unseen);
        Ok(())
    }

    /// Whether all admitted packets are reported as released.
    pub fn all_released(&self) -> bool {
        self.released == self.packets.len()
    }
}
