//! Packets admitted in order, and frames that combine those of the window.

use std::marker::PhantomData;

use super::carried::Carried;
use super::elimination::place;
use super::field::Field;
use super::frame::{Data, Refusal, STREAM, SYMBOLS, WINDOW, all_below, read_report, write_data};
use super::source::Source;

pub struct Sender<C, S> {
    admitted: u32,
    heard: u32,
    unseen: u32,
    packets: [[u16; SYMBOLS]; WINDOW],
    source: S,
    field: PhantomData<C>,
}

fn add_multiple<F: Field>(sum: &mut [u16; SYMBOLS], factor: u16, packet: &[u16; SYMBOLS]) {
    for (sum, symbol) in sum.iter_mut().zip(packet) {
        *sum = F::add(*sum, F::mul(factor, *symbol));
    }
}

impl<C: Carried, S: Source> Sender<C, S> {
    pub fn new(source: S) -> Self {
        Sender {
            admitted: 0,
            heard: 0,
            unseen: 0,
            packets: [[0; SYMBOLS]; WINDOW],
            source,
            field: PhantomData,
        }
    }

    pub fn admit(&mut self, packet: &[u16; SYMBOLS]) -> Result<u32, Refusal> {
        if !all_below(packet, C::Q) {
            return Err(Refusal::BadPacket);
        }
        if self.admitted == STREAM {
            return Err(Refusal::StreamFull);
        }
        if self.admitted == self.heard + WINDOW as u32 {
            return Err(Refusal::WindowFull);
        }
        self.packets[place(self.admitted)] = *packet;
        self.admitted += 1;
        Ok(self.admitted)
    }

    pub fn send(&mut self, frame: &mut [u8]) -> Result<usize, Refusal> {
        if frame.len() < C::LEN {
            return Err(Refusal::ShortBuffer);
        }
        if self.unseen == self.admitted {
            return Err(Refusal::WindowEmpty);
        }
        let width = self.admitted - self.unseen;
        let slots = self.source.draw(C::Q, width as usize);
        let mut symbols = [0; SYMBOLS];
        for (k, slot) in (self.unseen..self.admitted).zip(slots) {
            add_multiple::<C>(&mut symbols, slot, &self.packets[place(k)]);
        }
        write_data::<C>(&Data { base: self.unseen, width: width as u8, slots, symbols }, frame)
    }

    pub fn hear(&mut self, report: &[u8]) -> Result<(u32, u32), Refusal> {
        let (released, unseen) = read_report(report)?;
        if released > unseen || unseen > self.admitted {
            return Err(Refusal::BadReport);
        }
        self.heard = self.heard.max(released);
        self.unseen = self.unseen.max(unseen);
        Ok((self.heard, self.unseen))
    }

    pub fn is_heard(&self) -> bool {
        self.heard == self.admitted
    }
}
