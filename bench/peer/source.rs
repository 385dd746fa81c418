//! Where coefficients come from.

use super::frame::WINDOW;

pub trait Source {
    fn draw(&mut self, order: u16, width: usize) -> [u16; WINDOW];
}

#[derive(Default)]
struct Turn {
    place: usize,
    width: usize,
}

impl Turn {
    fn take(&mut self, width: usize) -> usize {
        let place = if self.width == width { self.place } else { 0 };
        *self = Turn { place: (place + 1) % width, width };
        place
    }
}

/// The packets of the window one by one, in turn.
#[derive(Default)]
pub struct Plain {
    turn: Turn,
}

impl Source for Plain {
    fn draw(&mut self, _order: u16, width: usize) -> [u16; WINDOW] {
        let mut slots = [0; WINDOW];
        slots[self.turn.take(width)] = 1;
        slots
    }
}

/// Each packet in turn, mixed with those below it.
#[derive(Default)]
pub struct Woven {
    turn: Turn,
    v: u32,
}

impl Source for Woven {
    fn draw(&mut self, order: u16, width: usize) -> [u16; WINDOW] {
        let mut slots = [0; WINDOW];
        let place = self.turn.take(width);
        for slot in &mut slots[..place] {
            self.v = self.v.wrapping_mul(1_664_525).wrapping_add(1_013_904_223);
            *slot = (self.v / 65_536 % u32::from(order)) as u16;
        }
        slots[place] = 1;
        slots
    }
}
