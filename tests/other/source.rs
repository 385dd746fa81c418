//! Both sources, as one turn over the window: the place, and what stands below it.

use crate::frame::WINDOW;

pub struct Source {
    place: usize,
    width: usize,
    /// The generator's number; a plain source has none.
    v: Option<u32>,
}

impl Source {
    pub fn plain() -> Source {
        Source { place: 0, width: 0, v: None }
    }

    pub fn woven(seed: u32) -> Source {
        Source { place: 0, width: 0, v: Some(seed) }
    }

    pub fn draw(&mut self, order: u32, width: usize) -> Result<Vec<u32>, u32> {
        if order < 2 || !(1..=WINDOW).contains(&width) {
            return Err(9);
        }
        if width != self.width {
            (self.width, self.place) = (width, 0);
        }
        let mut slots = Vec::new();
        if let Some(v) = &mut self.v {
            for _ in 0..self.place {
                *v = (u64::from(*v) * 1_664_525 + 1_013_904_223) as u32;
                slots.push((*v >> 16) % order);
            }
        }
        slots.resize(self.place, 0);
        slots.push(1);
        slots.resize(WINDOW, 0);
        self.place = (self.place + 1) % width;
        Ok(slots)
    }
}
