//! What carries frames: queues of 16 frames of at most 400 bytes, in memory of a fixed size.

use super::frame::FRAME_MOST;

const ROOM: usize = 16;

#[derive(Clone, Copy)]
struct Stored {
    bytes: [u8; FRAME_MOST],
    length: usize,
}

impl Stored {
    fn of(frame: &[u8]) -> Option<Stored> {
        let mut bytes = [0; FRAME_MOST];
        bytes.get_mut(..frame.len())?.copy_from_slice(frame);
        Some(Stored { bytes, length: frame.len() })
    }
}

pub struct PlainLink {
    frames: [Stored; ROOM],
    first: usize,
    count: usize,
}

impl PlainLink {
    pub fn new() -> Self {
        PlainLink { frames: [Stored { bytes: [0; FRAME_MOST], length: 0 }; ROOM], first: 0, count: 0 }
    }

    fn join(&mut self, frame: &Stored) {
        if self.count < ROOM {
            self.frames[(self.first + self.count) % ROOM] = *frame;
            self.count += 1;
        }
    }

    pub fn put(&mut self, frame: &[u8]) {
        if let Some(frame) = Stored::of(frame) {
            self.join(&frame);
        }
    }

    pub fn take(&mut self, buffer: &mut [u8; FRAME_MOST]) -> Option<usize> {
        if self.count == 0 {
            return None;
        }
        let Stored { bytes, length } = &self.frames[self.first];
        buffer[..*length].copy_from_slice(&bytes[..*length]);
        self.first = (self.first + 1) % ROOM;
        self.count -= 1;
        Some(*length)
    }
}

pub struct ScriptedLink<'a> {
    queue: PlainLink,
    letters: std::iter::Cycle<std::slice::Iter<'a, u8>>,
    held: Option<Stored>,
}

impl<'a> ScriptedLink<'a> {
    pub fn new(script: &'a [u8]) -> Self {
        ScriptedLink { queue: PlainLink::new(), letters: script.iter().cycle(), held: None }
    }

    pub fn put(&mut self, frame: &[u8]) {
        let letter = self.letters.next();
        let held = self.held.take();
        if let (Some(letter), Some(frame)) = (letter, Stored::of(frame)) {
            match letter {
                b'k' => self.queue.join(&frame),
                b'd' => {
                    self.queue.join(&frame);
                    self.queue.join(&frame);
                }
                b'h' => self.held = Some(frame),
                _ => {}
            }
        }
        if let Some(held) = held {
            self.queue.join(&held);
        }
    }

    pub fn take(&mut self, buffer: &mut [u8; FRAME_MOST]) -> Option<usize> {
        self.queue.take(buffer)
    }
}
