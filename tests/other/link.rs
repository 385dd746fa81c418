//! Both links: a queue and, on a scripted link, letters and a frame that is held.

use std::collections::VecDeque;

#[derive(Clone)]
pub struct Link {
    queue: VecDeque<Vec<u8>>,
    script: Vec<u8>,
    puts: usize,
    held: Option<Vec<u8>>,
}

impl Link {
    /// A plain link is one whose only letter keeps.
    pub fn plain() -> Link {
        Link { queue: VecDeque::new(), script: vec![b'k'], puts: 0, held: None }
    }

    pub fn scripted(script: &[u8]) -> Result<Link, u32> {
        let right = (1..=64).contains(&script.len()) && script.iter().all(|letter| b"kldh".contains(letter));
        if right { Ok(Link { script: script.to_vec(), ..Link::plain() }) } else { Err(7) }
    }

    pub fn put(&mut self, frame: &[u8]) {
        let letter = self.script[self.puts % self.script.len()];
        self.puts += 1;
        let waited = self.held.take();
        if frame.len() <= 400 {
            match letter {
                b'k' => self.join(frame.to_vec()),
                b'd' => {
                    self.join(frame.to_vec());
                    self.join(frame.to_vec());
                }
                b'h' => self.held = Some(frame.to_vec()),
                _ => {}
            }
        }
        if let Some(frame) = waited {
            self.join(frame);
        }
    }

    pub fn take(&mut self) -> Option<Vec<u8>> {
        self.queue.pop_front()
    }

    fn join(&mut self, frame: Vec<u8>) {
        if self.queue.len() < 16 {
            self.queue.push_back(frame);
        }
    }
}
