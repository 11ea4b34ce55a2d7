// twin.rs: a watcher that runs the right card beside another one.

use crate::card::Card;
use crate::checks::{Seen, Watcher};
use crate::layout::{DISK, MEMORY};

/// The right card beside the one under test: tells where answers, counts or bytes first differ.
pub struct Twin {
    card: Card,
    disk: Vec<u8>,
    memory: Vec<u8>,
}

impl Default for Twin {
    fn default() -> Self {
        Twin { card: Card::blank(), disk: vec![0; DISK], memory: vec![0; MEMORY] }
    }
}

impl Watcher for Twin {
    fn start(&mut self, is_down: bool, disk: &[u8], memory: &[u8]) {
        self.card = if is_down { Card::down() } else { Card::blank() };
        self.disk.copy_from_slice(disk);
        self.memory.copy_from_slice(memory);
    }

    fn command(&mut self, tape: &[u8], offset: usize, seen: Seen) -> Result<(), String> {
        let right = self.card.command(&mut self.disk, &mut self.memory, tape, offset);
        match () {
            _ if right != seen.outcome => Err(format!("{:?}, the right card {right:?}", seen.outcome)),
            _ if self.disk != seen.disk => Err("the disk differs".into()),
            _ if self.memory != seen.memory => Err("the memory differs".into()),
            _ => Ok(()),
        }
    }
}
