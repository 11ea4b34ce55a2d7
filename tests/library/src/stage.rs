// stage.rs: an implementation of the card, and one with the slices that are lent to it.

use crate::session::{Done, Session};
use card_tests::layout::{DISK, MEMORY};

/// A card over lent slices, run command by command.
pub trait Implementation: Clone {
    fn blank() -> Self;
    fn down() -> Self;
    fn stores(&self) -> u64;
    fn command(&mut self, tape: &[u8], at: usize, disk: &mut [u8], memory: &mut [u8]) -> Done;
    fn read_number(&self, block: u16, disk: &[u8], memory: &[u8]) -> u8;
    fn read_block(&self, block: u16, disk: &[u8], memory: &[u8], out: &mut [u8; 128]) -> u8;
}

impl Implementation for Session {
    fn blank() -> Self {
        Session::blank()
    }

    fn down() -> Self {
        Session::down()
    }

    fn stores(&self) -> u64 {
        self.stores()
    }

    fn command(&mut self, tape: &[u8], at: usize, disk: &mut [u8], memory: &mut [u8]) -> Done {
        self.command(tape, at, disk, memory)
    }

    fn read_number(&self, block: u16, disk: &[u8], memory: &[u8]) -> u8 {
        self.read_number(block, disk, memory)
    }

    fn read_block(&self, block: u16, disk: &[u8], memory: &[u8], out: &mut [u8; 128]) -> u8 {
        self.read_block(block, disk, memory, out)
    }
}

/// A card with its slices.
#[derive(Clone, PartialEq)]
pub struct Stage<I> {
    pub card: I,
    pub disk: Vec<u8>,
    pub memory: Vec<u8>,
}

impl<I: Implementation> Default for Stage<I> {
    fn default() -> Self {
        Stage { card: I::blank(), disk: vec![0; DISK], memory: vec![0; MEMORY] }
    }
}

impl<I: Implementation> Stage<I> {
    /// The card begins anew over these bytes.
    pub fn start(&mut self, is_down: bool, disk: &[u8], memory: &[u8]) {
        self.card = if is_down { I::down() } else { I::blank() };
        self.disk.copy_from_slice(disk);
        self.memory.copy_from_slice(memory);
    }

    pub fn command(&mut self, tape: &[u8], at: usize) -> Done {
        self.card.command(tape, at, &mut self.disk, &mut self.memory)
    }

    /// Every command of a tape, one call each.
    pub fn run(&mut self, tape: &[u8]) {
        let mut at = 0;
        while at < tape.len() {
            at = self.command(tape, at).next;
        }
    }
}
