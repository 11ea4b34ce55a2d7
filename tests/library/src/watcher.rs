// watcher.rs: another implementation of the card beside the model: answers, counts, offsets, every byte of disk and memory, block
// readings. The library has more to compare: its cells, where a block is read, whole tapes. A pair of both can begin in any state.

use crate::cells::{difference, of_card};
use crate::session::{Done, Part, Session, Stop};
use crate::stage::{Implementation, Stage};
use card_tests::card::Card;
use card_tests::checks::{Failure, Seen, Watcher};
use card_tests::command::{hex, Command};
use card_tests::random::Random;

/// Blocks that are read in turn: all that a card can have, and some that it cannot.
const BLOCKS_READ: u64 = 67;

/// Commands that a whole tape has at most.
const TAPE: usize = 24;

/// Prints a difference that was found, and ends.
pub fn give_up(failure: &Failure) -> ! {
    println!("{}: {}\ntape {}", failure.check, failure.detail, hex(&failure.tape));
    std::process::exit(1);
}

pub struct Beside<I> {
    stage: Stage<I>,
    stores: u64,
    commands: u64,
}

impl<I: Implementation> Default for Beside<I> {
    fn default() -> Self {
        Beside { stage: Stage::default(), stores: 0, commands: 0 }
    }
}

impl<I: Implementation> Beside<I> {
    fn compare(&mut self, tape: &[u8], offset: usize, seen: &Seen) -> Result<Done, String> {
        let done = self.stage.command(tape, offset);
        self.stores += seen.outcome.stores as u64;
        self.commands += 1;
        let ended = matches!(done.number, 2 | 3) && done.next == tape.len();
        let stores = self.stage.card.stores();
        match () {
            _ if done.number != seen.outcome.answer => {
                Err(format!("answer {}, the model {}", done.number, seen.outcome.answer))
            }
            _ if done.byte != tape[offset] => Err(format!("command byte {}", done.byte)),
            _ if done.next != seen.outcome.next && !ended => Err(format!("next offset {}", done.next)),
            _ if stores != self.stores => Err(format!("{stores} stores")),
            _ if self.stage.disk != seen.disk => Err("the disk differs".into()),
            _ if self.stage.memory != seen.memory => Err("the memory differs".into()),
            _ => self.compare_reading(seen).map(|()| done),
        }
    }

    /// The block read after this command: one after each, in turn.
    fn block(&self) -> u16 {
        (self.commands % BLOCKS_READ) as u16
    }

    fn compare_reading(&self, seen: &Seen) -> Result<(), String> {
        let (block, Stage { card, disk, memory }) = (self.block(), &self.stage);
        let number = card.read_number(block, disk, memory);
        let mut bytes = [0xA5; 128];
        let copied = card.read_block(block, disk, memory, &mut bytes);
        let right = seen.card.read_number(seen.disk, seen.memory, block as usize);
        let part = seen.card.read_block(seen.disk, seen.memory, block as usize);
        let is_right = if right == 0 { bytes == part } else { bytes == [0xA5; 128] };
        match number == right && copied == right && is_right {
            true => Ok(()),
            false => Err(format!("block {block} is read with {number} and {copied}, the model reads it with {right}")),
        }
    }
}

impl<I: Implementation> Watcher for Beside<I> {
    fn start(&mut self, is_down: bool, disk: &[u8], memory: &[u8]) {
        self.stage.start(is_down, disk, memory);
        self.stores = 0;
    }

    fn command(&mut self, tape: &[u8], offset: usize, seen: Seen) -> Result<(), String> {
        self.compare(tape, offset, &seen).map(|_| ())
    }
}

/// The library beside the model.
pub struct Library {
    beside: Beside<Session>,
    /// The number that stands in the cells of cores which the shape has not: 1 from a FORMAT to a CUT.
    beyond: u32,
    behind: Behind,
}

/// A second card that goes the same way by whole tapes, some commands at a time.
struct Behind {
    stage: Stage<Session>,
    /// It stands before the command at this offset, and goes on after so many more.
    at: usize,
    left: usize,
    random: Random,
}

impl Default for Library {
    fn default() -> Self {
        let behind = Behind { stage: Stage::default(), at: 0, left: 0, random: Random::new(7) };
        Library { beside: Beside::default(), beyond: 0, behind }
    }
}

impl Library {
    /// Begins as the card that the model has, in whatever state, over these bytes.
    pub fn begin_as(&mut self, card: &Card, disk: &[u8], memory: &[u8]) {
        self.start(true, disk, memory);
        let session = Session::of_cells(of_card(card, 0, self.beyond));
        self.beside.stage.card = session.clone();
        self.behind.stage.card = session;
    }

    fn compare_cells(&mut self, byte: u8, seen: &Seen) -> Result<(), String> {
        self.beyond = match (seen.outcome.answer, byte) {
            (0, 1) => 1,
            (0, 6 | 7) => 0,
            _ => self.beyond,
        };
        let right = of_card(seen.card, self.beside.stores, self.beyond);
        difference(self.beside.stage.card.cells(), &right).map_or(Ok(()), Err)
    }

    /// The reading without a copy.
    fn compare_part(&self, seen: &Seen) -> Result<(), String> {
        let (block, Stage { card, disk, memory }) = (self.beside.block(), &self.beside.stage);
        let (part, right) = (card.locate(block, disk, memory), model_part(block as usize, seen));
        let bytes = card.read_part(block, disk, memory).unwrap_or_default();
        match part == right && bytes == seen.card.read_block(seen.disk, seen.memory, block as usize) {
            true => Ok(()),
            false => Err(format!("block {block} is read at {part:?}, the model reads it at {right:?}")),
        }
    }
}

/// Where the model's bytes of a block stand.
fn model_part(block: usize, seen: &Seen) -> Part {
    let number = seen.card.read_number(seen.disk, seen.memory, block) as u32;
    if number != 0 {
        return Part { number, slice: 0, from: 0, length: 0 };
    }
    let bytes = seen.card.read_block(seen.disk, seen.memory, block);
    let is_disk = seen.disk.as_ptr_range().contains(&bytes.as_ptr());
    let (slice, whole) = if is_disk { (1, seen.disk) } else { (2, seen.memory) };
    Part { number, slice, from: bytes.as_ptr() as usize - whole.as_ptr() as usize, length: bytes.len() }
}

impl Behind {
    fn start(&mut self, is_down: bool, disk: &[u8], memory: &[u8]) {
        self.stage.start(is_down, disk, memory);
        self.at = 0;
        self.left = self.random.below(TAPE);
    }

    /// The other card did the command at an offset; after some of them, all at once.
    fn follow(&mut self, tape: &[u8], offset: usize, done: Done, other: &Stage<Session>) -> Result<(), String> {
        if self.left > 0 {
            self.left -= 1;
            return Ok(());
        }
        let Stage { card, disk, memory } = &mut self.stage;
        let stop = card.run(&tape[self.at..done.next], disk, memory);
        let right = Stop { at: offset - self.at, number: done.number.into(), byte: done.byte.into() };
        self.at = done.next;
        self.left = self.random.below(TAPE);
        match () {
            _ if stop != right => Err(format!("a whole tape ends with {stop:?}, not {right:?}")),
            _ if self.stage != *other => Err("a whole tape leaves other cells or bytes than its commands".into()),
            _ => Ok(()),
        }
    }
}

impl Watcher for Library {
    fn start(&mut self, is_down: bool, disk: &[u8], memory: &[u8]) {
        self.beside.start(is_down, disk, memory);
        self.behind.start(is_down, disk, memory);
        self.beyond = 0;
    }

    fn command(&mut self, tape: &[u8], offset: usize, seen: Seen) -> Result<(), String> {
        let done = self.beside.compare(tape, offset, &seen)?;
        self.compare_cells(tape[offset], &seen)?;
        self.compare_part(&seen)?;
        self.behind.follow(tape, offset, done, &self.beside.stage)
    }
}

/// The model's card in any state, and the library beside it as the same card over the same bytes.
pub struct Pair {
    pub card: Card,
    pub disk: Vec<u8>,
    pub memory: Vec<u8>,
    /// The model's to the last command.
    pub answer: u8,
    library: Library,
    tape: Vec<u8>,
}

impl Pair {
    pub fn begin(card: Card, disk: &[u8], memory: &[u8]) -> Pair {
        let mut library = Library::default();
        library.begin_as(&card, disk, memory);
        Pair { card, disk: disk.to_vec(), memory: memory.to_vec(), answer: 0, library, tape: Vec::new() }
    }

    /// One command by both, and how they differ if they do.
    pub fn command(&mut self, command: Command) -> Result<(), String> {
        let offset = self.tape.len();
        command.write_to(&mut self.tape);
        let outcome = self.card.command(&mut self.disk, &mut self.memory, &self.tape, offset);
        self.answer = outcome.answer;
        let seen = Seen { outcome, card: &self.card, disk: &self.disk, memory: &self.memory };
        self.library.command(&self.tape, offset, seen)
    }
}
