// card.rs: the card: its state, the order of refusals, FORMAT, CUT and the reading of a block.

use crate::command::{self, Command};
use crate::few::Few;
use crate::journal::{Journals, Reader};
use crate::layout::{
    master, Block, Layout, Master, Name, Shape, Tail, Tails, BLOCK, CORES, DISK, HOMES, MEMORY, NAMES, TAKEN,
};
use crate::wrong::Wrong;

#[derive(Clone, Copy, PartialEq, Eq, Hash, Debug)]
pub enum Phase {
    Blank,
    Up,
    Down,
}

/// A transaction that is running or closed and not yet committed; committed ones are on the disk only.
#[derive(Clone, Copy, PartialEq, Eq, Hash, Debug, Default)]
pub struct Transaction {
    pub number: u32,
    pub stamp: u64,
    pub blocks: Few<u8, TAKEN>,
    /// A card that writes numbers keeps one name for each core, that of the highest number.
    pub names: Few<Name, NAMES>,
}

#[derive(Clone, Copy, PartialEq, Eq, Hash, Debug, Default)]
pub struct Core {
    pub tail: Tail,
    /// The number that the next WRITE to open a transaction gives it.
    pub next: u32,
    pub running: Option<Transaction>,
    pub closed: Option<Transaction>,
    /// Stores made of the closed one.
    pub stored: u8,
    /// Committed unretired transactions, and the journal blocks of their records.
    pub committed: u8,
    pub length: u8,
    /// Home stores made of the oldest committed one.
    pub home: u8,
}

/// What a card is throughout: the layout that it writes, and what is wrong with it.
#[derive(Clone, Copy, PartialEq, Eq, Hash, Debug, Default)]
pub struct Kind {
    pub layout: Layout,
    pub wrong: Wrong,
}

impl Kind {
    /// The card of request (c), as `Wrong::No`, or one before it.
    pub const fn older(wrong: Wrong) -> Kind {
        Kind { layout: Layout::Lists, wrong }
    }
}

impl From<Wrong> for Kind {
    fn from(wrong: Wrong) -> Kind {
        Kind { wrong, ..Kind::default() }
    }
}

/// The card's state, apart from the lent slices.
#[derive(Clone, Copy, PartialEq, Eq, Hash, Debug)]
pub struct Card {
    pub phase: Phase,
    pub shape: Shape,
    pub cores: [Core; CORES],
    pub holders: [Option<Name>; HOMES],
    /// Closes since the card came up.
    pub closes: u64,
    /// While down: the lowest block that recovery has not passed yet.
    pub place: u8,
    pub kind: Kind,
    /// What only a wrong card remembers.
    pub aside: u64,
}

/// The lent slices, both of the stated length.
pub struct Lent<'a> {
    pub disk: &'a mut [u8],
    pub memory: &'a mut [u8],
}

#[derive(Clone, Copy, PartialEq, Eq, Debug)]
pub struct Outcome {
    pub answer: u8,
    pub stores: u8,
    pub next: usize,
}

/// The stores made, or the refusal.
pub type Done = Result<u8, u8>;

impl Card {
    pub fn blank() -> Card {
        Card::with(Phase::Blank, Kind::default())
    }

    /// A card that begins down over a disk written elsewhere.
    pub fn down() -> Card {
        Card::with(Phase::Down, Kind::default())
    }

    pub fn with(phase: Phase, kind: Kind) -> Card {
        Card {
            phase,
            shape: Shape::default(),
            cores: [Core::default(); CORES],
            holders: [None; HOMES],
            closes: 0,
            place: 0,
            kind,
            aside: 0,
        }
    }

    pub fn is(&self, wrong: Wrong) -> bool {
        self.kind.wrong == wrong
    }

    /// Runs the command at an offset of a tape.
    pub fn command(&mut self, disk: &mut [u8], memory: &mut [u8], tape: &[u8], offset: usize) -> Outcome {
        let read = command::read(tape, offset);
        let past = read.map_or(tape.len().max(offset), |(_, next)| next);
        if disk.len() != DISK || memory.len() != MEMORY {
            return Outcome { answer: 1, stores: 0, next: past };
        }
        let done = match read {
            Ok((command, _)) => self.run(command, &mut Lent { disk, memory }),
            Err(refusal) => Err(refusal),
        };
        let (answer, stores) = match done {
            Ok(stores) => (0, stores),
            Err(refusal) => (refusal, 0),
        };
        Outcome { answer, stores, next: past }
    }

    fn run(&mut self, command: Command, lent: &mut Lent) -> Done {
        self.admit(command)?;
        match command {
            Command::Format { cores, blocks, journal } => self.format(lent, cores, blocks, journal),
            Command::Write(write) => self.write(lent, write),
            Command::Close { core } => self.close(lent, core),
            Command::Store { core } => self.store(lent, core),
            Command::Checkpoint { core } => self.checkpoint(lent, core),
            Command::Cut => self.cut(lent),
            Command::Recover => self.recover(lent),
            Command::Retire { core } => self.retire(lent, core),
        }
    }

    /// Refusals 20 to 23, which come before those of the operands.
    fn admit(&self, command: Command) -> Result<(), u8> {
        let is_format = matches!(command, Command::Format { .. });
        match (self.phase, command) {
            (Phase::Blank, _) if !is_format => Err(20),
            (Phase::Up | Phase::Down, _) if is_format => Err(21),
            (Phase::Up, Command::Recover) => Err(23),
            (Phase::Down, Command::Cut | Command::Recover) => Ok(()),
            (Phase::Down, _) => Err(22),
            _ => Ok(()),
        }
    }

    fn format(&mut self, lent: &mut Lent, cores: u8, blocks: u8, journal: u8) -> Done {
        let shape = Shape::new(cores as u32, blocks as u32, journal as u32).ok_or(4)?;
        let mut tails = Tails::default();
        tails[..cores as usize].fill(Tail { number: 1, position: 0 });
        lent.disk.fill(0);
        lent.memory.fill(0);
        let layout = self.layout_unless(Wrong::FormatMasterZero);
        lent.disk[..BLOCK].copy_from_slice(&master(&Master { layout, shape, tails }));
        self.come_up(shape, &tails);
        Ok(0)
    }

    /// The layout that the card writes and reads while it is up, unless it is wrong in this.
    pub(crate) fn layout_unless(&self, wrong: Wrong) -> Layout {
        if self.is(wrong) {
            Layout::Lists
        } else {
            self.kind.layout
        }
    }

    /// The state of a card that has just come up: empty journals, no holder, no close counted.
    pub(crate) fn come_up(&mut self, shape: Shape, tails: &Tails) {
        let closes = self.closes;
        *self = Card { shape, aside: self.aside, ..Card::with(Phase::Up, self.kind) };
        for (core, tail) in self.cores.iter_mut().zip(tails) {
            *core = Core { tail: *tail, next: tail.number, ..Core::default() };
        }
        if self.is(Wrong::StampsGoOn) {
            self.closes = closes;
        }
    }

    fn cut(&mut self, lent: &mut Lent) -> Done {
        if !self.is(Wrong::CutKeepsMemory) && !self.is_mute() {
            lent.memory.fill(0);
        }
        let (place, closes, aside) = (self.place, self.closes, self.aside);
        *self = Card::with(Phase::Down, self.kind);
        match self.kind.wrong {
            Wrong::CutKeepsPlace => self.place = place,
            Wrong::StampsGoOn => self.closes = closes,
            Wrong::FirstRecordOnly => self.aside = aside,
            Wrong::LayoutForgotten => self.aside = (place > 0) as u64,
            _ => {}
        }
        Ok(0)
    }

    pub(crate) fn check_core(&self, core: u8) -> Result<(), u8> {
        if core < self.shape.cores {
            Ok(())
        } else {
            Err(5)
        }
    }

    /// Some wrong cards count a store and leave the bytes alone.
    pub(crate) fn is_mute(&self) -> bool {
        self.is(Wrong::NothingChanges) || self.is(Wrong::FirstRecordOnly) && self.aside > 0
    }

    /// The one store of a command. A place beyond the disk is a wrong card's and is let go.
    pub(crate) fn put(&self, disk: &mut [u8], index: usize, block: &Block) {
        let at = index * BLOCK;
        if !self.is_mute() && at + BLOCK <= disk.len() {
            disk[at..at + BLOCK].copy_from_slice(block);
        }
    }

    pub fn tails(&self) -> Tails {
        std::array::from_fn(|core| self.cores[core].tail)
    }

    /// Committed unretired transactions of an up card: the first records, as many as the card counts. It wrote them all itself since
    /// it came up, so the master is not looked at.
    pub(crate) fn journals(&self, disk: &[u8]) -> Journals {
        let limits = std::array::from_fn(|core| self.cores[core].committed as usize);
        let layout = self.layout_unless(Wrong::ListsInRunning);
        let master = Master { layout, shape: self.shape, tails: self.tails() };
        Journals::read(Reader { disk, master, wrong: self.kind.wrong }, &limits)
    }

    /// The refusal of reading a block, 0 for none.
    pub fn read_number(&self, disk: &[u8], memory: &[u8], block: usize) -> u8 {
        match self.phase {
            _ if disk.len() != DISK || memory.len() != MEMORY => 1,
            Phase::Blank => 20,
            Phase::Down => 22,
            Phase::Up if block >= self.shape.blocks as usize => 6,
            Phase::Up => 0,
        }
    }

    /// The block's 128 bytes: a part of memory while it has a holder, otherwise of the disk; no bytes where refused.
    pub fn read_block<'a>(&self, disk: &'a [u8], memory: &'a [u8], block: usize) -> &'a [u8] {
        if self.read_number(disk, memory, block) != 0 {
            return &disk[..0];
        }
        if self.holders[block].is_some() {
            &memory[block * BLOCK..(block + 1) * BLOCK]
        } else {
            &disk[(1 + block) * BLOCK..(2 + block) * BLOCK]
        }
    }
}
