// starts.rs: what a tape starts on: a blank card, one that is down over a foreign disk or a given one, or one that is handed over the
// disk of another card.

use super::{Bench, Failure};
use crate::book::Book;
use crate::card::{Card, Kind, Phase};
use crate::foreign;
use crate::generator::Generator;
use crate::ledger::{Ledger, Rules};
use crate::order::Order;
use crate::random::Random;
use crate::wrong::{Wrong, WrongBook};

/// How many of a thousand starts are over a foreign disk, and how many over one that an older card left; the others are blank.
#[derive(Clone, Copy, Debug)]
pub struct Shares {
    pub foreign: usize,
    pub older: usize,
}

impl Shares {
    pub const USUAL: Shares = Shares { foreign: 300, older: 100 };
    pub const NONE: Shares = Shares { foreign: 0, older: 0 };
}

impl Bench<'_> {
    pub fn set_shares(&mut self, shares: Shares) {
        self.shares = shares;
    }

    /// The book of every start will be wrong in a rule.
    pub fn set_book(&mut self, wrong: WrongBook) {
        self.wrong_book = wrong;
    }

    /// Every start will be down over a disk made by this, whatever the shares.
    pub fn set_disks(&mut self, disk: fn(&mut Random) -> Vec<u8>) {
        self.given_disk = Some(disk);
    }

    /// Runs a tape by another card, cuts it, and runs one over its disk, with one book for both.
    pub fn run_handed_over(&mut self, other: Kind, before: &[u8], tape: &[u8]) -> Result<(), Failure> {
        self.begin_other(other);
        self.tape = before.to_vec();
        self.run_from(0)?;
        self.hand_over()?;
        self.tape = tape.to_vec();
        self.run_from(0)
    }

    /// A start over a given disk, or of a kind chosen by the shares.
    pub(super) fn start_any(&mut self, generator: &mut Generator) -> Result<(), Failure> {
        if let Some(disk) = self.given_disk {
            let disk = disk(&mut self.random);
            self.start_over(disk);
            return Ok(());
        }
        match self.random.below(1000) {
            n if n < self.shares.foreign => self.start_foreign(),
            n if n < self.shares.foreign + self.shares.older => return self.start_older(generator),
            _ => self.start_blank(),
        }
        Ok(())
    }

    /// A blank card over slices of any content.
    pub(super) fn start_blank(&mut self) {
        self.begin_blank(self.wrong.into(), self.order);
        self.started();
    }

    fn begin_blank(&mut self, kind: Kind, order: Order) {
        self.random.fill(&mut self.disk);
        self.random.fill(&mut self.memory);
        self.card = Card::with(Phase::Blank, kind);
        self.book = Book::with(order, self.wrong_book);
        self.ledger = Ledger::blank(&self.memory, Rules { order, layout: kind.layout });
        self.is_foreign = false;
        self.is_other = false;
        self.before.clear();
    }

    /// A card that is down over a disk written elsewhere.
    fn start_foreign(&mut self) {
        let disk = foreign::disk(&mut self.random, &self.disk);
        self.start_over(disk);
    }

    pub(super) fn start_over(&mut self, disk: Vec<u8>) {
        self.disk = disk;
        self.before.clear();
        self.tally.foreign_disks += 1;
        self.begin_over();
    }

    fn begin_over(&mut self) {
        self.random.fill(&mut self.memory);
        self.card = Card::with(Phase::Down, self.wrong.into());
        self.ledger = Ledger::over(&self.disk, &self.memory, Rules { order: self.order, ..Rules::default() });
        self.is_foreign = true;
        self.started();
    }

    /// A card that is down over the disk of an older one, which ran a generated tape to any of its commands.
    fn start_older(&mut self, generator: &mut Generator) -> Result<(), Failure> {
        let wrong = if self.random.chance(250) { Wrong::NoSequence } else { Wrong::No };
        self.begin_other(Kind::older(wrong));
        let count = self.tape_length(generator);
        self.generated_commands(generator, count)?;
        self.hand_over()
    }

    /// Another card, blank, whose disk will be handed over.
    fn begin_other(&mut self, kind: Kind) {
        let order = if kind.wrong == Wrong::NoSequence { Order::Unordered } else { Order::InSequence };
        self.begin_blank(kind, order);
        self.is_other = true;
        self.remember_start();
    }

    /// The other card is cut, and the one under test begins down over its disk. Book and ledger go on, unless it was one before
    /// request (c), whose disk is as any foreign one. Nothing can be handed over of a blank card.
    fn hand_over(&mut self) -> Result<(), Failure> {
        if self.card.phase == Phase::Blank {
            self.start_blank();
            return Ok(());
        }
        let offset = self.tape.len();
        self.tape.push(6);
        self.step(offset)?;
        self.before = std::mem::take(&mut self.tape);
        self.tally.handed_over += 1;
        self.is_other = false;
        if self.card.kind.wrong != Wrong::No {
            self.begin_over();
            return Ok(());
        }
        self.random.fill(&mut self.memory);
        self.card = Card::with(Phase::Down, self.wrong.into());
        self.ledger.hand_over(&self.memory);
        self.started();
        Ok(())
    }

    fn started(&mut self) {
        self.tally.tapes += 1;
        self.remember_start();
        if let Some(watcher) = &mut self.watcher {
            watcher.start(self.card.phase == Phase::Down, &self.disk, &self.memory);
        }
    }

    fn remember_start(&mut self) {
        self.recovers = 0;
        self.tape.clear();
        self.seen_disk.copy_from_slice(&self.disk);
        self.seen_memory.copy_from_slice(&self.memory);
    }
}
