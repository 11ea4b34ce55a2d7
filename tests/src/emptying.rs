// emptying.rs: the run that empties the journals, command by command on the card itself. Nothing of a plan is in it.

use crate::card::{Card, Outcome, Phase};
use crate::command::Command;
use crate::layout::{read_master, Layout, Master, Name, DISK, MEMORY};
use crate::ledger::Entry;
use crate::random::hash_of;
use crate::second_reader::read_journal;
use crate::shrink::tape_of;

/// A card with the slices that are lent to it.
#[derive(Clone, PartialEq)]
pub struct World {
    pub card: Card,
    pub disk: Vec<u8>,
    pub memory: Vec<u8>,
}

/// More commands than any run takes: the records of eight journals have 192 blocks at most, and each block two commands.
const ENOUGH: u64 = 400;

/// What a run did: the commands, the stores that they counted, who was retired, with its stamp, and what was refused.
#[derive(Clone, PartialEq, Debug, Default)]
pub struct Run {
    pub commands: u64,
    pub stores: u64,
    pub retired: Vec<(Name, u64)>,
    /// The command that was refused, with its number: nothing is done after it.
    pub refused: Option<(Command, u8)>,
}

pub(crate) fn require(holds: bool, detail: impl FnOnce() -> String) -> Result<(), String> {
    if holds {
        Ok(())
    } else {
        Err(detail())
    }
}

impl World {
    /// A blank card over zeroed slices.
    pub fn blank() -> World {
        World { card: Card::blank(), disk: vec![0; DISK], memory: vec![0; MEMORY] }
    }

    pub fn new(card: &Card, disk: &[u8], memory: &[u8]) -> World {
        World { card: *card, disk: disk.to_vec(), memory: memory.to_vec() }
    }

    /// The same, into slices that are there.
    pub fn copy_from(&mut self, card: &Card, disk: &[u8], memory: &[u8]) {
        self.card = *card;
        self.disk.copy_from_slice(disk);
        self.memory.copy_from_slice(memory);
    }

    /// A hash that tells worlds apart.
    pub fn key(&self) -> u64 {
        hash_of((&self.card, &self.disk, &self.memory))
    }

    pub fn step(&mut self, command: Command) -> Outcome {
        self.card.command(&mut self.disk, &mut self.memory, &tape_of(&[command]), 0)
    }

    /// Tries CLOSE, STORE, CHECKPOINT and RETIRE for these cores, each on this very world: `each` sees the answer and the world after
    /// it. A refusal leaves it as it was.
    pub(crate) fn try_commands(
        &self,
        cores: impl Iterator<Item = u8>,
        mut each: impl FnMut(Command, u8, &World) -> Result<(), String>,
    ) -> Result<(), String> {
        let mut after = self.clone();
        let of_core = |core| {
            [Command::Close { core }, Command::Store { core }, Command::Checkpoint { core }, Command::Retire { core }]
        };
        for command in cores.flat_map(of_core) {
            let answer = after.step(command).answer;
            require(answer == 0 || after == *self, || format!("{command:?} changed something, refused with {answer}"))?;
            each(command, answer, &after)?;
            if answer == 0 {
                after.copy_from(&self.card, &self.disk, &self.memory);
            }
        }
        Ok(())
    }

    fn core_where(&self, fits: impl Fn(usize) -> bool) -> Option<u8> {
        (0..self.card.shape.cores).find(|core| fits(*core as usize))
    }

    /// A core's oldest committed transaction, by the second reader.
    fn oldest(&self, core: u8) -> Option<Entry> {
        let limit = self.card.cores[core as usize].committed.min(1) as usize;
        let master = Master { layout: Layout::Numbers, shape: self.card.shape, tails: self.card.tails() };
        read_journal(&self.disk, &master, core, limit).into_iter().next()
    }

    /// STORE for the lowest core with a closed transaction, else CLOSE for the lowest with a running one.
    fn next_before_checkpoints(&self) -> Option<Command> {
        let closed = self.core_where(|core| self.card.cores[core].closed.is_some());
        let running = self.core_where(|core| self.card.cores[core].running.is_some());
        closed.map(|core| Command::Store { core }).or(running.map(|core| Command::Close { core }))
    }

    /// RETIRE where the core's oldest has its home stores done, CHECKPOINT where not.
    pub fn next_of(&self, core: u8) -> Command {
        let blocks = self.oldest(core).map(|oldest| oldest.blocks.len());
        match blocks {
            Some(blocks) if self.card.cores[core as usize].home as usize >= blocks => Command::Retire { core },
            _ => Command::Checkpoint { core },
        }
    }

    /// Then what comes next for the core whose oldest has the lowest stamp, until there is none.
    fn next_command(&self) -> Option<Command> {
        let of_lowest = || {
            let stamps = (0..self.card.shape.cores).filter_map(|core| Some((self.oldest(core)?.stamp, core)));
            stamps.min().map(|(_, core)| self.next_of(core))
        };
        self.next_before_checkpoints().or_else(of_lowest)
    }

    /// One command of a run; false where it was refused.
    fn go(&mut self, run: &mut Run, command: Command) -> bool {
        let oldest = match command {
            Command::Retire { core } => self.oldest(core).map(|each| (Name { core, number: each.number }, each.stamp)),
            _ => None,
        };
        let outcome = self.step(command);
        if outcome.answer != 0 {
            run.refused = Some((command, outcome.answer));
            return false;
        }
        run.commands += 1;
        run.stores += outcome.stores as u64;
        let is_retired = |(name, _): &(Name, u64)| self.card.cores[name.core as usize].tail.number > name.number;
        run.retired.extend(oldest.filter(is_retired));
        true
    }

    /// Does what comes next until there is nothing, or something is refused; `each` sees the world after every command. More than
    /// `ENOUGH` of them are a failure.
    pub fn empty(&mut self, mut each: impl FnMut(&World, &Run) -> Result<(), String>) -> Result<Run, String> {
        let mut run = Run::default();
        while let Some(command) = self.next_command() {
            if !self.go(&mut run, command) {
                break;
            }
            require(run.commands <= ENOUGH, || format!("not empty after {ENOUGH} commands"))?;
            each(self, &run)?;
        }
        Ok(run)
    }

    /// The same with the transactions in a given order: all home stores of each and its master store, one after another.
    pub fn empty_in_order(&mut self, order: &[Name]) -> Run {
        let mut run = Run::default();
        while let Some(command) = self.next_before_checkpoints() {
            if !self.go(&mut run, command) {
                return run;
            }
        }
        for name in order {
            let is_left = |world: &World| world.card.cores[name.core as usize].tail.number <= name.number;
            while is_left(self) {
                if !self.go(&mut run, self.next_of(name.core)) {
                    return run;
                }
            }
        }
        run
    }

    /// Nothing runs and nothing is closed.
    fn is_at_rest(&self) -> bool {
        self.card.phase == Phase::Up && self.next_before_checkpoints().is_none()
    }

    /// Every journal of the disk reads empty, as recovery would read it, and nothing runs and nothing is closed.
    pub fn is_emptied(&self) -> bool {
        let Some(master) = read_master(&self.disk) else { return false };
        let mut cores = 0..master.shape.cores;
        self.is_at_rest() && cores.all(|core| read_journal(&self.disk, &master, core, 1).is_empty())
    }

    /// The same by the card's own count: over a foreign disk something else may stand where a journal goes on.
    pub fn is_emptied_of_own(&self) -> bool {
        self.is_at_rest() && self.card.cores.iter().all(|core| core.committed == 0)
    }
}
