// shrink.rs: makes a tape that catches a wrong card as short and as plain as it can.

use crate::checks::{Bench, Checks, Failure, Shares};
use crate::command::{self, Command, Write};
use crate::order::Order;
use crate::wrong::Wrong;

pub struct Shrinker {
    /// The rule of the book and the ledger.
    pub books: Order,
    pub wrong: Wrong,
    pub checks: Checks,
}

impl Shrinker {
    /// The failure of a tape on a blank wrong card, if it fails.
    pub fn failure(&self, commands: &[Command]) -> Option<Failure> {
        Bench::under(self.books, self.wrong, self.checks, None).run_tape(&tape_of(commands)).err()
    }

    /// A short tape out of generated ones of several seeds; none if no tape from a blank card fails.
    pub fn shortest(&self, commands_each: u64, seeds: u64) -> Option<Vec<Command>> {
        let tapes = (1..=seeds).filter_map(|seed| self.found(commands_each, seed));
        tapes.map(|tape| self.shrink(commands_of(&tape))).min_by_key(Vec::len)
    }

    fn found(&self, commands: u64, seed: u64) -> Option<Vec<u8>> {
        let mut bench = Bench::under(self.books, self.wrong, self.checks, None);
        bench.set_shares(Shares::NONE);
        bench.soak(commands, seed).err().map(|failure| failure.tape)
    }

    pub fn shrink(&self, mut commands: Vec<Command>) -> Vec<Command> {
        loop {
            let before = commands.clone();
            commands = self.plainer(self.fewer(commands));
            if commands == before {
                return commands;
            }
        }
    }

    /// Leaves out runs of commands, long ones first, as long as the tape still fails.
    fn fewer(&self, mut commands: Vec<Command>) -> Vec<Command> {
        let mut size = commands.len().max(1);
        while size > 0 {
            let mut at = 0;
            while at < commands.len() {
                let mut shorter = commands.clone();
                shorter.drain(at..(at + size).min(commands.len()));
                if self.failure(&shorter).is_some() {
                    commands = shorter;
                } else {
                    at += size;
                }
            }
            size /= 2;
        }
        commands
    }

    /// Replaces each command by a plainer one where the tape still fails.
    fn plainer(&self, mut commands: Vec<Command>) -> Vec<Command> {
        for at in 0..commands.len() {
            for choice in plainer_choices(commands[at], at) {
                let mut changed = commands.clone();
                changed[at] = choice;
                if changed[at] != commands[at] && self.failure(&changed).is_some() {
                    commands = changed;
                }
            }
        }
        commands
    }
}

fn plainer_choices(command: Command, at: usize) -> Vec<Command> {
    match command {
        Command::Format { cores, blocks, journal } => vec![
            Command::Format { cores: cores - 1, blocks, journal },
            Command::Format { cores, blocks: blocks - 1, journal },
            Command::Format { cores, blocks, journal: journal - 1 },
        ],
        Command::Write(write) => vec![
            Command::Write(Write { block: 0, ..write }),
            Command::Write(Write { offset: 0, ..write }),
            Command::Write(Write { data: [at as u8; 4], ..write }),
        ],
        other => vec![other],
    }
}

pub fn tape_of(commands: &[Command]) -> Vec<u8> {
    let mut tape = Vec::new();
    commands.iter().for_each(|command| command.write_to(&mut tape));
    tape
}

/// The whole commands of a tape.
pub fn commands_of(tape: &[u8]) -> Vec<Command> {
    let (mut commands, mut offset) = (Vec::new(), 0);
    while let Ok((command, next)) = command::read(tape, offset) {
        commands.push(command);
        offset = next;
    }
    commands
}
