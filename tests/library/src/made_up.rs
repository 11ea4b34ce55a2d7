// made_up.rs: cells that no run made, over any disk and memory, and any command. There is no fault; a command answers one of its
// numbers; a refusal changes nothing; and what has no meaning, bits above a field's width, changes nothing else. The plan is the
// model's, of the card that the cells mean.

use crate::cells::{difference, meaning, to_card, Cells, Field, CELLS, PHASE, SHAPE};
use crate::planner::{check_plan, plan};
use crate::session::{Done, Part, Session, Stop};
use crate::stage::Stage;
use card_tests::checks::{Seen, Watcher};
use card_tests::command::{self, Command, Task, Write};
use card_tests::foreign;
use card_tests::layout::{BLOCK, DISK, LAST_NUMBER, MEMORY};
use card_tests::random::Random;
use card_tests::shrink::tape_of;

/// Values at which something ends: counts, sizes, widths.
const ENDS: [u64; 10] = [0, 2, 8, 24, 64, 256, LAST_NUMBER as u64, 1 << 32, 1 << 35, 1 << 63];

/// The answers of each command to slices of their lengths, where its operands are there.
fn answers(command: Command) -> &'static [u8] {
    match command {
        Command::Format { .. } => &[0, 21, 4],
        Command::Write(Write { task: Task::Lamp, .. }) => &[0, 20, 22, 5, 6, 7, 25, 26, 27],
        Command::Write(_) => &[0, 20, 22, 5, 6, 7, 25, 36, 26, 27],
        Command::Close { .. } => &[0, 20, 22, 5, 28, 29],
        Command::Store { .. } => &[0, 20, 22, 5, 30],
        Command::Checkpoint { .. } => &[0, 20, 22, 5, 31, 32, 33, 35],
        Command::Cut => &[0, 20],
        Command::Recover => &[0, 20, 23, 8],
        Command::Retire { .. } => &[0, 20, 22, 5, 31, 32, 33, 34],
    }
}

/// A watcher that runs the library beside the model for its states, and tries a made-up one after each command.
pub struct MadeUp {
    run: Stage<Session>,
    random: Random,
    /// How often each number was answered.
    pub answers: [u64; 37],
}

impl MadeUp {
    pub fn new(seed: u64) -> MadeUp {
        MadeUp { run: Stage::default(), random: Random::new(seed), answers: [0; 37] }
    }

    fn any_cells(&mut self) -> Cells {
        let mut cells = *self.run.card.cells();
        let random = &mut self.random;
        match random.below(5) {
            0 => cells = std::array::from_fn(|_| random.draw()),
            1 => cells = std::array::from_fn(|_| any_value(random)),
            2 | 3 => (0..random.between(1, 8)).for_each(|_| cells[random.below(CELLS)] = any_value(random)),
            _ => return self.alike(&cells),
        }
        if random.chance(800) {
            cells[PHASE] = random.pick(&[0, 1, 1, 1, 1, 2]);
        }
        if random.chance(500) {
            cells[SHAPE..SHAPE + 3].copy_from_slice(&[8, 64, 24]);
        }
        cells
    }

    /// Other cells that mean the same.
    fn alike(&mut self, cells: &Cells) -> Cells {
        let share = self.random.pick(&[10, 200, 1000]);
        std::array::from_fn(|i| match self.random.chance(share) {
            true => alike(Field::at(i), cells[i], &mut self.random),
            false => cells[i],
        })
    }

    fn any_disk(&mut self) -> Vec<u8> {
        match self.random.below(10) {
            0 => self.any_bytes(DISK),
            1..=3 => foreign::disk(&mut self.random, &self.run.disk),
            _ => self.run.disk.clone(),
        }
    }

    fn any_memory(&mut self) -> Vec<u8> {
        match self.random.below(4) {
            0 => self.any_bytes(MEMORY),
            _ => self.run.memory.clone(),
        }
    }

    /// Random bytes, now and then too few or too many.
    fn any_bytes(&mut self, length: usize) -> Vec<u8> {
        let is_right = self.random.chance(800);
        let mut bytes = vec![0; if is_right { length } else { self.random.below(2 * length) }];
        self.random.fill(&mut bytes);
        bytes
    }

    fn any_tape(&mut self) -> Vec<u8> {
        let random = &mut self.random;
        if random.chance(50) {
            return (0..random.below(12)).map(|_| random.below(11) as u8).collect();
        }
        let commands: Vec<Command> = (0..random.between(1, 3)).map(|_| any_command(random)).collect();
        let mut tape = tape_of(&commands);
        if random.chance(50) {
            tape.truncate(random.below(tape.len()));
        }
        tape
    }

    /// Mostly the first command of a tape.
    fn any_offset(&mut self, tape: &[u8]) -> usize {
        match self.random.below(40) {
            0 => self.random.pick(&[tape.len(), tape.len() + 1, usize::MAX - 1, usize::MAX]),
            1 | 2 => self.random.below(tape.len() + 1),
            _ => 0,
        }
    }

    fn attempt(&mut self) -> Result<(), String> {
        let cells = self.any_cells();
        let before = Stage { card: Session::of_cells(cells), disk: self.any_disk(), memory: self.any_memory() };
        check_plan(plan, &cells, &to_card(&cells), &before.disk, &before.memory)?;
        let tape = self.any_tape();
        let at = self.any_offset(&tape);
        let mut after = before.clone();
        let done = after.command(&tape, at);
        self.answers[(done.number as usize).min(36)] += 1;
        check_answer(&before, &tape, at, done)?;
        check_change(&before, &after, &tape, at, done)?;
        let mut plain = Stage { card: Session::of_cells(meaning(&cells)), ..before.clone() };
        if plain.command(&tape, at) != done || plain.disk != after.disk || plain.memory != after.memory {
            return Err("what has no meaning changed the answer or a byte".into());
        }
        difference(&meaning(after.card.cells()), plain.card.cells()).map_or(Ok(()), Err)?;
        let block = self.random.pick(&[0, 1, 2, 3, 7, 63, 64, 255, 256, u16::MAX]);
        check_reading(&after, block)?;
        let [one, other] = [&after, &plain].map(|stage| stage.card.locate(block, &stage.disk, &stage.memory));
        if one != other {
            return Err(format!("what has no meaning changed where block {block} is read: {one:?}, {other:?}"));
        }
        if self.random.chance(250) {
            check_opposites(&before, any_operand(&mut self.random, 8))?;
            check_tasks(&before, any_write(&mut self.random))?;
            check_tape(before, &tape)?;
        }
        Ok(())
    }
}

fn any_value(random: &mut Random) -> u64 {
    match random.below(5) {
        0 => random.draw(),
        1 => random.below(26) as u64,
        2 => 0,
        3 => random.draw() >> random.below(64),
        _ => random.pick(&ENDS).wrapping_add(random.below(3) as u64).wrapping_sub(1),
    }
}

/// A value that means the same in a cell.
pub(crate) fn alike(field: Field, value: u64, random: &mut Random) -> u64 {
    match field {
        Field::Phase if value < 2 => value,
        Field::Phase => random.draw().max(2),
        Field::Flag | Field::Holder if value == 0 => 0,
        Field::Flag => random.draw().max(1),
        Field::Holder => value + ((random.draw() >> 36) << 35),
        Field::Bits(width) => value | random.draw().checked_shl(width).unwrap_or(0),
    }
}

/// An operand below a limit, more often a low one; now and then any byte.
fn any_operand(random: &mut Random, limit: usize) -> u8 {
    let below = random.between(1, limit);
    if random.chance(30) {
        random.byte()
    } else {
        random.below(below) as u8
    }
}

fn any_write(random: &mut Random) -> Write {
    let [core, block, offset] = [8, 64, 125].map(|limit| any_operand(random, limit));
    let high = if random.chance(20) { random.byte() } else { 0 };
    let (task, block) = (random.pick(&[Task::Lamp, Task::Report]), u16::from_be_bytes([high, block]));
    Write { task, core, block, offset, data: [1, 2, 3, 4] }
}

fn any_command(random: &mut Random) -> Command {
    let core = any_operand(random, 8);
    match random.below(10) {
        0 => {
            let [cores, blocks, journal] = [9, 65, 25].map(|limit| any_operand(random, limit));
            Command::Format { cores, blocks, journal: journal.max(4) }
        }
        1..=3 => Command::Write(any_write(random)),
        4 => Command::Close { core },
        5 => Command::Store { core },
        6 => Command::Checkpoint { core },
        7 => Command::Cut,
        8 => Command::Retire { core },
        _ => Command::Recover,
    }
}

/// One of the command's numbers; its byte and the next offset are what the tape says.
fn check_answer(before: &Stage<Session>, tape: &[u8], at: usize, done: Done) -> Result<(), String> {
    let read = command::read(tape, at);
    let is_listed = match read {
        _ if before.disk.len() != DISK || before.memory.len() != MEMORY => done.number == 1,
        Ok((command, _)) => answers(command).contains(&done.number),
        Err(refusal) => done.number == refusal,
    };
    let next = read.map_or(tape.len().max(at), |(_, next)| next);
    let byte = tape.get(at).copied().unwrap_or(0);
    match is_listed && done.next == next && done.byte == byte {
        true => Ok(()),
        false => Err(format!("{done:?} of {tape:?} at {at}")),
    }
}

/// A refusal changes nothing. A command that is done counts its one store and changes one block, or changes memory alone.
fn check_change(
    before: &Stage<Session>,
    after: &Stage<Session>,
    tape: &[u8],
    at: usize,
    done: Done,
) -> Result<(), String> {
    if done.number != 0 {
        return if after == before { Ok(()) } else { Err(format!("{done:?} changed something")) };
    }
    let stores = matches!(tape[at], 4 | 5 | 7 | 8) as u64;
    let changed = before.disk.chunks(BLOCK).zip(after.disk.chunks(BLOCK)).filter(|(one, other)| one != other).count();
    match () {
        _ if after.card.stores() != before.card.stores().saturating_add(stores) => {
            Err(format!("{done:?}: {} stores after {}", after.card.stores(), before.card.stores()))
        }
        _ if changed > stores as usize && done.byte != 1 => Err(format!("{done:?}: {changed} blocks changed")),
        _ if stores == 1 && before.memory != after.memory => Err(format!("{done:?}: memory changed")),
        _ => Ok(()),
    }
}

/// Of CHECKPOINT and RETIRE just one is done where neither is refused with a number that both have.
fn check_opposites(before: &Stage<Session>, core: u8) -> Result<(), String> {
    let number = |byte| before.clone().command(&[byte, core], 0).number;
    match (number(5), number(8)) {
        (0, 34) | (35, 0) => Ok(()),
        (one, other) if one == other && one != 0 => Ok(()),
        both => Err(format!("CHECKPOINT and RETIRE of core {core} answer {both:?}")),
    }
}

/// Byte 9 does what command 2 does, or is refused with 36; command 2 is then done, or refused with a number that comes after it.
fn check_tasks(before: &Stage<Session>, write: Write) -> Result<(), String> {
    let [lamp, report] = [Task::Lamp, Task::Report].map(|task| {
        let mut after = before.clone();
        let number = after.command(&tape_of(&[Command::Write(Write { task, ..write })]), 0).number;
        (number, after)
    });
    match (lamp.0, report.0) {
        (0 | 26 | 27, 36) => Ok(()),
        (_, number) if number != 36 && lamp == report => Ok(()),
        both => Err(format!("{write:?} is answered {both:?} by the two tasks, or not done alike")),
    }
}

/// The three readings agree.
fn check_reading(stage: &Stage<Session>, block: u16) -> Result<(), String> {
    let Stage { card, disk, memory } = stage;
    let part = card.locate(block, disk, memory);
    let number = card.read_number(block, disk, memory);
    let mut out = [0xA5; BLOCK];
    let copied = card.read_block(block, disk, memory, &mut out);
    let b = block as usize;
    let right = match part.slice {
        1 => Part { number: 0, slice: 1, from: (1 + b) * BLOCK, length: BLOCK },
        2 => Part { number: 0, slice: 2, from: b * BLOCK, length: BLOCK },
        _ => Part { number: number as u32, slice: 0, from: 0, length: 0 },
    };
    let bytes = card.read_part(block, disk, memory).unwrap_or(&[0xA5; BLOCK]);
    let is_refused = matches!(number, 1 | 6 | 20 | 22);
    match part == right && number == copied && is_refused == (part.slice == 0) && out == bytes {
        true => Ok(()),
        false => Err(format!("block {block} is read with {number}, {copied} and {part:?}")),
    }
}

/// The whole tape in one call does what its commands do one by one.
fn check_tape(before: Stage<Session>, tape: &[u8]) -> Result<(), String> {
    let (mut whole, mut single) = (before.clone(), before);
    let Stage { card, disk, memory } = &mut whole;
    let stop = card.run(tape, disk, memory);
    let (mut at, mut right) = (0, Stop { at: 0, number: 0, byte: 0 });
    while at < tape.len() {
        let Done { number, byte, next } = single.command(tape, at);
        right = Stop { at, number: number.into(), byte: byte.into() };
        at = next;
    }
    match stop == right && whole == single {
        true => Ok(()),
        false => Err(format!("the whole tape {tape:?} ends with {stop:?}, its commands with {right:?}")),
    }
}

impl Watcher for MadeUp {
    fn start(&mut self, is_down: bool, disk: &[u8], memory: &[u8]) {
        self.run.start(is_down, disk, memory);
    }

    fn command(&mut self, tape: &[u8], offset: usize, _: Seen) -> Result<(), String> {
        self.run.command(tape, offset);
        self.attempt()
    }
}
