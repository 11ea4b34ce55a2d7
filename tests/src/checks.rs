// checks.rs: runs tapes on a card and holds every command against the book and the ledger.

use crate::book::Book;
use crate::card::{Card, Outcome, Phase};
use crate::command::{self, Command, Task, Write, REPORT_LIMIT};
use crate::generator::Generator;
use crate::layout::{block_at, master, read_master, Layout, Master, Shape, BLOCK, CORES, DISK, HOMES, MEMORY};
use crate::ledger::{Entry, Ledger, Line, Rules, Stored};
use crate::order::Order;
use crate::random::Random;
use crate::second_reader::{journal_stop, read_journal, Stop};
use crate::wrong::{Wrong, WrongBook, WrongReader};

mod reporting;
mod starts;

pub use reporting::Reporting;
pub use starts::Shares;

/// Which checks are made; a wrong card can be tried against one demand alone.
#[derive(Clone, Copy, PartialEq, Eq, Debug)]
pub struct Checks(u16);

impl Checks {
    /// Demand 1: each command is answered as the ledger's conditions say.
    pub const ANSWER: Checks = Checks(1);
    /// Demand 2: counts, the one block that a store may touch, and what the journals read as.
    pub const COUNT: Checks = Checks(2);
    pub const FRAME: Checks = Checks(4);
    pub const JOURNAL: Checks = Checks(8);
    pub const DEMAND_2: Checks = Checks(2 + 4 + 8);
    /// Demand 3: the home area after a completed recovery is the book's.
    pub const AREA: Checks = Checks(16);
    /// Recovery: home stores ascending, h + 1 commands, up with the last.
    pub const RECOVERY: Checks = Checks(32);
    pub const MEMORY: Checks = Checks(64);
    /// The exact bytes of the one block stored.
    pub const BYTES: Checks = Checks(128);
    pub const READING: Checks = Checks(256);
    /// On runs from FORMAT a journal's reading ends with 1, or with 4 where an uncommitted record's descriptor stands.
    pub const ENDS: Checks = Checks(512);
    /// A byte 9 leaves the blocks of its transaction as they were, or as at most three.
    pub const LIMIT: Checks = Checks(1024);
    pub const ALL: Checks = Checks(2047);
    pub const NONE: Checks = Checks(0);

    fn has(self, check: Checks) -> bool {
        self.0 & check.0 != 0
    }
}

#[derive(Clone, Debug)]
pub struct Failure {
    pub check: &'static str,
    pub detail: String,
    pub commands: u64,
    pub offset: usize,
    pub tape: Vec<u8>,
    /// What another card ran before, whose disk was handed over.
    pub before: Vec<u8>,
    pub is_foreign: bool,
}

/// What the card under test answered, and what it left.
pub struct Seen<'a> {
    pub outcome: Outcome,
    pub card: &'a Card,
    pub disk: &'a [u8],
    pub memory: &'a [u8],
}

/// Another card beside the one under test, told of every start and every command.
pub trait Watcher {
    fn start(&mut self, is_down: bool, disk: &[u8], memory: &[u8]);
    fn command(&mut self, tape: &[u8], offset: usize, seen: Seen) -> Result<(), String>;
}

/// How RETIREs came.
#[derive(Clone, Copy, Debug, Default)]
pub struct Retiring {
    /// Done with another command since the last home store, and of a transaction without blocks.
    pub later: u64,
    pub without_blocks: u64,
    /// Refused with 34 before any home store.
    pub first: u64,
    /// Cuts of a card that is up where home stores are done.
    pub cuts: u64,
}

#[derive(Clone, Debug)]
pub struct Tally {
    pub commands: u64,
    pub tapes: u64,
    pub foreign_disks: u64,
    /// Disks handed over by another card, and what it answered on the tapes that left them.
    pub handed_over: u64,
    pub answers_before: [u64; 42],
    pub recoveries: u64,
    pub cuts_in_recovery: u64,
    pub retiring: Retiring,
    pub reporting: Reporting,
    pub longest_list: usize,
    pub most_records: usize,
    pub answers: [u64; 42],
    /// Journals by their end, which were looked at on runs from FORMAT.
    pub ends: [u64; 5],
}

pub struct Bench<'w> {
    checks: Checks,
    /// The rule of the book and the ledger.
    order: Order,
    wrong: Wrong,
    wrong_book: WrongBook,
    card: Card,
    disk: Vec<u8>,
    memory: Vec<u8>,
    /// Disk and memory as the last command left them.
    seen_disk: Vec<u8>,
    seen_memory: Vec<u8>,
    book: Book,
    ledger: Ledger,
    is_foreign: bool,
    /// Another card runs, whose disk will be handed over.
    is_other: bool,
    shares: Shares,
    /// Makes the disk that every start is over, where disks are given.
    given_disk: Option<fn(&mut Random) -> Vec<u8>>,
    /// RECOVERs carried out since the last cut or start.
    recovers: usize,
    last_command: Option<Command>,
    /// Whose WRITE opened the last transaction of each core.
    opened_by: [Task; CORES],
    tape: Vec<u8>,
    /// The tape of the card whose disk was handed over.
    before: Vec<u8>,
    random: Random,
    /// Chooses the extra looks alone, so that the tapes are the same whatever is checked.
    probe: Random,
    watcher: Option<&'w mut dyn Watcher>,
    pub tally: Tally,
}

type Checked = Result<(), (&'static str, String)>;

fn require(holds: bool, check: &'static str, detail: impl FnOnce() -> String) -> Checked {
    if holds {
        Ok(())
    } else {
        Err((check, detail()))
    }
}

impl<'w> Bench<'w> {
    pub fn new(wrong: Wrong, checks: Checks, watcher: Option<&'w mut dyn Watcher>) -> Bench<'w> {
        Bench::under(Order::default(), wrong, checks, watcher)
    }

    /// The same by book and ledger of either rule.
    pub fn under(order: Order, wrong: Wrong, checks: Checks, watcher: Option<&'w mut dyn Watcher>) -> Bench<'w> {
        let answers = [0; 42];
        let tally = Tally {
            commands: 0,
            tapes: 0,
            foreign_disks: 0,
            handed_over: 0,
            answers_before: answers,
            recoveries: 0,
            cuts_in_recovery: 0,
            retiring: Retiring::default(),
            reporting: Reporting::default(),
            longest_list: 0,
            most_records: 0,
            answers,
            ends: [0; 5],
        };
        Bench {
            checks,
            order,
            wrong,
            wrong_book: WrongBook::No,
            card: Card::with(Phase::Blank, wrong.into()),
            disk: vec![0; DISK],
            memory: vec![0; MEMORY],
            seen_disk: vec![0; DISK],
            seen_memory: vec![0; MEMORY],
            book: Book::under(order),
            ledger: Ledger::blank(&[0; MEMORY], Rules::default()),
            is_foreign: false,
            is_other: false,
            shares: Shares::USUAL,
            given_disk: None,
            recovers: 0,
            last_command: None,
            opened_by: [Task::Lamp; CORES],
            tape: Vec::new(),
            before: Vec::new(),
            random: Random::new(1),
            probe: Random::new(2),
            watcher,
            tally,
        }
    }

    /// Runs generated tapes until so many commands are done.
    pub fn soak(&mut self, commands: u64, seed: u64) -> Result<(), Failure> {
        self.soak_until(seed, |tally| tally.commands >= commands)
    }

    /// Runs generated tapes until the tally is enough.
    pub fn soak_until(&mut self, seed: u64, is_enough: impl Fn(&Tally) -> bool) -> Result<(), Failure> {
        let mut generator = Generator::new(seed);
        self.random = Random::new(seed ^ 0x5EED);
        while !is_enough(&self.tally) {
            self.start_any(&mut generator)?;
            self.generated_tape(&mut generator)?;
        }
        Ok(())
    }

    /// Runs one given tape on a blank card.
    pub fn run_tape(&mut self, tape: &[u8]) -> Result<(), Failure> {
        self.start_blank();
        self.tape = tape.to_vec();
        self.run_from(0)
    }

    /// Runs one given tape on a card that is down over a disk.
    pub fn run_tape_over(&mut self, disk: Vec<u8>, tape: &[u8]) -> Result<(), Failure> {
        self.start_over(disk);
        self.tape = tape.to_vec();
        self.run_from(0)
    }

    fn generated_tape(&mut self, generator: &mut Generator) -> Result<(), Failure> {
        let count = self.tape_length(generator);
        self.generated_commands(generator, count)?;
        let offset = self.tape.len();
        if self.random.chance(300) {
            self.tape.extend(generator.garbage());
        }
        self.run_from(offset)
    }

    fn generated_commands(&mut self, generator: &mut Generator, count: usize) -> Result<(), Failure> {
        for _ in 0..count {
            let offset = self.tape.len();
            generator.command(&self.card).write_to(&mut self.tape);
            self.try_wrong_lengths(offset)?;
            self.step(offset)?;
        }
        Ok(())
    }

    /// Foreign disks get short tapes, and the shortest where every RECOVER is refused, so that many are seen.
    fn tape_length(&self, generator: &mut Generator) -> usize {
        if self.card.phase == Phase::Blank {
            return generator.begin();
        }
        let (shape, most) = match read_master(&self.disk) {
            Some(master) => (master.shape, if self.is_foreign { 200 } else { usize::MAX }),
            None => (Shape::SMALLEST, 4),
        };
        generator.begin_with(shape).min(most)
    }

    /// Runs the rest of the tape and looks at the whole slices at its end.
    fn run_from(&mut self, start: usize) -> Result<(), Failure> {
        let mut offset = start;
        while offset < self.tape.len() {
            let outcome = self.step(offset)?;
            offset = if matches!(outcome.answer, 2 | 3) { self.tape.len() } else { outcome.next };
        }
        let same = self.disk == self.seen_disk && self.memory == self.seen_memory;
        let checked = if self.checks.has(Checks::FRAME) {
            require(same, "frame", || "bytes beyond the shape were touched".into())
        } else {
            Ok(())
        };
        checked.map_err(|found| self.failure(found, offset))
    }

    fn failure(&self, found: (&'static str, String), offset: usize) -> Failure {
        let tape = self.tape.clone();
        let commands = self.tally.commands;
        let before = self.before.clone();
        Failure { check: found.0, detail: found.1, commands, offset, tape, before, is_foreign: self.is_foreign }
    }

    /// Now and then the same command with slices of a wrong length: refusal 1, and nothing changes.
    fn try_wrong_lengths(&mut self, offset: usize) -> Result<(), Failure> {
        if !self.checks.has(Checks::ANSWER) || !self.probe.chance(10) {
            return Ok(());
        }
        let before = self.card;
        let (disk, memory) = match self.probe.below(3) {
            0 => (self.probe.below(DISK), MEMORY),
            1 => (DISK, self.probe.below(MEMORY)),
            _ => (DISK - 1, MEMORY - 1),
        };
        let outcome = self.card.command(&mut self.disk[..disk], &mut self.memory[..memory], &self.tape, offset);
        let expected = Outcome { answer: 1, stores: 0, next: self.tape.len() };
        self.count_answer(1);
        let same = outcome == expected && self.card == before && self.disk == self.seen_disk;
        let same = same && self.memory == self.seen_memory;
        require(same, "answer", || format!("slices of {disk} and {memory} bytes gave {outcome:?}"))
            .map_err(|found| self.failure(found, offset))
    }

    fn step(&mut self, offset: usize) -> Result<Outcome, Failure> {
        let before = self.card;
        let outcome = self.card.command(&mut self.disk, &mut self.memory, &self.tape, offset);
        self.count(&before, offset, outcome);
        let checked = match command::read(&self.tape, offset) {
            _ if self.checks == Checks::NONE => Ok(()),
            Ok((command, next)) => self.check_command(&before, command, next, outcome),
            Err(refusal) => self.check_refusal(&before, outcome, refusal, self.tape.len()),
        };
        checked.map_err(|found| self.failure(found, offset))?;
        if let Some(watcher) = self.watcher.as_deref_mut().filter(|_| !self.is_other) {
            let seen = Seen { outcome, card: &self.card, disk: &self.disk, memory: &self.memory };
            let watched = watcher.command(&self.tape, offset, seen);
            watched.map_err(|detail| self.failure(("differs", detail), offset))?;
        }
        Ok(outcome)
    }

    fn count(&mut self, before: &Card, offset: usize, outcome: Outcome) {
        self.count_answer(outcome.answer);
        if self.is_other {
            return;
        }
        let was_down = before.phase == Phase::Down;
        let command = command::read(&self.tape, offset).ok().map(|(command, _)| command);
        let is_cut = command == Some(Command::Cut);
        self.count_retiring(before, command, outcome.answer);
        if let Some(Command::Write(write)) = command {
            self.count_write(before, write, outcome.answer);
        }
        self.last_command = command;
        self.tally.commands += 1;
        self.tally.recoveries += (was_down && self.card.phase == Phase::Up) as u64;
        self.tally.cuts_in_recovery += (was_down && is_cut && outcome.answer == 0) as u64;
    }

    fn count_retiring(&mut self, before: &Card, command: Option<Command>, answer: u8) {
        let (last, retiring) = (self.last_command, &mut self.tally.retiring);
        match (command, answer) {
            (Some(Command::Retire { core }), 0) => {
                let is_later = last != Some(Command::Checkpoint { core });
                let has_blocks = before.cores[core as usize].home > 0;
                retiring.later += (has_blocks && is_later) as u64;
                retiring.without_blocks += !has_blocks as u64;
            }
            (Some(Command::Retire { core }), 34) => retiring.first += (before.cores[core as usize].home == 0) as u64,
            (Some(Command::Cut), 0) => retiring.cuts += before.cores.iter().any(|core| core.home > 0) as u64,
            _ => {}
        }
    }

    fn count_answer(&mut self, answer: u8) {
        let answers = if self.is_other { &mut self.tally.answers_before } else { &mut self.tally.answers };
        answers[(answer as usize).min(41)] += 1;
    }

    fn check_command(&mut self, before: &Card, command: Command, next: usize, outcome: Outcome) -> Checked {
        let expected = if self.checks == Checks::AREA { 0 } else { self.ledger.answer(command) };
        if outcome.answer != 0 {
            return self.check_refusal(before, outcome, expected, next);
        }
        if self.checks.has(Checks::ANSWER) {
            let right = expected == 0 && outcome.next == next;
            require(right, "answer", || format!("{command:?} gave {outcome:?}, expected {expected}"))?;
        }
        if !self.is_foreign {
            self.book.feed(command, 0);
        }
        let changed = self.changed_blocks(command);
        let checked = self.check_done(before, command, outcome, &changed);
        self.remember(&changed);
        checked
    }

    fn check_refusal(&mut self, before: &Card, outcome: Outcome, expected: u8, next: usize) -> Checked {
        if self.checks.has(Checks::ANSWER) {
            let right = outcome.answer == expected && outcome.next == next;
            require(right, "answer", || format!("{outcome:?}, expected {expected} and offset {next}"))?;
        }
        if self.checks.has(Checks::FRAME) {
            let used = self.used_bytes();
            let same = self.disk[..used] == self.seen_disk[..used] && self.memory_is(&self.seen_memory);
            let same = same && outcome.stores == 0 && self.card == *before;
            require(same, "frame", || format!("a refusal changed something: {outcome:?}"))?;
        }
        Ok(())
    }

    fn used_bytes(&self) -> usize {
        if self.card.phase == Phase::Blank {
            DISK
        } else {
            self.ledger.shape.or_smallest().used() * BLOCK
        }
    }

    /// Compares the parts of memory that this shape can use; the rest is looked at when the tape ends.
    fn memory_is(&self, other: &[u8]) -> bool {
        let shape = self.ledger.shape;
        if self.card.phase == Phase::Blank || shape.blocks == 0 {
            return self.memory == other;
        }
        let images = shape.blocks as usize * BLOCK;
        let copies = HOMES * BLOCK..(HOMES + 8 * shape.cores as usize) * BLOCK;
        self.memory[..images] == other[..images] && self.memory[copies.clone()] == other[copies]
    }

    /// The disk blocks that the last command changed. After FORMAT the whole disk is new.
    fn changed_blocks(&self, command: Command) -> Vec<usize> {
        let is_format = matches!(command, Command::Format { .. });
        let used = if is_format { DISK / BLOCK } else { self.used_bytes() / BLOCK };
        (0..used).filter(|i| block_at(&self.disk, *i) != block_at(&self.seen_disk, *i)).collect()
    }

    fn remember(&mut self, changed: &[usize]) {
        for index in changed {
            let range = index * BLOCK..(index + 1) * BLOCK;
            self.seen_disk[range.clone()].copy_from_slice(&self.disk[range]);
        }
        self.seen_memory.copy_from_slice(&self.memory);
    }

    /// The checks of a command carried out.
    fn check_done(&mut self, before: &Card, command: Command, outcome: Outcome, changed: &[usize]) -> Checked {
        let came_up = before.phase == Phase::Down && self.card.phase == Phase::Up;
        if self.checks.has(Checks::AREA) && came_up && command == Command::Recover {
            self.check_area()?;
        }
        if self.checks == Checks::AREA {
            return Ok(());
        }
        let owed = self.ledger.restores.as_ref().map_or(0, Vec::len);
        let stored = self.ledger.apply(command);
        self.recovers = if command == Command::Recover { self.recovers + 1 } else { 0 };
        self.check_stores(command, outcome, &stored, changed)?;
        if self.checks.has(Checks::LIMIT) {
            self.check_limit(before, command)?;
        }
        if self.checks.has(Checks::JOURNAL) {
            self.check_journals(command, changed)?;
        }
        if self.checks.has(Checks::ENDS) && !self.is_foreign {
            self.check_ends(command)?;
        }
        if self.checks.has(Checks::RECOVERY) {
            self.check_recovery(came_up, owed, &stored, changed)?;
        }
        self.check_bytes(command, &stored)?;
        if self.checks.has(Checks::READING) && self.probe.chance(60) {
            self.check_reading()?;
        }
        if self.is_foreign && command == Command::Cut {
            // Stale records of a foreign disk may be read again, so the ledger starts anew from the disk.
            self.ledger = Ledger::over(&self.disk, &self.memory, Rules { order: self.order, ..Rules::default() });
        }
        Ok(())
    }

    /// Demand 3.
    fn check_area(&self) -> Checked {
        if self.is_foreign {
            return Ok(());
        }
        let area = self.book.area();
        require(self.disk[BLOCK..BLOCK + area.len()] == *area, "area", || "home area is not the book's area".into())
    }

    /// A store is counted exactly where one is due, and touches one block of the kind that is due.
    fn check_stores(&self, command: Command, outcome: Outcome, stored: &Stored, changed: &[usize]) -> Checked {
        if self.checks.has(Checks::COUNT) {
            let due = stored.is_some() as u8;
            require(outcome.stores == due, "count", || format!("{command:?} counted {} stores", outcome.stores))?;
        }
        if self.checks.has(Checks::FRAME) && !matches!(command, Command::Format { .. }) {
            let allowed = changed.len() <= 1 && changed.iter().all(|index| self.may_store(command, *index));
            require(allowed, "frame", || format!("{command:?} changed the blocks {changed:?}"))?;
        }
        Ok(())
    }

    fn may_store(&self, command: Command, index: usize) -> bool {
        let shape = self.ledger.shape;
        match command {
            Command::Store { core } => {
                let start = shape.journal_start(core);
                (start..start + shape.journal as usize).contains(&index)
            }
            Command::Checkpoint { .. } => (1..=shape.blocks as usize).contains(&index),
            Command::Retire { .. } => index == 0,
            Command::Recover => index <= shape.blocks as usize,
            _ => false,
        }
    }

    fn check_limit(&self, before: &Card, command: Command) -> Checked {
        let Command::Write(Write { task: Task::Report, core, .. }) = command else { return Ok(()) };
        let blocks = |card: &Card| card.cores[core as usize].running.map(|running| running.blocks);
        let (old, new) = (blocks(before), blocks(&self.card));
        let is_small = new.is_some_and(|blocks| blocks.len() <= REPORT_LIMIT);
        require(old == new || is_small, "limit", || format!("{command:?} left the blocks {new:?}, there were {old:?}"))
    }

    /// Demand 2: each journal reads as exactly the ledger's transactions stored whole since its tail.
    fn check_journals(&mut self, command: Command, changed: &[usize]) -> Checked {
        if changed.is_empty() && matches!(command, Command::Write { .. } | Command::Close { .. }) {
            return Ok(());
        }
        let Some(master) = read_master(&self.disk) else {
            let was_bad = self.is_foreign && self.ledger.phase == Phase::Down;
            return require(was_bad, "journal", || "the master is bad".into());
        };
        if command != Command::Cut && self.ledger.phase != Phase::Up {
            return Ok(());
        }
        require(master == self.ledger.master(), "journal", || format!("the master tells {master:?}"))?;
        (0..master.shape.cores).try_for_each(|core| self.check_journal(&master, core))
    }

    fn check_journal(&mut self, master: &Master, core: u8) -> Checked {
        let line = &self.ledger.lines[core as usize];
        // After recovery a foreign disk may still have stale records behind the card's own.
        let limit = if self.is_foreign { line.committed().count() } else { usize::MAX };
        let read = read_journal(&self.disk, master, core, limit);
        let same = is_told(&read, line, master.layout);
        let longest = line.entries.iter().map(|entry| entry.names.len()).max().unwrap_or(0);
        self.tally.longest_list = self.tally.longest_list.max(longest);
        self.tally.most_records = self.tally.most_records.max(read.len());
        require(same, "journal", || format!("the journal of core {core} does not read as the ledger has it"))
    }

    /// Whether up or down; only the master store of recovery does away with a torn record.
    fn check_ends(&mut self, command: Command) -> Checked {
        if matches!(command, Command::Write { .. } | Command::Close { .. }) {
            return Ok(());
        }
        let Some(master) = read_master(&self.disk) else {
            return require(false, "ends", || "the master is bad".into());
        };
        for core in 0..master.shape.cores {
            let Stop { end, .. } = journal_stop(&self.disk, &master, core, WrongReader::No);
            let due = self.ledger.lines[core as usize].end();
            self.tally.ends[end as usize] += 1;
            require(end == due, "ends", || format!("the journal of core {core} ends with {end}, due is {due}"))?;
        }
        Ok(())
    }

    fn check_recovery(&self, came_up: bool, owed: usize, stored: &Stored, changed: &[usize]) -> Checked {
        let agrees = self.card.phase == self.ledger.phase;
        require(agrees, "recovery", || format!("the card is {:?}, not {:?}", self.card.phase, self.ledger.phase))?;
        if came_up {
            let recovers = self.recovers;
            require(recovers == owed + 1, "recovery", || format!("{recovers} RECOVERs for {owed} blocks"))?;
        }
        let due = stored.map(|(index, _)| index);
        let in_place = self.recovers == 0 || changed.iter().all(|index| Some(*index) == due);
        require(in_place, "recovery", || format!("RECOVER stored {changed:?}, due was {due:?}"))
    }

    fn check_bytes(&self, command: Command, stored: &Stored) -> Checked {
        if self.checks.has(Checks::MEMORY) {
            let same = self.memory_is(&self.ledger.memory);
            require(same, "memory", || format!("memory after {command:?} is not as due"))?;
        }
        if let (Some((index, bytes)), true) = (stored, self.checks.has(Checks::BYTES)) {
            let same = block_at(&self.disk, *index) == bytes;
            require(same, "bytes", || format!("{command:?} left other bytes in disk block {index}"))?;
        }
        if matches!(command, Command::Format { .. }) && self.checks.has(Checks::BYTES) {
            self.check_format()?;
        }
        Ok(())
    }

    fn check_format(&self) -> Checked {
        let expected = master(&self.ledger.master());
        let same = self.disk[..BLOCK] == expected && self.disk[BLOCK..].iter().all(|byte| *byte == 0);
        require(same && self.memory.iter().all(|byte| *byte == 0), "bytes", || "FORMAT left other bytes".into())
    }

    /// Every block is handed out from memory while it has a holder, else from the disk, and in place.
    fn check_reading(&self) -> Checked {
        let (card, disk, memory) = (&self.card, &self.disk[..], &self.memory[..]);
        let blocks = self.ledger.shape.blocks as usize;
        for block in (0..blocks + 1).chain([255, usize::MAX]) {
            let number = match self.ledger.phase {
                Phase::Down => 22,
                _ if block >= blocks => 6,
                _ => 0,
            };
            let part = card.read_block(disk, memory, block);
            let right = card.read_number(disk, memory, block) == number && self.is_right_part(part, block, number);
            require(right, "reading", || format!("block {block} was read wrongly"))?;
        }
        let short = card.read_number(&disk[1..], memory, 0) == 1 && card.read_block(disk, &memory[1..], 0).is_empty();
        require(short, "reading", || "slices of a wrong length were read".into())
    }

    fn is_right_part(&self, part: &[u8], block: usize, number: u8) -> bool {
        if number != 0 {
            return part.is_empty();
        }
        let place = match self.ledger.holders[block] {
            Some(_) => block_at(&self.memory, block),
            None => block_at(&self.disk, 1 + block),
        };
        part.len() == BLOCK && part.as_ptr() == place.as_ptr()
    }
}

/// Whether records read are the ledger's committed transactions: number, blocks, images, stamp and names.
fn is_told(read: &[Entry], line: &Line, layout: Layout) -> bool {
    let same = |(one, other): (&Entry, &Entry)| {
        let bytes = one.blocks == other.blocks && one.images == other.images;
        bytes && one.number == other.number && one.stamp == other.stamp && one.names == other.due_names(layout)
    };
    read.len() == line.committed().count() && read.iter().zip(line.committed()).all(same)
}
