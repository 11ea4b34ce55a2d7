// plain.rs: the card as a firmware engineer writes it without proofs, in safe Rust over the same lent slices and bytes. What is
// committed is read from the journals each time, as in the library; the library is measured against this card.

use crate::records::{Record, Records};
use card_library::session::Done;
use card_library::stage::Implementation;
use card_tests::command::{self, Command, Task, Write, REPORT_LIMIT};
use card_tests::few::Few;
use card_tests::layout::{
    begins_with_mark, block_at, descriptor, escaped, master, number_commit, read_master, Block, Layout, Master, Name,
    Shape, Tail, Tails, BLOCK, CORES, DISK, HOMES, LAST_NUMBER, LAST_TAIL, MEMORY, TAKEN,
};

#[derive(Clone, Copy, PartialEq)]
enum Phase {
    Blank,
    Up,
    Down,
}

#[derive(Clone, Copy, Default)]
struct Transaction {
    number: u32,
    stamp: u64,
    blocks: Few<u8, TAKEN>,
    /// The highest number named of each core.
    highest: [u32; CORES],
}

impl Transaction {
    fn add_name(&mut self, name: Name) {
        let highest = &mut self.highest[name.core as usize];
        *highest = name.number.max(*highest);
    }

    /// Journal blocks of its record.
    fn length(&self) -> usize {
        self.blocks.len() + 2
    }
}

#[derive(Clone, Copy, Default)]
struct Core {
    next: u32,
    running: Option<Transaction>,
    closed: Option<Transaction>,
    stored: u8,
    committed: u8,
    used: u8,
    homed: u8,
}

/// The card's state; the slices are lent to each command.
#[derive(Clone)]
pub struct Plain {
    phase: Phase,
    shape: Shape,
    closes: u64,
    recovered: u8,
    tails: Tails,
    cores: [Core; CORES],
    holders: [Option<Name>; HOMES],
    stores: u64,
}

/// The stores made, or the number of the refusal.
type Answer = Result<u8, u8>;

impl Plain {
    fn in_phase(phase: Phase) -> Plain {
        let (shape, tails, cores) = (Shape::default(), Tails::default(), [Core::default(); CORES]);
        Plain { phase, shape, closes: 0, recovered: 0, tails, cores, holders: [None; HOMES], stores: 0 }
    }

    fn perform(&mut self, command: Command, disk: &mut [u8], memory: &mut [u8]) -> Answer {
        match (self.phase, command) {
            (Phase::Blank, Command::Format { cores, blocks, journal }) => {
                self.format(Shape::new(cores as u32, blocks as u32, journal as u32).ok_or(4)?, disk, memory)
            }
            (Phase::Blank, _) => Err(20),
            (_, Command::Format { .. }) => Err(21),
            (_, Command::Cut) => self.cut(memory),
            (Phase::Up, Command::Recover) => Err(23),
            (Phase::Down, Command::Recover) => self.recover(disk),
            (Phase::Down, _) => Err(22),
            (_, Command::Write(write)) => self.write(write, disk, memory),
            (_, Command::Close { core }) => self.close(core, memory),
            (_, Command::Store { core }) => self.store(core, disk, memory),
            (_, Command::Checkpoint { core }) => self.checkpoint(core, disk),
            (_, Command::Retire { core }) => self.retire(core, disk),
        }
    }

    fn format(&mut self, shape: Shape, disk: &mut [u8], memory: &mut [u8]) -> Answer {
        disk.fill(0);
        memory.fill(0);
        self.come_up(shape, [Tail { number: 1, position: 0 }; CORES], disk);
        Ok(0)
    }

    /// Empty journals that begin at these tails, and a master that says so.
    fn come_up(&mut self, shape: Shape, tails: Tails, disk: &mut [u8]) {
        put(disk, 0, &master(&Master { layout: Layout::Numbers, shape, tails }));
        *self = Plain { phase: Phase::Up, shape, tails, stores: self.stores, ..Plain::blank() };
        for (core, tail) in self.cores.iter_mut().zip(tails) {
            core.next = tail.number;
        }
    }

    fn cut(&mut self, memory: &mut [u8]) -> Answer {
        memory.fill(0);
        *self = Plain { stores: self.stores, ..Plain::down() };
        Ok(0)
    }

    /// The core's place in the arrays.
    fn core(&self, core: u8) -> Result<usize, u8> {
        (core < self.shape.cores).then_some(core as usize).ok_or(5)
    }

    fn is_running(&self, name: Name) -> bool {
        self.cores[name.core as usize].running.is_some_and(|running| running.number == name.number)
    }

    fn write(&mut self, write: Write, disk: &[u8], memory: &mut [u8]) -> Answer {
        let Write { task, core, block, offset, data } = write;
        let (c, b) = (self.core(core)?, block as usize);
        if b >= self.shape.blocks as usize {
            return Err(6);
        }
        if offset > 124 {
            return Err(7);
        }
        let number = self.cores[c].running.map_or(self.cores[c].next, |running| running.number);
        let writer = Name { core, number };
        let other = self.holders[b].filter(|holder| *holder != writer);
        let tied = other.filter(|holder| self.is_running(*holder));
        let takes = self.holders[b].is_none() || other.is_some() && tied.is_none();
        self.refuse_write(task, writer, takes)?;
        if self.holders[b].is_none() {
            memory[b * BLOCK..(b + 1) * BLOCK].copy_from_slice(block_at(disk, 1 + b));
        }
        self.note_write(writer, other, tied, takes.then_some(b));
        memory[b * BLOCK + offset as usize..][..4].copy_from_slice(&data);
        Ok(0)
    }

    /// Refusals 25, 36, 26 and 27.
    fn refuse_write(&self, task: Task, writer: Name, takes: bool) -> Result<(), u8> {
        let core = &self.cores[writer.core as usize];
        let taken = core.running.map_or(0, |running| running.blocks.len()) + takes as usize;
        if taken > TAKEN {
            return Err(25);
        }
        if task == Task::Report && takes && taken > REPORT_LIMIT {
            return Err(36);
        }
        let closed = core.used as usize + core.closed.map_or(0, |closed| closed.length());
        if closed + 2 + taken > self.shape.journal as usize {
            return Err(26);
        }
        if writer.number > LAST_NUMBER {
            return Err(27);
        }
        Ok(())
    }

    fn note_write(&mut self, writer: Name, other: Option<Name>, tied: Option<Name>, taken: Option<usize>) {
        if let Some(holder) = tied.and_then(|name| self.cores[name.core as usize].running.as_mut()) {
            holder.add_name(writer);
        }
        let core = &mut self.cores[writer.core as usize];
        if core.running.is_none() {
            core.next += 1;
        }
        let running = core.running.get_or_insert(Transaction { number: writer.number, ..Transaction::default() });
        if let Some(name) = other {
            running.add_name(name);
        }
        if let Some(b) = taken {
            running.blocks.push(b as u8);
            self.holders[b] = Some(writer);
        }
    }

    fn close(&mut self, core: u8, memory: &mut [u8]) -> Answer {
        let c = self.core(core)?;
        let mut closing = self.cores[c].running.ok_or(28)?;
        if self.cores[c].closed.is_some() {
            return Err(29);
        }
        for (i, block) in closing.blocks.iter().enumerate() {
            let from = *block as usize * BLOCK;
            memory.copy_within(from..from + BLOCK, copy_place(c, i) * BLOCK);
        }
        self.closes += 1;
        closing.stamp = self.closes;
        self.cores[c].running = None;
        self.cores[c].closed = Some(closing);
        Ok(0)
    }

    fn store(&mut self, core: u8, disk: &mut [u8], memory: &[u8]) -> Answer {
        let c = self.core(core)?;
        let state = &mut self.cores[c];
        let closed = state.closed.ok_or(30)?;
        let step = state.stored as usize;
        let position = self.tails[c].position as usize + state.used as usize + step;
        put(disk, self.shape.place(core, position), &record_block(&closed, step, c, memory));
        state.stored += 1;
        if state.stored as usize == closed.length() {
            state.closed = None;
            state.stored = 0;
            state.committed += 1;
            state.used += closed.length() as u8;
        }
        Ok(1)
    }

    /// The core's oldest committed transaction with its blocks, after 5, 31, 32 and 33.
    fn oldest(&self, core: u8, disk: &[u8]) -> Result<(Record, Few<u8, TAKEN>), u8> {
        let c = self.core(core)?;
        if self.cores[c].committed == 0 {
            return Err(31);
        }
        let most = self.cores.map(|core| core.committed as usize);
        let records = Records::read(disk, self.master(), &most);
        let first = records.first_of(c);
        if !records.valid(disk)[first] {
            return Err(32);
        }
        let oldest = records.all()[first];
        let blocks = oldest.blocks(disk, self.shape);
        if records.shares_lower(disk, &oldest, &blocks) || self.closed_shares_lower(oldest.stamp, &blocks) {
            return Err(33);
        }
        Ok((oldest, blocks))
    }

    fn checkpoint(&mut self, core: u8, disk: &mut [u8]) -> Answer {
        let (oldest, blocks) = self.oldest(core, disk)?;
        let homed = &mut self.cores[core as usize].homed;
        let block = *blocks.get(*homed as usize).ok_or(35)?;
        put(disk, self.shape.home(block), &oldest.image(disk, self.shape, *homed as usize));
        *homed += 1;
        Ok(1)
    }

    fn retire(&mut self, core: u8, disk: &mut [u8]) -> Answer {
        let (oldest, blocks) = self.oldest(core, disk)?;
        if (self.cores[core as usize].homed as usize) < blocks.len() {
            return Err(34);
        }
        self.move_tail(oldest.name, blocks.len() + 2, disk);
        Ok(1)
    }

    fn closed_shares_lower(&self, stamp: u64, blocks: &[u8]) -> bool {
        let mut closed = self.cores.iter().filter_map(|core| core.closed.as_ref());
        closed.any(|other| other.stamp < stamp && other.blocks.iter().any(|block| blocks.contains(block)))
    }

    fn move_tail(&mut self, name: Name, length: usize, disk: &mut [u8]) {
        let c = name.core as usize;
        let position = (self.tails[c].position as usize + length) % self.shape.journal as usize;
        self.tails[c] = Tail { number: name.number + 1, position: position as u8 };
        put(disk, 0, &master(&self.master()));
        let core = &mut self.cores[c];
        core.committed -= 1;
        core.used -= length as u8;
        core.homed = 0;
        for holder in self.holders.iter_mut().filter(|holder| **holder == Some(name)) {
            *holder = None;
        }
    }

    /// The master of a card that is up.
    fn master(&self) -> Master {
        Master { layout: Layout::Numbers, shape: self.shape, tails: self.tails }
    }

    fn recover(&mut self, disk: &mut [u8]) -> Answer {
        let master = read_master(disk).ok_or(8)?;
        let Master { shape, tails, .. } = master;
        let records = Records::read(disk, master, &[usize::MAX; CORES]);
        let valid = records.valid(disk);
        for b in self.recovered..shape.blocks {
            if let Some(image) = records.newest(disk, &valid, b) {
                put(disk, shape.home(b), &image);
                self.recovered = b + 1;
                return Ok(1);
            }
        }
        let mut emptied = Tails::default();
        for c in 0..shape.cores as usize {
            let number = tails[c].number + 1 + records.count_of(c) as u32;
            emptied[c] = Tail { number: number.min(LAST_TAIL), position: 0 };
        }
        self.come_up(shape, emptied, disk);
        Ok(1)
    }
}

impl Implementation for Plain {
    fn blank() -> Plain {
        Plain::in_phase(Phase::Blank)
    }

    fn down() -> Plain {
        Plain::in_phase(Phase::Down)
    }

    fn stores(&self) -> u64 {
        self.stores
    }

    fn command(&mut self, tape: &[u8], at: usize, disk: &mut [u8], memory: &mut [u8]) -> Done {
        let read = command::read(tape, at);
        let answer = match read {
            _ if disk.len() != DISK || memory.len() != MEMORY => Err(1),
            Ok((command, _)) => self.perform(command, disk, memory),
            Err(refusal) => Err(refusal),
        };
        self.stores += answer.unwrap_or(0) as u64;
        let next = read.map_or(tape.len().max(at), |(_, next)| next);
        Done { number: answer.err().unwrap_or(0), byte: tape.get(at).copied().unwrap_or(0), next }
    }

    fn read_number(&self, block: u16, disk: &[u8], memory: &[u8]) -> u8 {
        match self.phase {
            _ if disk.len() != DISK || memory.len() != MEMORY => 1,
            Phase::Blank => 20,
            Phase::Down => 22,
            Phase::Up if block >= self.shape.blocks as u16 => 6,
            Phase::Up => 0,
        }
    }

    fn read_block(&self, block: u16, disk: &[u8], memory: &[u8], out: &mut Block) -> u8 {
        let number = self.read_number(block, disk, memory);
        if number != 0 {
            return number;
        }
        let b = block as usize;
        let is_held = self.holders[b].is_some();
        out.copy_from_slice(if is_held { block_at(memory, b) } else { block_at(disk, 1 + b) });
        0
    }
}

/// The block that a step of STORE puts down: descriptor, data in the order taken, commit.
fn record_block(closed: &Transaction, step: usize, c: usize, memory: &[u8]) -> Block {
    let copy = |i: usize| block_at(memory, copy_place(c, i));
    if step == 0 {
        let flags: [bool; TAKEN] = std::array::from_fn(|i| begins_with_mark(copy(i)));
        return descriptor(closed.number, &closed.blocks, &flags);
    }
    if step <= closed.blocks.len() {
        return escaped(copy(step - 1));
    }
    number_commit(closed.number, closed.stamp, &closed.highest)
}

/// The memory block of the i-th closed copy of a core.
fn copy_place(c: usize, i: usize) -> usize {
    HOMES + TAKEN * c + i
}

/// The one store of a command.
fn put(disk: &mut [u8], index: usize, block: &Block) {
    disk[index * BLOCK..(index + 1) * BLOCK].copy_from_slice(block);
}
