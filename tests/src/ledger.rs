// ledger.rs: a history of transactions with the card's own numbers, kept from commands and answers alone.

use crate::card::Phase;
use crate::command::{Command, Task, Write};
use crate::layout::{
    begins_with_mark, block_at, commit, copy_of, descriptor, escaped, master, read_master, Block, Layout, Master, Name,
    Shape, Tail, Tails, BLOCK, CORES, HOMES, LAST_NUMBER, LAST_TAIL, MEMORY, NAMES, TAKEN, ZERO,
};
use crate::order::Order;
use crate::second_reader::read_journal;
use std::collections::VecDeque;

/// What a ledger goes by: the rule, and the layout that its card writes.
#[derive(Clone, Copy, Debug, Default)]
pub struct Rules {
    pub order: Order,
    pub layout: Layout,
}

/// One unretired transaction.
#[derive(Clone, Debug, Default, PartialEq)]
pub struct Entry {
    pub number: u32,
    pub blocks: Vec<u8>,
    /// All that it names, in the order named; of one read from a disk, what its commit holds.
    pub names: Vec<Name>,
    /// Given at CLOSE with the images; 0 while running.
    pub stamp: u64,
    pub images: Vec<Block>,
    pub stored: usize,
    pub home_stores: usize,
}

impl Entry {
    pub fn length(&self) -> usize {
        self.blocks.len() + 2
    }

    /// What its commit must hold: the whole list, or for each core the highest number in it.
    pub fn due_names(&self, layout: Layout) -> Vec<Name> {
        let highest = |core| self.names.iter().filter(move |name| name.core == core).max_by_key(|name| name.number);
        match layout {
            Layout::Lists => self.names.clone(),
            Layout::Numbers => (0..CORES as u8).filter_map(highest).copied().collect(),
        }
    }

    fn is_running(&self) -> bool {
        self.stamp == 0
    }

    pub fn is_committed(&self) -> bool {
        self.stored == self.length()
    }

    /// Each of its blocks was stored home since the card came up.
    fn is_home(&self) -> bool {
        self.home_stores == self.blocks.len()
    }
}

/// One core: its unretired transactions from the oldest on, the running one last.
#[derive(Clone, Debug, Default)]
pub struct Line {
    pub tail: Tail,
    pub next: u32,
    pub entries: VecDeque<Entry>,
}

impl Line {
    fn running(&self) -> Option<&Entry> {
        self.entries.back().filter(|entry| entry.is_running())
    }

    fn closed(&self) -> impl Iterator<Item = &Entry> {
        self.entries.iter().filter(|entry| !entry.is_running())
    }

    pub fn committed(&self) -> impl Iterator<Item = &Entry> {
        self.entries.iter().filter(|entry| entry.is_committed())
    }

    fn waiting(&self) -> Option<&Entry> {
        self.closed().find(|entry| !entry.is_committed())
    }

    /// How the reading of its journal ends: at a descriptor whose commit is not stored yet, or where no descriptor stands.
    pub fn end(&self) -> u8 {
        match self.waiting() {
            Some(entry) if entry.stored > 0 => 4,
            _ => 1,
        }
    }

    /// Transactions of a core have consecutive numbers, so a number is a place in the line.
    fn find(&self, number: u32) -> Option<&Entry> {
        let above = number.checked_sub(self.entries.front()?.number)?;
        self.entries.get(above as usize)
    }

    fn find_mut(&mut self, number: u32) -> Option<&mut Entry> {
        let above = number.checked_sub(self.entries.front()?.number)?;
        self.entries.get_mut(above as usize)
    }
}

/// A store that the ledger expects: the disk block and its bytes.
pub type Stored = Option<(usize, Block)>;

pub struct Ledger {
    rules: Rules,
    pub phase: Phase,
    /// The layout of the disk, which is another one while a card recovers an older disk.
    pub layout: Layout,
    pub shape: Shape,
    pub lines: [Line; CORES],
    pub holders: [Option<Name>; HOMES],
    /// Home images and memory, as the commands leave them.
    pub home: Vec<Block>,
    pub memory: Vec<u8>,
    closes: u64,
    /// While down: the home stores of recovery, ascending, and how many are made. None: a master that is refused.
    pub restores: Option<Vec<(u8, Block)>>,
    pub restored: usize,
}

impl Ledger {
    pub fn blank(memory: &[u8], rules: Rules) -> Ledger {
        Ledger {
            rules,
            phase: Phase::Blank,
            layout: rules.layout,
            shape: Shape::default(),
            lines: Default::default(),
            holders: [None; HOMES],
            home: vec![ZERO; HOMES],
            memory: memory.to_vec(),
            closes: 0,
            restores: None,
            restored: 0,
        }
    }

    /// The ledger of a card that is down over a disk written elsewhere: here alone it learns from the disk.
    pub fn over(disk: &[u8], memory: &[u8], rules: Rules) -> Ledger {
        let mut ledger = Ledger { phase: Phase::Down, ..Ledger::blank(memory, rules) };
        let Some(master) = read_master(disk) else { return ledger };
        let Master { layout, shape, tails } = master;
        (ledger.layout, ledger.shape) = (layout, shape);
        for block in 0..shape.blocks {
            ledger.home[block as usize] = copy_of(disk, shape.home(block));
        }
        for core in 0..shape.cores {
            let tail = tails[core as usize];
            let entries = read_journal(disk, &master, core, usize::MAX).into();
            ledger.lines[core as usize] = Line { tail, next: tail.number, entries };
        }
        ledger.restores = Some(ledger.plan_recovery());
        ledger
    }

    /// A card that writes numbers goes on where the one so far was cut, over the same disk and any memory.
    pub fn hand_over(&mut self, memory: &[u8]) {
        self.rules.layout = Layout::Numbers;
        self.memory.copy_from_slice(memory);
    }

    pub fn tails(&self) -> Tails {
        std::array::from_fn(|core| self.lines[core].tail)
    }

    /// The master that the disk must hold.
    pub fn master(&self) -> Master {
        Master { layout: self.layout, shape: self.shape, tails: self.tails() }
    }

    /// What a command must be answered, by the conditions of the paper.
    pub fn answer(&self, command: Command) -> u8 {
        let is_format = matches!(command, Command::Format { .. });
        match self.phase {
            Phase::Blank if !is_format => return 20,
            Phase::Up | Phase::Down if is_format => return 21,
            Phase::Down if !matches!(command, Command::Cut | Command::Recover) => return 22,
            Phase::Up if command == Command::Recover => return 23,
            _ => {}
        }
        match command {
            Command::Format { cores, blocks, journal } => {
                let fits = Shape::new(cores as u32, blocks as u32, journal as u32).is_some();
                if fits {
                    0
                } else {
                    4
                }
            }
            Command::Write(write) => self.write_answer(write),
            Command::Close { core } => self.close_answer(core),
            Command::Store { core } => self.store_answer(core),
            Command::Checkpoint { core } => self.checkpoint_answer(core),
            Command::Retire { core } => self.retire_answer(core),
            Command::Cut => 0,
            Command::Recover => {
                if self.restores.is_some() {
                    0
                } else {
                    8
                }
            }
        }
    }

    fn holder_entry(&self, block: usize) -> Option<(Name, &Entry)> {
        let name = self.holders[block]?;
        Some((name, self.lines[name.core as usize].find(name.number)?))
    }

    fn write_answer(&self, write: Write) -> u8 {
        let Write { task, core, block, offset, .. } = write;
        if core >= self.shape.cores {
            return 5;
        }
        if block >= self.shape.blocks as u16 {
            return 6;
        }
        if offset > 124 {
            return 7;
        }
        let line = &self.lines[core as usize];
        let running = line.running();
        let writer = Name { core, number: running.map_or(line.next, |entry| entry.number) };
        let holder = self.holder_entry(block as usize);
        let other = holder.filter(|(name, _)| *name != writer);
        let tied = other.filter(|(_, entry)| entry.is_running());
        let takes = holder.is_none() || other.is_some() && tied.is_none();
        let before = running.map_or(0, |entry| entry.blocks.len());
        let blocks = before + takes as usize;
        let held: usize = line.closed().map(Entry::length).sum();
        match () {
            _ if other.is_some_and(|(name, _)| self.would_pass(running, name)) => 24,
            _ if tied.is_some_and(|(_, entry)| self.would_pass(Some(entry), writer)) => 24,
            _ if blocks > TAKEN => 25,
            // the transaction would have more blocks than before, and more than three
            _ if task == Task::Report && blocks > before && blocks > 3 => 36,
            _ if held + 2 + blocks > self.shape.journal as usize => 26,
            _ if running.is_none() && line.next > LAST_NUMBER => 27,
            _ => 0,
        }
    }

    /// Whether one more name would make a list longer than twelve, where lists are written; one that stands there is not added again.
    fn would_pass(&self, entry: Option<&Entry>, name: Name) -> bool {
        let is_long = entry.is_some_and(|entry| entry.names.len() >= NAMES && !entry.names.contains(&name));
        self.rules.layout == Layout::Lists && is_long
    }

    fn close_answer(&self, core: u8) -> u8 {
        let Some(line) = self.line(core) else { return 5 };
        match () {
            _ if line.running().is_none() => 28,
            _ if line.waiting().is_some() => 29,
            _ => 0,
        }
    }

    fn store_answer(&self, core: u8) -> u8 {
        let Some(line) = self.line(core) else { return 5 };
        if line.waiting().is_none() {
            30
        } else {
            0
        }
    }

    /// All blocks of the oldest were stored home by as many CHECKPOINTs that were done since it is the oldest.
    fn checkpoint_answer(&self, core: u8) -> u8 {
        self.oldest(core).map_or_else(|number| number, |oldest| if oldest.is_home() { 35 } else { 0 })
    }

    /// A block of the oldest is not stored home.
    fn retire_answer(&self, core: u8) -> u8 {
        self.oldest(core).map_or_else(|number| number, |oldest| if oldest.is_home() { 0 } else { 34 })
    }

    /// The core's oldest committed one, where it is valid and shares no block with a lower-stamped one that is not retired.
    fn oldest(&self, core: u8) -> Result<&Entry, u8> {
        let oldest = self.line(core).ok_or(5)?.committed().next().ok_or(31)?;
        match () {
            _ if !self.is_valid(Name { core, number: oldest.number }) => Err(32),
            _ if self.lines.iter().flat_map(Line::closed).any(|entry| is_older_sharer(entry, oldest)) => Err(33),
            _ => Ok(oldest),
        }
    }

    fn line(&self, core: u8) -> Option<&Line> {
        self.lines[..self.shape.cores as usize].get(core as usize)
    }

    /// Valid: committed, and so is all that it depends on and that is not below its core's tail.
    /// Followed one by one from the one asked about, not by shrinking a set.
    pub fn is_valid(&self, name: Name) -> bool {
        let mut seen = vec![name];
        let mut next = 0;
        while let Some(&name) = seen.get(next) {
            next += 1;
            let line = &self.lines[name.core as usize];
            if name.number < line.tail.number {
                continue;
            }
            let Some(entry) = line.find(name.number).filter(|entry| entry.is_committed()) else { return false };
            let before = (self.rules.order == Order::InSequence).then_some(Name { number: name.number - 1, ..name });
            for needed in entry.names.iter().copied().chain(before) {
                if !seen.contains(&needed) {
                    seen.push(needed);
                }
            }
        }
        true
    }

    /// The home stores that recovery owes: for each block that a valid one took, the image of highest stamp.
    fn plan_recovery(&self) -> Vec<(u8, Block)> {
        let mut newest: [Option<(u64, Block)>; HOMES] = [None; HOMES];
        for core in 0..self.shape.cores {
            for entry in self.lines[core as usize].committed() {
                if self.is_valid(Name { core, number: entry.number }) {
                    offer_images(&mut newest, entry);
                }
            }
        }
        let found = newest.iter().enumerate();
        found.filter_map(|(block, best)| best.map(|(_, image)| (block as u8, image))).collect()
    }

    /// Applies a command that was carried out and says which store it must have been.
    pub fn apply(&mut self, command: Command) -> Stored {
        match command {
            Command::Format { cores, blocks, journal } => self.format(cores, blocks, journal),
            Command::Write(write) => self.write(write),
            Command::Close { core } => self.close(core),
            Command::Store { core } => return self.store(core),
            Command::Checkpoint { core } => return self.checkpoint(core),
            Command::Retire { core } => return self.retire(core),
            Command::Cut => self.cut(),
            Command::Recover => return self.recover(),
        }
        None
    }

    fn format(&mut self, cores: u8, blocks: u8, journal: u8) {
        let Some(shape) = Shape::new(cores as u32, blocks as u32, journal as u32) else { return };
        *self = Ledger { phase: Phase::Up, shape, ..Ledger::blank(&[0; MEMORY], self.rules) };
        for line in &mut self.lines[..cores as usize] {
            line.tail = Tail { number: 1, position: 0 };
            line.next = 1;
        }
    }

    fn write(&mut self, write: Write) {
        let Write { core, data, .. } = write;
        let (block, offset) = (write.block as usize, write.offset as usize);
        if core >= self.shape.cores || block >= self.shape.blocks as usize || offset > 124 {
            return;
        }
        let line = &mut self.lines[core as usize];
        if line.running().is_none() {
            line.entries.push_back(Entry { number: line.next, ..Entry::default() });
            line.next += 1;
        }
        let writer = Name { core, number: line.next - 1 };
        let holder = self.holder_entry(block).map(|(name, entry)| (name, entry.is_running()));
        match holder {
            None => {
                self.memory[block * BLOCK..][..BLOCK].copy_from_slice(&self.home[block]);
                self.take(writer, block);
            }
            Some((name, _)) if name == writer => {}
            Some((name, true)) => {
                self.add_name(writer, name);
                self.add_name(name, writer);
            }
            Some((name, false)) => {
                self.take(writer, block);
                self.add_name(writer, name);
            }
        }
        self.memory[block * BLOCK + offset..][..4].copy_from_slice(&data);
    }

    fn take(&mut self, writer: Name, block: usize) {
        self.holders[block] = Some(writer);
        if let Some(entry) = self.lines[writer.core as usize].find_mut(writer.number) {
            entry.blocks.push(block as u8);
        }
    }

    fn add_name(&mut self, owner: Name, name: Name) {
        let Some(entry) = self.lines[owner.core as usize].find_mut(owner.number) else { return };
        if !entry.names.contains(&name) {
            entry.names.push(name);
        }
    }

    fn close(&mut self, core: u8) {
        let Some(line) = self.lines.get_mut(core as usize) else { return };
        let Some(entry) = line.entries.back_mut().filter(|entry| entry.is_running()) else { return };
        self.closes += 1;
        entry.stamp = self.closes;
        for (i, block) in entry.blocks.iter().enumerate() {
            let image = copy_of(&self.memory, *block as usize);
            let place = 64 + 8 * core as usize + i;
            if let Some(copy) = self.memory.get_mut(place * BLOCK..(place + 1) * BLOCK) {
                copy.copy_from_slice(&image);
            }
            entry.images.push(image);
        }
    }

    fn store(&mut self, core: u8) -> Stored {
        let line = self.lines.get_mut(core as usize)?;
        let start = line.tail.position as usize + line.committed().map(Entry::length).sum::<usize>();
        let entry = line.entries.iter_mut().find(|entry| !entry.is_running() && !entry.is_committed())?;
        let block = record_block(self.rules.layout, entry, entry.stored);
        let place = self.shape.place(core, start + entry.stored);
        entry.stored += 1;
        Some((place, block))
    }

    fn checkpoint(&mut self, core: u8) -> Stored {
        let line = self.lines.get_mut(core as usize)?;
        let oldest = line.entries.front_mut().filter(|entry| entry.is_committed())?;
        let (block, image) = (*oldest.blocks.get(oldest.home_stores)?, oldest.images[oldest.home_stores]);
        oldest.home_stores += 1;
        self.home[block as usize] = image;
        Some((self.shape.home(block), image))
    }

    fn retire(&mut self, core: u8) -> Stored {
        let line = self.lines.get_mut(core as usize)?;
        let oldest = line.entries.front().filter(|entry| entry.is_committed())?;
        let position = (line.tail.position as usize + oldest.length()) % self.shape.journal as usize;
        let retired = Name { core, number: oldest.number };
        line.tail = Tail { number: retired.number + 1, position: position as u8 };
        line.entries.pop_front();
        self.holders.iter_mut().filter(|holder| **holder == Some(retired)).for_each(|holder| *holder = None);
        Some((0, master(&self.master())))
    }

    fn cut(&mut self) {
        if self.phase == Phase::Up {
            self.restores = Some(self.plan_recovery());
        }
        self.phase = Phase::Down;
        self.restored = 0;
        self.memory.fill(0);
        self.holders = [None; HOMES];
    }

    fn recover(&mut self) -> Stored {
        if self.phase != Phase::Down {
            return None;
        }
        let restores = self.restores.as_ref()?;
        if let Some(&(block, image)) = restores.get(self.restored) {
            self.restored += 1;
            self.home[block as usize] = image;
            return Some((self.shape.home(block), image));
        }
        for line in &mut self.lines[..self.shape.cores as usize] {
            let last = line.committed().last().map(|entry| entry.number as u64 + 2);
            let number = last.unwrap_or(line.tail.number as u64 + 1).min(LAST_TAIL as u64) as u32;
            *line = Line { tail: Tail { number, position: 0 }, next: number, entries: VecDeque::new() };
        }
        self.phase = Phase::Up;
        self.layout = self.rules.layout;
        self.closes = 0;
        self.restores = None;
        Some((0, master(&self.master())))
    }

    /// Whether the home area on a disk is the one that the commands so far leave.
    pub fn home_is(&self, disk: &[u8]) -> bool {
        (0..self.shape.blocks).all(|block| block_at(disk, self.shape.home(block)) == self.home[block as usize])
    }
}

fn is_older_sharer(entry: &Entry, oldest: &Entry) -> bool {
    entry.stamp < oldest.stamp && entry.blocks.iter().any(|block| oldest.blocks.contains(block))
}

/// Later ones in order of core and number win where stamps are equal.
fn offer_images(newest: &mut [Option<(u64, Block)>; HOMES], entry: &Entry) {
    for (block, image) in entry.blocks.iter().zip(&entry.images) {
        let best = &mut newest[*block as usize];
        if best.is_none_or(|(stamp, _)| entry.stamp >= stamp) {
            *best = Some((entry.stamp, *image));
        }
    }
}

fn record_block(layout: Layout, entry: &Entry, step: usize) -> Block {
    if step == 0 {
        let flags: Vec<bool> = entry.images.iter().map(|image| begins_with_mark(image)).collect();
        return descriptor(entry.number, &entry.blocks, &flags);
    }
    match entry.images.get(step - 1) {
        Some(image) => escaped(image),
        None => commit(layout, entry.number, entry.stamp, &entry.due_names(layout)),
    }
}
