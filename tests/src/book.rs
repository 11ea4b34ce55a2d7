// book.rs: the service book: fed each command with its answer and nothing of the card, it knows what a cut brings back.

use crate::command::{Command, Task, Write};
use crate::layout::{BLOCK, CORES, HOMES};
use crate::order::Order;
use crate::wrong::WrongBook;
use std::collections::VecDeque;

/// A transaction of the book; its place in `entries` is its identity.
#[derive(Default)]
struct Entry {
    took: Vec<u8>,
    names: Vec<usize>,
    /// The one before it on its core since the last cut.
    before: Option<usize>,
    stores: usize,
    committed: bool,
}

#[derive(Default)]
struct BookCore {
    /// The last one opened since the last cut.
    last: Option<usize>,
    running: Option<usize>,
    closed: Option<usize>,
    committed: VecDeque<usize>,
}

struct NotedWrite {
    entry: usize,
    at: usize,
    data: [u8; 4],
}

pub struct Book {
    order: Order,
    wrong: WrongBook,
    entries: Vec<Entry>,
    cores: [BookCore; CORES],
    holders: [Option<usize>; HOMES],
    writes: Vec<NotedWrite>,
    /// The blank area with the kept writes made so far, in order.
    area: Vec<u8>,
}

impl Default for Book {
    fn default() -> Self {
        Book::under(Order::default())
    }
}

impl Book {
    pub fn under(order: Order) -> Book {
        Book::with(order, WrongBook::No)
    }

    /// The same, wrong in one rule.
    pub fn with(order: Order, wrong: WrongBook) -> Book {
        Book::new(order, wrong, 0)
    }

    fn new(order: Order, wrong: WrongBook, blocks: u8) -> Book {
        Book {
            order,
            wrong,
            entries: Vec::new(),
            cores: Default::default(),
            holders: [None; HOMES],
            writes: Vec::new(),
            area: vec![0; blocks as usize * BLOCK],
        }
    }

    pub fn area(&self) -> &[u8] {
        &self.area
    }

    /// A refused command changes nothing in the book, and RECOVER does nothing.
    pub fn feed(&mut self, command: Command, answer: u8) {
        if answer != 0 {
            return;
        }
        match command {
            Command::Format { blocks, .. } => *self = Book::new(self.order, self.wrong, blocks),
            Command::Write(write) => self.write(write),
            Command::Close { core } => self.close(core),
            Command::Store { core } => self.store(core),
            Command::Cut => self.cut(),
            Command::Retire { core } => self.retire(core),
            // a block counted as stored home changes nothing: RETIRE, which counts for the master, retires
            Command::Checkpoint { .. } | Command::Recover => {}
        }
    }

    /// Whose WRITE it is makes no difference.
    fn write(&mut self, write: Write) {
        let Write { task, core, offset, data, .. } = write;
        let block = write.block as usize;
        let at = block * BLOCK + offset as usize;
        if core as usize >= CORES || at + 4 > self.area.len() {
            return;
        }
        let writer = self.running_of(core);
        match self.holders[block] {
            None => self.take(writer, block),
            Some(holder) if holder == writer => {}
            Some(holder) if self.is_running(holder) => {
                self.add_name(writer, holder);
                self.add_name(holder, writer);
            }
            Some(holder) => {
                self.take(writer, block);
                self.add_name(writer, holder);
            }
        }
        if task == Task::Lamp || self.wrong != WrongBook::ReportUnnoted {
            self.writes.push(NotedWrite { entry: writer, at, data });
        }
    }

    /// The core's running transaction, opened if there is none.
    fn running_of(&mut self, core: u8) -> usize {
        let (core, fresh) = (&mut self.cores[core as usize], self.entries.len());
        let running = *core.running.get_or_insert(fresh);
        if running == fresh {
            self.entries.push(Entry { before: core.last, ..Entry::default() });
            core.last = Some(fresh);
        }
        running
    }

    fn is_running(&self, entry: usize) -> bool {
        self.cores.iter().any(|core| core.running == Some(entry))
    }

    fn take(&mut self, entry: usize, block: usize) {
        self.entries[entry].took.push(block as u8);
        self.holders[block] = Some(entry);
    }

    fn add_name(&mut self, entry: usize, name: usize) {
        if !self.entries[entry].names.contains(&name) {
            self.entries[entry].names.push(name);
        }
    }

    fn close(&mut self, core: u8) {
        let Some(core) = self.cores.get_mut(core as usize) else { return };
        if let Some(running) = core.running.take() {
            core.closed = Some(running);
        }
    }

    fn store(&mut self, core: u8) {
        let Some(core) = self.cores.get_mut(core as usize) else { return };
        let Some(closed) = core.closed else { return };
        let entry = &mut self.entries[closed];
        entry.stores += 1;
        if entry.stores == entry.took.len() + 2 {
            entry.committed = true;
            core.closed = None;
            core.committed.push_back(closed);
        }
    }

    /// It holds nothing from then on, but stays committed.
    fn retire(&mut self, core: u8) {
        let Some(core) = self.cores.get_mut(core as usize) else { return };
        let Some(oldest) = core.committed.pop_front() else { return };
        self.holders.iter_mut().filter(|holder| **holder == Some(oldest)).for_each(|holder| *holder = None);
    }

    fn cut(&mut self) {
        let kept = self.kept(self.order);
        for write in self.writes.iter().filter(|write| kept[write.entry]) {
            self.area[write.at..write.at + 4].copy_from_slice(&write.data);
        }
        let area = std::mem::take(&mut self.area);
        *self = Book { area, ..Book::new(self.order, self.wrong, 0) };
    }

    /// Of each core the transactions since the last cut, in the order opened: whether a cut would keep them under a rule.
    pub fn runs(&self, order: Order) -> [Vec<bool>; CORES] {
        let kept = self.kept(order);
        self.cores.each_ref().map(|core| {
            let backwards = std::iter::successors(core.last, |entry| self.entries[*entry].before);
            let mut run: Vec<bool> = backwards.map(|entry| kept[entry]).collect();
            run.reverse();
            run
        })
    }

    /// The largest set of committed ones in which each has all that it depends on there:
    /// whoever depends on one that is not committed is lost, and all others stay.
    fn kept(&self, order: Order) -> Vec<bool> {
        let mut needed_by = vec![Vec::new(); self.entries.len()];
        for (i, entry) in self.entries.iter().enumerate() {
            let before = entry.before.filter(|_| order == Order::InSequence);
            entry.names.iter().chain(&before).for_each(|needed| needed_by[*needed].push(i));
        }
        let mut kept = vec![true; self.entries.len()];
        let mut lost: Vec<usize> = (0..self.entries.len()).filter(|i| !self.entries[*i].committed).collect();
        while let Some(entry) = lost.pop() {
            if kept[entry] {
                kept[entry] = false;
                lost.extend(&needed_by[entry]);
            }
        }
        kept
    }
}
