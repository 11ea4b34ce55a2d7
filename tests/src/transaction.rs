// transaction.rs: the card's WRITE, CLOSE and STORE: a transaction from its opening to its commit.

use crate::card::{Card, Done, Lent, Transaction};
use crate::command::{Task, Write, REPORT_LIMIT};
use crate::few::Few;
use crate::layout::{
    begins_with_mark, block_at, commit, copy_of, descriptor, escaped, Block, Layout, Name, BLOCK, HOMES, LAST_NUMBER,
    NAMES, TAKEN,
};
use crate::wrong::Wrong;

/// What a WRITE would do, settled before anything is changed.
struct Plan {
    task: Task,
    writer: Name,
    opens: bool,
    takes: bool,
    /// Memory gets the home image first.
    loads: bool,
    /// The writer as it would stand before this write's own changes.
    transaction: Transaction,
    /// The name that goes into the writer's list.
    names: Option<Name>,
    /// The running holder whose list names the writer.
    names_back: Option<Name>,
}

impl Card {
    pub(crate) fn write(&mut self, lent: &mut Lent, write: Write) -> Done {
        let Write { task, core, block, offset, data } = write;
        self.check_core(core)?;
        if block >= self.shape.blocks as u16 {
            return Err(6);
        }
        if offset > 124 {
            return Err(7);
        }
        let plan = self.plan(task, core, block as u8);
        self.refuse_write(&plan)?;
        self.carry_out(&plan, block as u8);
        let at = block as usize * BLOCK;
        if plan.loads && !self.is_mute() && !self.is(Wrong::NotLoaded) {
            lent.memory[at..at + BLOCK].copy_from_slice(block_at(lent.disk, self.shape.home(block as u8)));
        }
        if !self.is_mute() {
            lent.memory[at + offset as usize..at + offset as usize + 4].copy_from_slice(&data);
        }
        Ok(0)
    }

    pub(crate) fn is_running(&self, name: Name) -> bool {
        self.cores[name.core as usize].running.is_some_and(|running| running.number == name.number)
    }

    fn is_committed(&self, name: Name) -> bool {
        let core = &self.cores[name.core as usize];
        name.number.checked_sub(core.tail.number).is_some_and(|above| above < core.committed as u32)
    }

    /// The four rules for the holder of a block.
    fn plan(&self, task: Task, core: u8, block: u8) -> Plan {
        let mine = &self.cores[core as usize];
        let fresh = Transaction { number: mine.next, ..Transaction::default() };
        let transaction = mine.running.unwrap_or(fresh);
        let writer = Name { core, number: transaction.number };
        let holder = self.holders[block as usize];
        let other = holder.filter(|name| *name != writer);
        let tied = other.filter(|name| self.is_running(*name) && !self.is(Wrong::WriterTakesRunning));
        let mut plan = Plan {
            task,
            writer,
            opens: mine.running.is_none(),
            takes: holder.is_none() || other.is_some() && tied.is_none(),
            loads: holder.is_none(),
            transaction,
            names: other,
            names_back: tied,
        };
        self.misplan(&mut plan);
        plan
    }

    fn misplan(&self, plan: &mut Plan) {
        match self.kind.wrong {
            Wrong::OwnCoreLeftOut => plan.names = plan.names.filter(|name| name.core != plan.writer.core),
            Wrong::NoNameForCommitted => plan.names = plan.names.filter(|name| !self.is_committed(*name)),
            Wrong::OnlyWriterNames => plan.names_back = None,
            Wrong::OnlyHolderNames if plan.names_back.is_some() => plan.names = None,
            Wrong::ReportNamesNone if plan.task == Task::Report && plan.takes => plan.names = None,
            _ => {}
        }
    }

    /// The names with one added, and whether they still fit in a commit.
    fn with_name(&self, names: &Few<Name, NAMES>, name: Option<Name>) -> (Few<Name, NAMES>, bool) {
        let mut more = *names;
        let Some(name) = name else { return (more, true) };
        match self.kind.layout {
            Layout::Lists if names.contains(&name) => {}
            Layout::Lists => more.push(name),
            Layout::Numbers => self.raise(&mut more, name),
        }
        (more, more.contains(&name) || self.kind.layout == Layout::Numbers)
    }

    /// For each core one name, that of the highest number.
    fn raise(&self, names: &mut Few<Name, NAMES>, name: Name) {
        let Some(named) = names.iter_mut().find(|named| named.core == name.core) else { return names.push(name) };
        match self.kind.wrong {
            Wrong::LastNumber => *named = name,
            Wrong::FirstNumber => {}
            _ => named.number = named.number.max(name.number),
        }
    }

    fn holders_list(&self, plan: &Plan) -> Option<(Few<Name, NAMES>, bool)> {
        let holder = self.cores[plan.names_back?.core as usize].running?;
        Some(self.with_name(&holder.names, Some(plan.writer)))
    }

    /// Refusals 25, 36, 26 and 27, and 24 by a card that writes lists, judged on what the WRITE would leave. The first is answered.
    fn refuse_write(&self, plan: &Plan) -> Result<(), u8> {
        let (_, writer_fits) = self.with_name(&plan.transaction.names, plan.names);
        let holder_fits = self.holders_list(plan).is_none_or(|(_, fits)| fits);
        let taken = plan.transaction.blocks.len() + plan.takes as usize;
        let untested = self.is(Wrong::No26OnOpen) && !plan.takes;
        let is_full = self.closed_length(plan.writer.core) + 2 + taken > self.shape.journal as usize;
        let mut conditions = [
            (24, !writer_fits || !holder_fits),
            (25, taken > TAKEN),
            (36, self.passes_report_limit(plan)),
            (26, is_full && !untested),
            (27, plan.opens && plan.transaction.number > LAST_NUMBER),
        ];
        match self.kind.wrong {
            Wrong::Early36 => conditions.swap(1, 2),
            Wrong::Late36 => conditions.swap(2, 3),
            _ => {}
        }
        conditions.iter().find(|(_, holds)| *holds).map_or(Ok(()), |(refusal, _)| Err(*refusal))
    }

    /// 36: the report task would take a block, and the transaction has three or more.
    fn passes_report_limit(&self, plan: &Plan) -> bool {
        let is_asked = plan.task == Task::Report && !self.is(Wrong::No36) || self.is(Wrong::Lamp36);
        let limit = REPORT_LIMIT + self.is(Wrong::Four36) as usize;
        let takes = match self.kind.wrong {
            Wrong::Held36 => plan.names_back.is_none(),
            Wrong::Tied36 => plan.takes || plan.names_back.is_some(),
            _ => plan.takes,
        };
        is_asked && takes && plan.transaction.blocks.len() >= limit
    }

    /// Blocks of the records of a core's closed unretired transactions, stored yet or not.
    pub(crate) fn closed_length(&self, core: u8) -> usize {
        let core = &self.cores[core as usize];
        let closed = core.closed.filter(|_| core.stored > 0 || !self.is(Wrong::Only26Stored));
        core.length as usize + closed.map_or(0, |closed| closed.blocks.len() + 2)
    }

    fn carry_out(&mut self, plan: &Plan, block: u8) {
        let mut transaction = plan.transaction;
        if plan.opens && self.is(Wrong::StampAtOpen) {
            self.closes += 1;
            transaction.stamp = self.closes;
        }
        transaction.names = self.with_name(&transaction.names, plan.names).0;
        if let (Some((list, _)), Some(holder)) = (self.holders_list(plan), plan.names_back) {
            self.cores[holder.core as usize].running.as_mut().expect("a running holder").names = list;
        }
        if plan.takes {
            transaction.blocks.push(block);
            self.holders[block as usize] = Some(plan.writer);
        }
        let mine = &mut self.cores[plan.writer.core as usize];
        mine.next += plan.opens as u32;
        mine.running = Some(transaction);
    }

    pub(crate) fn close(&mut self, lent: &mut Lent, core: u8) -> Done {
        self.check_core(core)?;
        let mut transaction = self.cores[core as usize].running.ok_or(28)?;
        if self.cores[core as usize].closed.is_some() && !self.is(Wrong::No29) {
            return Err(29);
        }
        if !self.is(Wrong::StampAtOpen) && !self.is(Wrong::StampAtCommit) {
            self.closes += 1;
            transaction.stamp = self.closes;
        }
        for (i, block) in transaction.blocks.iter().enumerate() {
            let image = copy_of(lent.memory, *block as usize);
            let at = copy_place(core, i) * BLOCK;
            if !self.is_mute() {
                lent.memory[at..at + BLOCK].copy_from_slice(&image);
            }
        }
        let mine = &mut self.cores[core as usize];
        mine.running = None;
        mine.closed = Some(transaction);
        mine.stored = 0;
        Ok(self.is(Wrong::InventedCount) as u8)
    }

    pub(crate) fn store(&mut self, lent: &mut Lent, core: u8) -> Done {
        self.check_core(core)?;
        if self.is(Wrong::StoreAlways30) {
            return Err(30);
        }
        let mine = self.cores[core as usize];
        let mut closed = mine.closed.ok_or(30)?;
        let step = mine.stored as usize;
        let ends = step == closed.blocks.len() + 1;
        if ends && self.is(Wrong::StampAtCommit) {
            self.closes += 1;
            closed.stamp = self.closes;
        }
        let block = self.record_block(lent, core, &closed, step);
        let start = mine.tail.position as usize + mine.length as usize;
        let index = self.record_place(core, start, step);
        self.put(lent.disk, index, &block);
        self.count_store(core, &closed, ends);
        Ok(1)
    }

    fn count_store(&mut self, core: u8, closed: &Transaction, ends: bool) {
        let mine = &mut self.cores[core as usize];
        mine.stored += 1;
        if ends {
            mine.closed = None;
            mine.stored = 0;
            mine.committed = mine.committed.saturating_add(1);
            mine.length = mine.length.saturating_add(closed.blocks.len() as u8 + 2);
            self.aside += self.is(Wrong::FirstRecordOnly) as u64;
        }
    }

    fn record_place(&self, core: u8, start: usize, step: usize) -> usize {
        if self.is(Wrong::NoWrap) {
            self.shape.place(core, start) + step
        } else {
            self.shape.place(core, start + step)
        }
    }

    /// The block that a step of STORE puts down: descriptor, data in the order taken, commit.
    fn record_block(&self, lent: &Lent, core: u8, closed: &Transaction, step: usize) -> Block {
        let blocks = &closed.blocks;
        if step == 0 {
            let mut flags = Few::<bool, TAKEN>::new();
            for i in 0..blocks.len() {
                flags.push(begins_with_mark(self.source(lent, core, closed, i)) && !self.is(Wrong::NoEscape));
            }
            return descriptor(closed.number, blocks, &flags);
        }
        if step <= blocks.len() {
            let image = self.source(lent, core, closed, step - 1);
            return if self.is(Wrong::NoEscape) { copy_of(image, 0) } else { escaped(image) };
        }
        commit(self.kind.layout, closed.number, closed.stamp, &closed.names)
    }

    fn source<'a>(&self, lent: &'a Lent, core: u8, closed: &Transaction, i: usize) -> &'a [u8] {
        let from_images = self.is(Wrong::StoreFromImages);
        block_at(lent.memory, if from_images { closed.blocks[i] as usize } else { copy_place(core, i) })
    }
}

/// The memory block of a core's i-th closed copy.
pub fn copy_place(core: u8, i: usize) -> usize {
    HOMES + TAKEN * core as usize + i
}
