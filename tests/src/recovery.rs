// recovery.rs: the card's CHECKPOINT, RETIRE and RECOVER: images going home and tails moving on.

use crate::card::{Card, Done, Lent, Phase};
use crate::journal::{Journals, Reader, Record, Set};
use crate::layout::{
    copy_of, master, read_master, read_master_in, word, Block, Layout, Master, Shape, Tail, Tails, CORES, LAST_TAIL,
    ZERO,
};
use crate::order::Order;
use crate::wrong::Wrong;

/// Which wrong card does not ask which number of the oldest one: by CHECKPOINT, and by RETIRE.
const UNASKED: [&[(Wrong, u8)]; 2] = [
    &[(Wrong::No32, 32), (Wrong::No33, 33)],
    &[(Wrong::No32, 32), (Wrong::No33, 33), (Wrong::RetireNo32, 32), (Wrong::RetireNo33, 33)],
];

impl Card {
    /// What CHECKPOINT and RETIRE ask first: 5, 31, 32, 33. Then it is the core's oldest committed transaction.
    fn oldest(&self, disk: &[u8], core: u8, unasked: &[(Wrong, u8)]) -> Result<Record, u8> {
        self.check_core(core)?;
        let asks = |number| !unasked.contains(&(self.kind.wrong, number));
        let journals = self.journals(disk);
        let oldest = *journals.of_core(core).first().ok_or(31)?;
        let valid = self.valid_set(&journals);
        if valid >> journals.first_of(core) & 1 == 0 && asks(32) {
            return Err(32);
        }
        if self.has_older_sharer(&journals, &oldest) && asks(33) {
            return Err(33);
        }
        Ok(oldest)
    }

    /// Home stores alone: the next one of the core's oldest committed transaction.
    pub(crate) fn checkpoint(&mut self, lent: &mut Lent, core: u8) -> Done {
        if self.is(Wrong::CheckpointAlways32) {
            return self.check_core(core).and(Err(32));
        }
        let oldest = self.oldest(lent.disk, core, UNASKED[0])?;
        let (step, blocks) = (self.cores[core as usize].home as usize, oldest.blocks.len());
        match self.kind.wrong {
            Wrong::OldCheckpoint if step >= blocks => return self.move_tail(lent, &oldest),
            Wrong::No35 if step == blocks && blocks > 0 => self.store_home(lent, &oldest, blocks - 1),
            _ if step >= blocks => return Err(35),
            Wrong::RetiresAtOnce => return self.move_tail(lent, &oldest),
            _ => self.store_home(lent, &oldest, step),
        }
        if self.is(Wrong::MasterWithLastHome) && step + 1 == blocks {
            return self.move_tail(lent, &oldest).map(|stores| stores + 1);
        }
        Ok(1)
    }

    /// The master store that retires the core's oldest committed transaction, once its home stores are done.
    pub(crate) fn retire(&mut self, lent: &mut Lent, core: u8) -> Done {
        let oldest = self.oldest(lent.disk, core, UNASKED[1])?;
        let is_home = self.cores[core as usize].home as usize >= oldest.blocks.len();
        if self.is(Wrong::RetireAlways34) || !is_home && !self.is(Wrong::RetireNo34) {
            return Err(34);
        }
        self.move_tail(lent, &oldest)
    }

    fn store_home(&mut self, lent: &mut Lent, oldest: &Record, step: usize) {
        let block = oldest.blocks[step];
        let image = if self.is(Wrong::CheckpointFromMemory) {
            copy_of(lent.memory, block as usize)
        } else {
            self.image(lent.disk, self.shape, oldest, step)
        };
        self.put(lent.disk, self.shape.home(block), &image);
        self.cores[oldest.core as usize].home += 1;
    }

    /// The master with the tail moved past the oldest one, which holds nothing from then on.
    fn move_tail(&mut self, lent: &mut Lent, oldest: &Record) -> Done {
        let length = oldest.length() as u8;
        let journal = self.shape.journal;
        let mine = &mut self.cores[oldest.core as usize];
        mine.tail = Tail { number: mine.tail.number + 1, position: (mine.tail.position + length) % journal };
        mine.committed -= 1;
        mine.length = mine.length.saturating_sub(length);
        mine.home = 0;
        let layout = self.layout_unless(Wrong::RetireMasterZero);
        let block = master(&Master { layout, shape: self.shape, tails: self.tails() });
        self.put(lent.disk, 0, &block);
        for holder in self.holders.iter_mut().filter(|_| self.kind.wrong != Wrong::HolderKept) {
            if *holder == Some(oldest.name()) {
                *holder = None;
            }
        }
        Ok(1)
    }

    fn valid_set(&self, journals: &Journals) -> Set {
        let all = journals.everything();
        match self.kind.wrong {
            Wrong::AllCommittedValid => all,
            Wrong::ValidityOneDeep => journals.struck(all, Order::InSequence),
            Wrong::SequenceOneRound => journals.struck(journals.valid(all, Order::Unordered), Order::InSequence),
            Wrong::SequenceBelowTail => journals.valid(not_first(journals), Order::InSequence),
            wrong @ (Wrong::OneAboveMet | Wrong::FirstUnmetKept | Wrong::CountsOnce) => {
                journals.counted(&journals.valid_counts(wrong))
            }
            _ => journals.valid(all, self.order()),
        }
    }

    /// CHECKPOINT and RETIRE read the valid set while the card is up, RECOVER while it is down.
    fn order(&self) -> Order {
        match (self.kind.wrong, self.phase) {
            (Wrong::NoSequence, _) => Order::Unordered,
            (Wrong::SequenceInRecoveryAlone, Phase::Up) => Order::Unordered,
            (Wrong::SequenceInRunningAlone, Phase::Down) => Order::Unordered,
            _ => Order::InSequence,
        }
    }

    /// Whether an unretired transaction with a lower stamp took a block of this one.
    fn has_older_sharer(&self, journals: &Journals, oldest: &Record) -> bool {
        let committed = journals.records.iter().any(|r| r.stamp < oldest.stamp && r.shares_a_block(&oldest.blocks));
        let closed = self.cores.iter().filter_map(|core| core.closed);
        let waiting = closed.filter(|t| t.stamp != 0 && t.stamp < oldest.stamp);
        let uncommitted = waiting.into_iter().any(|t| oldest.shares_a_block(&t.blocks));
        committed || uncommitted && !self.is(Wrong::Only33Committed)
    }

    fn image(&self, disk: &[u8], shape: Shape, record: &Record, i: usize) -> Block {
        let mut seen = *record;
        if self.is(Wrong::FlagIgnored) {
            seen.flags[i] = false;
        }
        seen.image(disk, shape, i)
    }

    pub(crate) fn recover(&mut self, lent: &mut Lent) -> Done {
        let master = self.master_of(lent.disk).ok_or(8)?;
        let shape = master.shape;
        let reader = Reader { disk: lent.disk, master, wrong: self.kind.wrong };
        let journals = Journals::read(reader, &[usize::MAX; CORES]);
        let valid = self.valid_set(&journals);
        match self.next_home(lent.disk, shape, &journals, valid) {
            Some((block, image)) => {
                self.put(lent.disk, shape.home(block), &image);
                self.place = self.place_after(shape, block);
            }
            None => self.empty_journals(lent, shape, &journals),
        }
        Ok(1)
    }

    /// What the master tells; wrong cards take its bytes 8 to 11 otherwise.
    fn master_of(&self, disk: &[u8]) -> Option<Master> {
        let layout = match (self.kind.wrong, word(disk, 8)) {
            (Wrong::OtherWordTaken, 2..) => Layout::Numbers,
            (Wrong::ZeroRefused, 0) => return None,
            (Wrong::ListsAlways, 1) => Layout::Lists,
            (Wrong::NumbersAlways, 0) => Layout::Numbers,
            (Wrong::LayoutForgotten, 0) if self.aside > 0 => Layout::Numbers,
            _ => return read_master(disk),
        };
        read_master_in(layout, disk)
    }

    fn place_after(&self, shape: Shape, block: u8) -> u8 {
        if self.is(Wrong::RecoverHighestFirst) {
            shape.blocks - block
        } else {
            block + 1
        }
    }

    /// The lowest block not passed yet that the valid set holds, with its newest image.
    fn next_home(&self, disk: &[u8], shape: Shape, journals: &Journals, valid: Set) -> Option<(u8, Block)> {
        match self.kind.wrong {
            Wrong::UpBeforeHome => return None,
            Wrong::BlankAlways => return (self.place < shape.blocks).then_some((self.place, ZERO)),
            _ => {}
        }
        let backwards = self.is(Wrong::RecoverHighestFirst);
        let place = self.place.saturating_add(self.is(Wrong::StrictlyAbove) as u8);
        let order = (place..shape.blocks).map(|b| if backwards { shape.blocks - 1 - b } else { b });
        let (block, record) = order.into_iter().find_map(|b| Some((b, self.newest(journals, b, valid)?)))?;
        let i = record.blocks.iter().position(|each| *each == block)?;
        Some((block, self.image(disk, shape, record, i)))
    }

    fn newest<'a>(&self, journals: &'a Journals, block: u8, valid: Set) -> Option<&'a Record> {
        let newest = journals.newest(block, valid)?;
        let members = journals.records.iter().enumerate().filter(|(i, _)| valid >> i & 1 == 1).map(|(_, r)| r);
        let mut holders = members.filter(|record| record.took(block));
        match self.kind.wrong {
            Wrong::NewestByOrder => holders.next_back(),
            Wrong::TieFirst => holders.find(|record| record.stamp == newest.stamp),
            _ => Some(newest),
        }
    }

    /// One master store that empties all journals and brings the card up.
    fn empty_journals(&mut self, lent: &mut Lent, shape: Shape, journals: &Journals) {
        let mut tails = Tails::default();
        for core in 0..shape.cores {
            tails[core as usize] = Tail { number: self.fresh_number(journals, core), position: 0 };
        }
        if self.is(Wrong::TailsCoreByCore) {
            return self.empty_one_journal(lent, shape, journals, &tails);
        }
        let layout = self.closing_layout(lent.disk);
        self.put(lent.disk, 0, &master(&Master { layout, shape, tails }));
        self.come_up(shape, &tails);
    }

    fn closing_layout(&self, disk: &[u8]) -> Layout {
        match Layout::of_word(word(disk, 8)) {
            Some(found) if self.is(Wrong::RecoverMasterKept) => found,
            _ => self.layout_unless(Wrong::RecoverMasterZero),
        }
    }

    fn empty_one_journal(&mut self, lent: &mut Lent, shape: Shape, journals: &Journals, fresh: &Tails) {
        let mut tails = journals.tails;
        tails[self.aside as usize] = fresh[self.aside as usize];
        self.put(lent.disk, 0, &master(&Master { layout: self.kind.layout, shape, tails }));
        self.place = shape.blocks;
        self.aside += 1;
        if self.aside == shape.cores as u64 {
            self.aside = 0;
            self.come_up(shape, &tails);
        }
    }

    /// Two above the last committed number read, one above the old tail where none was read, and capped.
    fn fresh_number(&self, journals: &Journals, core: u8) -> u32 {
        let reused = self.is(Wrong::NumbersReused);
        let above = 2 - (reused || self.is(Wrong::TailOneAbove)) as u32;
        let number = match journals.of_core(core).last() {
            _ if self.is(Wrong::NumbersFromOne) => 1,
            _ if self.is(Wrong::TailUnchanged) => journals.tails[core as usize].number,
            Some(record) => record.number + above,
            None if reused || self.is(Wrong::TailKept) => journals.tails[core as usize].number,
            None => journals.tails[core as usize].number + 1,
        };
        if self.is(Wrong::CapMissing) {
            number
        } else {
            number.min(LAST_TAIL)
        }
    }
}

/// The wrong beginning: the first of a core that has others before it below the tail is struck, as if they were missing.
fn not_first(journals: &Journals) -> Set {
    let is_first = |i: usize| journals.records[i].number == journals.tails[journals.records[i].core as usize].number;
    let firsts = (0..journals.records.len()).filter(|i| is_first(*i) && journals.records[*i].number > 1);
    firsts.fold(journals.everything(), |set, i| set & !(1 << i))
}
