// reporting.rs: how the WRITEs of both tasks came where the report task's limit is near (paper 02, request h), counted beside the checks.

use super::Bench;
use crate::card::{Card, Phase};
use crate::command::{Task, Write, REPORT_LIMIT};
use crate::layout::{MARK, TAKEN};

/// WRITEs of byte 9, but for `lamp`.
#[derive(Clone, Copy, Debug, Default)]
pub struct Reporting {
    /// Done: a third block taken; a held block written with three, four to seven, and eight; a running holder's with fewer than three,
    /// and with more; the mark laid at a block's beginning.
    pub third: u64,
    pub held: [u64; 3],
    pub tied: [u64; 2],
    pub marked: u64,
    /// Refused with 36 where nobody holds the block, a closed one of this core, one of another; of these, where command 2 would meet 26.
    pub refused: [u64; 3],
    pub before_26: u64,
    /// Refused with 25.
    pub ninth: u64,
    /// Command 2 took a block past the third of a transaction that byte 9 opened.
    pub lamp: u64,
}

impl Reporting {
    /// Every way that is counted.
    pub fn ways(&self) -> Vec<u64> {
        let single = [self.third, self.marked, self.before_26, self.ninth, self.lamp];
        [&single[..], &self.held, &self.tied, &self.refused].concat()
    }

    fn count_done(&mut self, write: Write, holding: Holding, blocks: usize) {
        match holding {
            Holding::Own if blocks >= REPORT_LIMIT => {
                self.held[(blocks > REPORT_LIMIT) as usize + (blocks == TAKEN) as usize] += 1
            }
            Holding::Own => {}
            Holding::Running => self.tied[(blocks >= REPORT_LIMIT) as usize] += 1,
            _ => self.third += (blocks + 1 == REPORT_LIMIT) as u64,
        }
        self.marked += (write.offset == 0 && write.data == MARK.to_be_bytes()) as u64;
    }

    fn count_refused(&mut self, holding: Holding, is_full: bool) {
        let by = match holding {
            Holding::Here => 1,
            Holding::Elsewhere => 2,
            _ => 0,
        };
        self.refused[by] += 1;
        self.before_26 += is_full as u64;
    }
}

/// Who holds the block that is written: nobody, the writer, another that runs, or a closed one of the writer's core or of another.
#[derive(Clone, Copy)]
enum Holding {
    Nobody,
    Own,
    Running,
    Here,
    Elsewhere,
}

fn holding_of(card: &Card, write: Write) -> Holding {
    match card.holders[write.block as usize] {
        None => Holding::Nobody,
        Some(name) if card.is_running(name) && name.core == write.core => Holding::Own,
        Some(name) if card.is_running(name) => Holding::Running,
        Some(name) if name.core == write.core => Holding::Here,
        Some(_) => Holding::Elsewhere,
    }
}

impl Bench<'_> {
    /// A WRITE that was done, or refused with 25 or 36.
    pub(super) fn count_write(&mut self, before: &Card, write: Write, answer: u8) {
        if before.phase != Phase::Up || !matches!(answer, 0 | 25 | 36) {
            return;
        }
        let (core, holding) = (write.core as usize, holding_of(before, write));
        let running = before.cores[core].running;
        let blocks = running.map_or(0, |running| running.blocks.len());
        if running.is_none() && answer == 0 {
            self.opened_by[core] = write.task;
        }
        let reporting = &mut self.tally.reporting;
        match (write.task, answer) {
            (Task::Lamp, 0) => {
                let takes = !matches!(holding, Holding::Own | Holding::Running);
                let is_past = takes && blocks >= REPORT_LIMIT;
                reporting.lamp += (is_past && self.opened_by[core] == Task::Report) as u64;
            }
            (Task::Report, 0) => reporting.count_done(write, holding, blocks),
            (Task::Report, 25) => reporting.ninth += 1,
            (Task::Report, _) => {
                let is_full = before.closed_length(write.core) + 3 + blocks > before.shape.journal as usize;
                reporting.count_refused(holding, is_full);
            }
            _ => {}
        }
    }
}
