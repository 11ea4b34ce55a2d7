// planner.rs: how much work until the journals are empty (paper 02, request e): how many CLOSE, STORE, CHECKPOINT and RETIRE commands,
// how many of them store, and in which order the transactions can be retired. Nothing is done and nothing is tried: all is told from
// the card.

use crate::card::{Card, Phase};
use crate::layout::{Name, DISK, MEMORY};
use crate::order::Order;
use crate::wrong::WrongPlanner;

#[derive(Clone, PartialEq, Eq, Debug, Default)]
pub struct Plan {
    /// 0, or why there is no plan: 1, 20 or 22. Then all else is zero and empty.
    pub number: u8,
    pub commands: u64,
    /// Those that store: all but the CLOSEs.
    pub stores: u64,
    pub order: Vec<Name>,
}

/// How far a transaction has come that is not retired.
#[derive(Clone, Copy, PartialEq, Eq, Debug)]
enum Stage {
    Running,
    /// So many stores of its record are done.
    Closed(u64),
    /// So many of its images are stored home.
    Committed(u64),
}

#[derive(Clone, Copy, PartialEq, Eq, Debug)]
pub struct Unretired {
    pub name: Name,
    /// 0 while it runs: CLOSE gives it one.
    stamp: u64,
    /// How many blocks it took.
    blocks: u64,
    stage: Stage,
}

impl Unretired {
    fn is_running(&self) -> bool {
        self.stage == Stage::Running
    }

    fn is_committed(&self) -> bool {
        matches!(self.stage, Stage::Committed(_))
    }

    pub fn closes(&self) -> u64 {
        self.is_running() as u64
    }

    /// Descriptor, data and commit, then the images home and the master, less what is done. A card that no run made may count
    /// more done than there is to do: the store that commits or retires is left all the same.
    pub fn stores(&self) -> u64 {
        let (record, home) = (self.blocks + 1, self.blocks);
        match self.stage {
            Stage::Running => record + 1 + home + 1,
            Stage::Closed(stored) => record.saturating_sub(stored) + 1 + home + 1,
            Stage::Committed(stored) => home.saturating_sub(stored) + 1,
        }
    }

    /// 'at most 2 + 2 × (blocks it took) + 2 for each transaction'
    fn most(&self) -> u64 {
        2 + 2 * self.blocks + 2
    }
}

/// All that are not retired, in order of core and number: of a core the committed ones as CHECKPOINT and RETIRE read them, the closed
/// one, the running one.
pub fn unretired(card: &Card, disk: &[u8]) -> Vec<Unretired> {
    let journals = card.journals(disk);
    let mut all = Vec::new();
    for (c, core) in card.cores.iter().enumerate().take(card.shape.cores as usize) {
        all.extend(journals.of_core(c as u8).iter().enumerate().map(|(i, record)| {
            let stage = Stage::Committed(if i == 0 { core.home as u64 } else { 0 });
            Unretired { name: record.name(), stamp: record.stamp, blocks: record.blocks.len() as u64, stage }
        }));
        let closed = core.closed.map(|closed| (closed, closed.stamp, Stage::Closed(core.stored as u64)));
        let running = core.running.map(|running| (running, 0, Stage::Running));
        all.extend(closed.into_iter().chain(running).map(|(transaction, stamp, stage)| {
            let name = Name { core: c as u8, number: transaction.number };
            Unretired { name, stamp, blocks: transaction.blocks.len() as u64, stage }
        }));
    }
    all
}

/// 'It is at most ..., summed over all that are not retired.'
pub fn bound(all: &[Unretired]) -> u64 {
    all.iter().map(Unretired::most).sum()
}

/// Whether all of these run, where the bound is the figure.
pub fn all_run(all: &[Unretired]) -> bool {
    all.iter().all(Unretired::is_running)
}

/// 'The order is by stamp', of equal ones by core and number; running ones have none yet and 'close in order of core'.
fn in_order(wrong: WrongPlanner, all: &[Unretired]) -> Vec<Name> {
    let mut sorted = all.to_vec();
    sorted.sort_by_key(|each| {
        let Name { core, number } = each.name;
        let place = match wrong {
            // complements sort the other way round
            WrongPlanner::TiesReversed if !each.is_running() => (!core, !number),
            _ => (core, number),
        };
        (each.is_running(), each.stamp, place)
    });
    sorted.iter().map(|each| each.name).collect()
}

/// The refusal of a plan, 0 for none.
fn number(card: &Card, disk: &[u8], memory: &[u8]) -> u8 {
    match card.phase {
        _ if disk.len() != DISK || memory.len() != MEMORY => 1,
        Phase::Blank => 20,
        Phase::Down => 22,
        Phase::Up => 0,
    }
}

/// The plan of a card, whether a run made it or not.
pub fn plan(card: &Card, disk: &[u8], memory: &[u8]) -> Plan {
    plan_by(WrongPlanner::No, card, disk, memory)
}

/// The same by a planner that is wrong in one rule.
pub fn plan_by(wrong: WrongPlanner, card: &Card, disk: &[u8], memory: &[u8]) -> Plan {
    let number = number(card, disk, memory);
    if number != 0 {
        return Plan { number, ..Plan::default() };
    }
    plan_of(wrong, &seen_by(wrong, card, disk))
}

/// Those that are not retired, as a planner sees them.
fn seen_by(wrong: WrongPlanner, card: &Card, disk: &[u8]) -> Vec<Unretired> {
    let mut seen = unretired(card, disk);
    match wrong {
        WrongPlanner::RunningLeftOut => seen.retain(|each| !each.is_running()),
        WrongPlanner::ValidAlone => {
            let journals = card.journals(disk);
            let valid = journals.valid(journals.everything(), Order::default());
            seen.retain(|each| !each.is_committed() || journals.is_met(each.name, valid));
        }
        WrongPlanner::DoneNotTakenOff => seen.iter_mut().for_each(|each| each.stage = undone(each.stage)),
        _ => {}
    }
    seen
}

fn plan_of(wrong: WrongPlanner, seen: &[Unretired]) -> Plan {
    let stores = seen.iter().map(Unretired::stores).sum::<u64>();
    let commands = match wrong {
        WrongPlanner::Bound => bound(seen),
        _ => stores + seen.iter().map(Unretired::closes).sum::<u64>(),
    };
    let order = match wrong {
        WrongPlanner::ByCoreAndNumber => seen.iter().map(|each| each.name).collect(),
        _ => in_order(wrong, seen),
    };
    Plan { number: 0, commands, stores, order }
}

fn undone(stage: Stage) -> Stage {
    match stage {
        Stage::Running => Stage::Running,
        Stage::Closed(_) => Stage::Closed(0),
        Stage::Committed(_) => Stage::Committed(0),
    }
}
