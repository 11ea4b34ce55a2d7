// planner.rs: the plan of a card by the library, held against the model's and against doing it. State and slices are lent as to a
// reading; references give all that is asked of a caller.

use crate::cells::{
    difference, name_cell, name_in, of_card, to_card, Cells, CLOSED, CORE, CORE_SIZE, RUNNING, STORES, TAIL,
};
use crate::page;
use crate::session::Session;
use crate::stage::Stage;
use card_tests::card::{Card, Phase};
use card_tests::checks::{Seen, Watcher};
use card_tests::command::Command;
use card_tests::emptying::World;
use card_tests::layout::{Name, CORES, DISK, MEMORY};
use card_tests::planner::{plan_by, Plan};
use card_tests::random::{hash_of, Random};
use card_tests::shrink::tape_of;
use card_tests::wrong::WrongPlanner;
use std::collections::HashSet;

/// Number, commands, stores and how many names, then the names as cells have them; what is left of the places is zero.
pub const PLAN: usize = 116;
const NAMES: usize = 4;

pub type Planned = [u64; PLAN];

/// A planner over a card's cells and slices of any length.
pub type Planner = fn(&Cells, &[u8], &[u8]) -> Planned;

extern "C" {
    fn rev_d_plan(w: *const u64, d: *const u8, dn: usize, m: *const u8, mn: usize, out: *mut u64);
}

/// The library's plan. Every place is filled.
pub fn plan(cells: &Cells, disk: &[u8], memory: &[u8]) -> Planned {
    let mut out = [u64::MAX; PLAN];
    let (d, dn, m, mn) = (disk.as_ptr(), disk.len(), memory.as_ptr(), memory.len());
    unsafe { rev_d_plan(cells.as_ptr(), d, dn, m, mn, out.as_mut_ptr()) };
    out
}

/// A plan of the model as the library lays it out.
fn of_plan(plan: &Plan) -> Planned {
    let mut out = [0; PLAN];
    out[..NAMES].copy_from_slice(&[plan.number as u64, plan.commands, plan.stores, plan.order.len() as u64]);
    for (cell, name) in out[NAMES..].iter_mut().zip(&plan.order) {
        *cell = name_cell(name);
    }
    out
}

/// The model's plan of the card that cells mean, or a wrong one's.
pub fn plan_in_cells(wrong: WrongPlanner, cells: &Cells, disk: &[u8], memory: &[u8]) -> Planned {
    of_plan(&plan_by(wrong, &to_card(cells), disk, memory))
}

/// Whether a plan is the model's.
pub fn check_plan(planner: Planner, cells: &Cells, card: &Card, disk: &[u8], memory: &[u8]) -> Result<Planned, String> {
    let found = planner(cells, disk, memory);
    let right = of_plan(&plan_by(WrongPlanner::No, card, disk, memory));
    match found == right {
        true => Ok(found),
        false => Err(format!("the plan is {:?}, the model's {:?}", &found[..used(&found)], &right[..used(&right)])),
    }
}

/// Up to the last place that is not zero, and at least the first four.
fn used(found: &Planned) -> usize {
    found.iter().rposition(|cell| *cell != 0).map_or(NAMES, |last| NAMES.max(last + 1))
}

/// Plans that were compared.
#[derive(Clone, Debug, Default)]
pub struct Compared {
    /// By their number: 0, 1, 20, 22.
    pub plans: [u64; 4],
    pub largest: u64,
    pub names: u64,
    pub most_names: u64,
}

impl Compared {
    pub(crate) fn count(&mut self, found: &Planned) {
        let place = [0, 1, 20, 22].iter().position(|number| *number == found[0]);
        self.plans[place.expect("one of the numbers")] += 1;
        self.largest = self.largest.max(found[1]);
        self.names += found[3];
        self.most_names = self.most_names.max(found[3]);
    }
}

/// What was compared and what was carried out.
#[derive(Clone, Debug, Default)]
pub struct Tally {
    /// At every start, after every command that was done, and now and then of slices of any length.
    pub compared: Compared,
    /// Plans of different states carried out by the library, and the commands that this took, after each of which the figure was one
    /// less.
    pub runs: u64,
    pub commands: u64,
}

/// A watcher that has the library plan after each command that was done, and now and then do as planned.
pub struct Plans {
    planner: Planner,
    /// A share in a thousand of the plans is carried out.
    share: usize,
    /// No foreign disk is begun with, so that an emptied journal reads empty on the disk.
    is_formatted: bool,
    run: Stage<Session>,
    /// States whose plans were carried out.
    seen: HashSet<u64>,
    random: Random,
    pub tally: Tally,
}

impl Plans {
    pub fn new(planner: Planner, share: usize, is_formatted: bool) -> Plans {
        let (run, seen, random) = (Stage::default(), HashSet::new(), Random::new(9));
        Plans { planner, share, is_formatted, run, seen, random, tally: Tally::default() }
    }

    fn compare(&mut self, card: &Card) -> Result<(), String> {
        let cells = *self.run.card.cells();
        let found = check_plan(self.planner, &cells, card, &self.run.disk, &self.run.memory)?;
        self.tally.compared.count(&found);
        if self.random.chance(20) {
            let (disk, memory) = self.any_lengths();
            let short = check_plan(self.planner, &cells, card, &vec![0; disk], &vec![0; memory])?;
            self.tally.compared.count(&short);
        }
        if found[0] == 0 && self.random.chance(self.share) && self.seen.insert(key(&self.run)) {
            self.carry_out(&found)?;
        }
        Ok(())
    }

    fn any_lengths(&mut self) -> (usize, usize) {
        let random = &mut self.random;
        match random.below(3) {
            0 => (random.below(2 * DISK), MEMORY),
            1 => (DISK, random.below(2 * MEMORY)),
            _ => (DISK - 1, MEMORY + 1),
        }
    }

    /// The library's commands on the library itself: STORE and CLOSE until nothing is closed or running, then for each of the names in
    /// their order CHECKPOINT until it is stored home, and RETIRE. None is refused, each lowers the figure by one, and all is empty at
    /// the end.
    fn carry_out(&mut self, found: &Planned) -> Result<(), String> {
        let [_, commands, stores, count] = [0, 1, 2, 3].map(|i| found[i]);
        let mut doing = Doing { planner: self.planner, stage: self.run.clone(), commands: 0, figure: commands };
        let stores_before = doing.stage.card.stores();
        while let Some(command) = doing.next_before_checkpoints() {
            doing.step(command)?;
        }
        for name in found[NAMES..].iter().take(count as usize).map(|cell| name_in(*cell)) {
            doing.retire(name)?;
        }
        let done = (doing.commands, doing.stage.card.stores() - stores_before);
        if done != (commands, stores) {
            return Err(format!("{done:?} commands and stores, {commands} and {stores} planned"));
        }
        doing.check_emptied(self.is_formatted)?;
        self.tally.runs += 1;
        self.tally.commands += commands;
        Ok(())
    }
}

/// A hash that tells states apart; the count of stores, which no plan asks for, is left out.
fn key(stage: &Stage<Session>) -> u64 {
    let mut cells = *stage.card.cells();
    cells[STORES] = 0;
    hash_of((cells, &stage.disk, &stage.memory))
}

/// A plan that is carried out.
struct Doing {
    planner: Planner,
    stage: Stage<Session>,
    commands: u64,
    /// What was planned before the first command.
    figure: u64,
}

impl Doing {
    fn core_with(&self, cell: usize) -> Option<u8> {
        let cells = self.stage.card.cells();
        (0..CORES as u8).find(|core| cells[CORE + CORE_SIZE * *core as usize + cell] != 0)
    }

    fn next_before_checkpoints(&self) -> Option<Command> {
        let store = self.core_with(CLOSED).map(|core| Command::Store { core });
        store.or(self.core_with(RUNNING).map(|core| Command::Close { core }))
    }

    fn tail(&self, core: u8) -> u64 {
        self.stage.card.cells()[TAIL + 2 * core as usize]
    }

    fn step(&mut self, command: Command) -> Result<(), String> {
        let done = self.stage.command(&tape_of(&[command]), 0);
        self.commands += 1;
        let Stage { card, disk, memory } = &self.stage;
        let left = (self.planner)(card.cells(), disk, memory)[1];
        match done.number == 0 && left + self.commands == self.figure {
            true => Ok(()),
            false => Err(format!("{command:?} answered {}, {left} left of {}", done.number, self.figure)),
        }
    }

    /// It is its core's oldest; all of its home stores, then the master's.
    fn retire(&mut self, Name { core, number }: Name) -> Result<(), String> {
        if self.tail(core) != number as u64 {
            return Err(format!("{number} of core {core} is not the oldest"));
        }
        while self.tail(core) == number as u64 {
            let Stage { card, disk, memory } = &self.stage;
            let next = World::new(&to_card(card.cells()), disk, memory).next_of(core);
            self.step(next)?;
        }
        Ok(())
    }

    /// The plan has nothing more, and on the page there are the head and a line for each core.
    fn check_emptied(&self, is_formatted: bool) -> Result<(), String> {
        let Stage { card, disk, memory } = &self.stage;
        let (left, lines) = ((self.planner)(card.cells(), disk, memory), page::line_count(disk));
        let is_empty = !is_formatted || lines == 1 + to_card(card.cells()).shape.cores as usize;
        match left == [0; PLAN] && is_empty {
            true => Ok(()),
            false => Err(format!("{} left, {lines} lines of the page", left[1])),
        }
    }
}

impl Watcher for Plans {
    fn start(&mut self, is_down: bool, disk: &[u8], memory: &[u8]) {
        self.run.start(is_down, disk, memory);
        let card = if is_down { Card::down() } else { Card::blank() };
        self.compare(&card).expect("the plan of a card that starts");
    }

    fn command(&mut self, tape: &[u8], offset: usize, seen: Seen) -> Result<(), String> {
        self.run.command(tape, offset);
        if seen.outcome.answer != 0 {
            return Ok(());
        }
        check_reading(self.run.card.cells())?;
        self.compare(seen.card)
    }
}

/// `of_card` makes a run's cells again from the card that `to_card` reads in them: nothing is lost on the way.
fn check_reading(cells: &Cells) -> Result<(), String> {
    let card = to_card(cells);
    // where the card is not up the cells have no shape
    if card.phase != Phase::Up {
        return Ok(());
    }
    let beyond = if (card.shape.cores as usize) < CORES { cells[TAIL + 2 * (CORES - 1)] as u32 } else { 0 };
    let same = of_card(&card, cells[STORES], beyond);
    difference(&same, cells).map_or(Ok(()), |found| Err(format!("the card that the cells mean: {found}")))
}
