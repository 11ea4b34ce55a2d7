// plans.rs: the plan of a card held against the run that does it, on the states that generated tapes pass through.

use crate::card::{Card, Phase};
use crate::checks::{Bench, Checks, Failure, Seen, Shares, Watcher};
use crate::command::{self, Command};
use crate::directed::disk_with;
use crate::emptying::{require, World};
use crate::foreign::any_shape;
use crate::layout::{Tail, CORES, DISK, LAYOUTS, MEMORY};
use crate::planner::{all_run, bound, plan, plan_by, unretired, Plan};
use crate::random::Random;
use crate::wrong::{Wrong, WrongPlanner};
use std::collections::HashSet;

/// What the tapes start on.
#[derive(Clone, Copy, PartialEq, Eq, Debug)]
pub enum Starts {
    /// A blank card; a share of them over disks that older cards left.
    Blank,
    /// A card that is down over a disk as FORMAT leaves it, and as it left it before request (d).
    Formatted,
    /// A card that is down over a foreign disk.
    Foreign,
}

pub const STARTS: [Starts; 3] = [Starts::Blank, Starts::Formatted, Starts::Foreign];

/// A card as a tape leaves it, or as it starts.
pub struct State<'a> {
    /// The command before, with its answer.
    pub command: Option<(Command, u8)>,
    pub card: &'a Card,
    pub disk: &'a [u8],
    pub memory: &'a [u8],
}

struct Shown<F>(F);

impl<F: FnMut(State) -> Result<(), String>> Watcher for Shown<F> {
    fn start(&mut self, is_down: bool, disk: &[u8], memory: &[u8]) {
        let card = if is_down { Card::down() } else { Card::blank() };
        let shown = (self.0)(State { command: None, card: &card, disk, memory });
        shown.unwrap_or_else(|detail| panic!("{detail}"));
    }

    fn command(&mut self, tape: &[u8], offset: usize, seen: Seen) -> Result<(), String> {
        let command = command::read(tape, offset).ok().map(|(command, _)| (command, seen.outcome.answer));
        (self.0)(State { command, card: seen.card, disk: seen.disk, memory: seen.memory })
    }
}

/// Runs so many generated commands from one kind of start.
pub fn soak(bench: &mut Bench, starts: Starts, commands: u64, seed: u64) -> Result<(), Failure> {
    match starts {
        Starts::Blank => bench.set_shares(Shares { foreign: 0, older: 150 }),
        Starts::Foreign => bench.set_shares(Shares { foreign: 1000, older: 0 }),
        Starts::Formatted => bench.set_disks(formatted),
    }
    bench.soak(commands, seed)
}

/// Shows the states of so many generated commands, until one is not as it should be.
pub fn each_state(
    starts: Starts,
    commands: u64,
    seed: u64,
    show: impl FnMut(State) -> Result<(), String>,
) -> Result<(), Failure> {
    let mut shown = Shown(show);
    soak(&mut Bench::new(Wrong::No, Checks::NONE, Some(&mut shown)), starts, commands, seed)
}

fn formatted(random: &mut Random) -> Vec<u8> {
    let (layout, shape) = (random.pick(&LAYOUTS), any_shape(random));
    disk_with(layout, shape, &[Tail { number: 1, position: 0 }; CORES][..shape.cores as usize])
}

pub fn plan_in(world: &World) -> Plan {
    plan(&world.card, &world.disk, &world.memory)
}

fn empties(command: Command) -> bool {
    matches!(
        command,
        Command::Close { .. } | Command::Store { .. } | Command::Checkpoint { .. } | Command::Retire { .. }
    )
}

/// Done, a command of those lowers the figure by one; refused, by nothing.
fn is_lowered(before: u64, after: u64, answer: u8) -> bool {
    before == after + (answer == 0) as u64
}

/// What was compared.
#[derive(Clone, Debug, Default)]
pub struct Tally {
    /// Different states of cards that were up, and those of them with something left to do.
    pub states: u64,
    pub with_work: u64,
    /// States with work where all are running, so that the bound is the figure.
    pub all_run: u64,
    /// Of the states where every command was tried, those where a CHECKPOINT or RETIRE is refused now, with 32 to 35.
    pub refused: [u64; 4],
    /// Commands of all runs, after each of which the figure was one less.
    pub commands: u64,
    /// Commands tried apart from the runs, done and refused.
    pub tried: [u64; 2],
    pub largest: u64,
    pub most_transactions: usize,
    /// Answers 1, 20 and 22.
    pub numbers: [u64; 3],
}

/// Compares each state once.
pub struct Comparison {
    starts: Starts,
    seen: HashSet<u64>,
    world: World,
    /// The figure after the last command, where the card was up.
    last: Option<u64>,
    random: Random,
    pub tally: Tally,
}

impl Comparison {
    pub fn new(starts: Starts) -> Comparison {
        let (seen, tally) = (HashSet::new(), Tally::default());
        Comparison { starts, seen, world: World::blank(), last: None, random: Random::new(3), tally }
    }

    pub fn see(&mut self, state: State) -> Result<(), String> {
        let found = plan(state.card, state.disk, state.memory);
        if let (Some(last), Some((command, answer)), true) = (self.last, state.command, found.number == 0) {
            require(!empties(command) || is_lowered(last, found.commands, answer), || {
                format!("{command:?} with {answer}: the figure is {} after {last}", found.commands)
            })?;
        }
        self.last = (found.number == 0).then_some(found.commands);
        if state.command.is_some_and(|(_, answer)| answer != 0) {
            return Ok(());
        }
        self.see_numbers(&state, &found)?;
        self.world.copy_from(state.card, state.disk, state.memory);
        if found.number == 0 && self.seen.insert(self.world.key()) {
            self.compare(&found)?;
            if self.random.chance(100) {
                self.try_commands(&state, found.commands)?;
            }
        }
        Ok(())
    }

    /// 20 and 22, and 1 before these.
    fn see_numbers(&mut self, state: &State, found: &Plan) -> Result<(), String> {
        let due = match state.card.phase {
            Phase::Blank => 20,
            Phase::Down => 22,
            Phase::Up => 0,
        };
        let only = |number| Plan { number, ..Plan::default() };
        require(found.number == due && (due == 0 || *found == only(due)), || format!("{found:?}, not {due}"))?;
        self.tally.numbers[1] += (due == 20) as u64;
        self.tally.numbers[2] += (due == 22) as u64;
        if self.random.chance(100) {
            let (disk, memory) = self.random.pick(&[(1, 0), (0, 1), (DISK, 0), (0, MEMORY), (1, 1)]);
            let short = plan(state.card, &state.disk[disk..], &state.memory[memory..]);
            self.tally.numbers[0] += 1;
            require(short == only(1), || format!("{short:?} of slices of a wrong length"))?;
        }
        Ok(())
    }

    /// The plan is met by doing it: all is answered 0, all is empty at the end, commands, stores and order are the run's, and the
    /// stamps of those retired ascend.
    fn compare(&mut self, found: &Plan) -> Result<(), String> {
        let all = unretired(&self.world.card, &self.world.disk);
        let (most, is_formatted) = (bound(&all), self.starts != Starts::Foreign);
        let was_emptied = self.world.is_emptied();
        let run = self.world.empty(|world, run| {
            let left = plan_in(world).commands;
            require(left + run.commands == found.commands, || format!("{left} left after {run:?}"))
        })?;
        require(run.refused.is_none(), || format!("refused on the way: {run:?}"))?;
        let is_emptied = self.world.is_emptied_of_own() && (!is_formatted || self.world.is_emptied());
        require(is_emptied, || format!("not empty after {run:?}"))?;
        let order: Vec<_> = run.retired.iter().map(|(name, _)| *name).collect();
        let is_met = (found.commands, found.stores, &found.order) == (run.commands, run.stores, &order);
        require(is_met, || format!("{found:?} is not met by {run:?}"))?;
        require(run.retired.is_sorted_by(|(_, one), (_, other)| one < other), || format!("stamps of {run:?}"))?;
        let is_bounded = found.commands <= most && (!all_run(&all) || found.commands == most);
        require(is_bounded, || format!("{found:?}, the bound {most}"))?;
        require(!is_formatted || was_emptied == (found.commands == 0), || format!("empty and {found:?}"))?;
        let tally = &mut self.tally;
        tally.states += 1;
        tally.with_work += (found.commands > 0) as u64;
        tally.all_run += (found.commands > 0 && all_run(&all)) as u64;
        tally.commands += run.commands;
        tally.largest = tally.largest.max(found.commands);
        tally.most_transactions = tally.most_transactions.max(all.len());
        Ok(())
    }

    /// Every one of the commands for every core, for the first that is not there and for the last byte.
    fn try_commands(&mut self, state: &State, figure: u64) -> Result<(), String> {
        self.world.copy_from(state.card, state.disk, state.memory);
        let mut refused = [false; 4];
        self.world.try_commands((0..=state.card.shape.cores).chain([255]), |command, answer, after| {
            if answer == 0 {
                let left = plan_in(after).commands;
                require(left + 1 == figure, || format!("{command:?}: the figure is {left} after {figure}"))?;
            }
            self.tally.tried[(answer != 0) as usize] += 1;
            refused.iter_mut().zip(32..).for_each(|(met, number)| *met |= answer == number);
            Ok(())
        })?;
        self.tally.refused.iter_mut().zip(refused).for_each(|(count, met)| *count += met as u64);
        Ok(())
    }
}

/// How a wrong planner is told apart in a state.
#[derive(Clone, Copy, PartialEq, Eq, Debug)]
pub struct Told {
    /// Commands, stores or order are not those of the run.
    pub by_run: bool,
    /// What is refused where the transactions are retired in its order.
    pub by_order: Option<u8>,
}

/// A wrong planner against the run and in its own order, on a card that is up.
pub fn told(wrong: WrongPlanner, state: &State) -> Told {
    let found = plan_by(wrong, state.card, state.disk, state.memory);
    let mut world = World::new(state.card, state.disk, state.memory);
    let run = world.empty(|_, _| Ok(())).expect("a run with an end");
    let order: Vec<_> = run.retired.iter().map(|(name, _)| *name).collect();
    let by_run = (found.commands, found.stores, &found.order) != (run.commands, run.stores, &order);
    let by_order = (found.order != order).then(|| {
        world.copy_from(state.card, state.disk, state.memory);
        world.empty_in_order(&found.order).refused.map(|(_, number)| number)
    });
    Told { by_run, by_order: by_order.flatten() }
}
