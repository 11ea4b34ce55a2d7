// generator.rs: tapes meant to hurt: heavy sharing, long lists, wraps, cuts in recovery, data that looks like records.

use crate::card::{Card, Core, Phase};
use crate::command::{Command, Task, Write};
use crate::layout::{Shape, COMMIT, DESCRIPTOR, MARK};
use crate::random::Random;
use std::collections::VecDeque;

/// What one tape is inclined to do; shares are in a thousand.
#[derive(Clone, Debug)]
struct Mood {
    cut: usize,
    cut_again: usize,
    wild: usize,
    forge: usize,
    /// Share of WRITEs that are the report task's.
    report: usize,
    crowd: usize,
    /// Weights of WRITE, CLOSE, STORE, CHECKPOINT, RETIRE.
    weights: [usize; 5],
    hot_blocks: usize,
    hot_cores: usize,
    /// Share of commands that look for a core where they can be carried out.
    aimed: usize,
    /// A core that closes late, so that its list grows long.
    slow_core: Option<u8>,
}

pub struct Generator {
    pub random: Random,
    shape: Shape,
    mood: Mood,
    queue: VecDeque<Command>,
    /// How often the slow core's running transaction was visited: its list has about as many names.
    visits: usize,
}

impl Generator {
    pub fn new(seed: u64) -> Generator {
        let mut random = Random::new(seed);
        let shape = any_shape(&mut random);
        let mood = any_mood(&mut random, shape);
        Generator { random, shape, mood, queue: VecDeque::new(), visits: 0 }
    }

    /// Chooses the shape and the mood of a new tape, and says how many commands it is to have.
    pub fn begin(&mut self) -> usize {
        let shape = any_shape(&mut self.random);
        self.begin_with(shape)
    }

    /// The same over a disk that has its shape already.
    pub fn begin_with(&mut self, shape: Shape) -> usize {
        self.shape = shape;
        self.mood = any_mood(&mut self.random, shape);
        self.queue.clear();
        let most = self.random.pick(&[40, 150, 600, 2500]);
        self.random.between(10, most)
    }

    /// The next command for a card, which is looked at to find what can be done.
    pub fn command(&mut self, card: &Card) -> Command {
        match card.phase {
            Phase::Blank => self.for_blank(),
            Phase::Down => self.for_down(card),
            Phase::Up => self.for_up(card),
        }
    }

    /// Bytes that need not be commands at all.
    pub fn garbage(&mut self) -> Vec<u8> {
        let mut bytes = vec![0; self.random.between(1, 60)];
        self.random.fill(&mut bytes);
        if self.random.chance(500) {
            bytes.iter_mut().for_each(|byte| *byte %= 11);
        }
        bytes
    }

    fn for_blank(&mut self) -> Command {
        if self.random.chance(120) {
            return self.wild();
        }
        Command::Format { cores: self.shape.cores, blocks: self.shape.blocks, journal: self.shape.journal }
    }

    fn for_down(&mut self, card: &Card) -> Command {
        self.queue.clear();
        match () {
            _ if self.random.chance(self.mood.wild / 2) => self.wild(),
            _ if self.random.chance(self.mood.cut_again) => Command::Cut,
            _ if self.random.chance(30) => self.any(card, true),
            _ => Command::Recover,
        }
    }

    fn for_up(&mut self, card: &Card) -> Command {
        if self.random.chance(self.mood.cut) {
            return Command::Cut;
        }
        if self.random.chance(self.mood.wild) {
            return self.wild();
        }
        if let Some(command) = self.queue.pop_front() {
            return command;
        }
        if self.random.chance(self.mood.forge) {
            self.queue_forgery(card);
        } else if self.random.chance(60) {
            self.queue_commit(card);
        } else if self.random.chance(30) {
            self.queue_drain(card);
        } else if self.random.chance(self.mood.crowd) {
            self.queue_crowd(card);
        } else if let (Some(slow), true) = (self.mood.slow_core, self.random.chance(300)) {
            self.queue_visit(card, slow);
        }
        self.any(card, false)
    }

    /// Any command with operands in range, mostly one that can be carried out.
    fn any(&mut self, card: &Card, by_chance: bool) -> Command {
        let weights = self.mood.weights;
        let mut left = self.random.below(weights.iter().sum());
        let aimed = !by_chance && self.random.chance(self.mood.aimed);
        let kind = weights.iter().position(|weight| {
            let hit = left < *weight;
            left = left.saturating_sub(*weight);
            hit
        });
        let core = match kind {
            Some(1) => self.core_where(card, |core| core.running.is_some() && core.closed.is_none()),
            Some(2) => self.core_where(card, |core| core.closed.is_some()),
            Some(3) => self.core_where(card, |core| core.committed > 0),
            Some(4) => {
                let least = self.random.chance(700) as u8;
                self.core_where(card, |core| core.committed > 0 && core.home >= least)
            }
            _ => None,
        };
        match (kind, core.or((!aimed).then(|| self.hot_core()))) {
            (Some(1), Some(core)) => Command::Close { core },
            (Some(2), Some(core)) => Command::Store { core },
            (Some(3), Some(core)) => Command::Checkpoint { core },
            (Some(4), Some(core)) => Command::Retire { core },
            _ => self.write(),
        }
    }

    fn hot_core(&mut self) -> u8 {
        let cores = self.shape.cores as usize;
        let most = if self.random.chance(50) { cores } else { self.mood.hot_cores };
        self.random.below(most) as u8
    }

    fn hot_block(&mut self) -> u16 {
        let blocks = self.shape.blocks as usize;
        let most = if self.random.chance(50) { blocks } else { self.mood.hot_blocks };
        self.random.below(most) as u16
    }

    /// A core that fits, looked for from a random one on; the slow core is mostly spared.
    fn core_where(&mut self, card: &Card, fits: impl Fn(&Core) -> bool) -> Option<u8> {
        let first = self.hot_core();
        let cores = self.shape.cores;
        let spared = self.mood.slow_core.filter(|_| self.random.chance(970));
        let mut order = (0..cores).map(|i| (first + i) % cores);
        order.find(|core| Some(*core) != spared && fits(&card.cores[*core as usize]))
    }

    fn write(&mut self) -> Command {
        let offset = match self.random.below(8) {
            0..=2 => 0,
            3 => self.random.pick(&[1, 2, 3]),
            4..=5 => self.random.pick(&[4, 8, 12, 16, 20, 24]),
            _ => self.random.below(125) as u8,
        };
        let (core, block) = (self.hot_core(), self.hot_block());
        self.write_at(core, block, offset)
    }

    /// By either task.
    fn write_at(&mut self, core: u8, block: u16, offset: u8) -> Command {
        let task = self.task();
        self.write_by(task, core, block, offset)
    }

    fn write_by(&mut self, task: Task, core: u8, block: u16, offset: u8) -> Command {
        Command::Write(Write { task, core, block, offset, data: self.data(offset) })
    }

    fn task(&mut self) -> Task {
        if self.random.chance(self.mood.report) {
            Task::Report
        } else {
            Task::Lamp
        }
    }

    /// Four bytes, often the mark or a part of it at its place, or a small number as headers have them.
    fn data(&mut self, offset: u8) -> [u8; 4] {
        let word = self.random.draw() as u32;
        let chosen = match self.random.below(6) {
            0 | 1 if offset < 4 => MARK << (8 * offset),
            2 => self.random.pick(&[0, 1, 2, 4, MARK]),
            3 => word % 16,
            _ => word,
        };
        chosen.to_be_bytes()
    }

    /// Operands out of range and commands that the state forbids.
    fn wild(&mut self) -> Command {
        let core = if self.random.chance(300) { self.random.byte() } else { self.hot_core() };
        match self.random.below(9) {
            0 => self.wild_format(),
            1 | 2 => self.wild_write(core),
            3 => Command::Close { core },
            4 => Command::Store { core },
            5 => Command::Checkpoint { core },
            6 => Command::Retire { core },
            7 => Command::Cut,
            _ => Command::Recover,
        }
    }

    fn wild_format(&mut self) -> Command {
        let cores = self.random.pick(&[0, 1, 2, 8, 9, 255]);
        let blocks = self.random.pick(&[0, 1, 4, 64, 65, 255]);
        Command::Format { cores, blocks, journal: self.random.pick(&[0, 3, 4, 6, 24, 25, 255]) }
    }

    fn wild_write(&mut self, core: u8) -> Command {
        let beyond = [self.shape.blocks as u16, 256, 0xFFFF, 0];
        let block = if self.random.chance(500) { self.random.pick(&beyond) } else { self.hot_block() };
        let offset = self.random.pick(&[0, 121, 123, 124, 125, 126, 255]);
        self.write_at(core, block, offset)
    }

    /// Writes that make a block look like a descriptor or a commit of a number near the next one.
    fn queue_forgery(&mut self, card: &Card) {
        let (core, block) = (self.hot_core(), self.hot_block());
        let number = (card.cores[core as usize].next + self.random.below(5) as u32).saturating_sub(1);
        let kind = self.random.pick(&[DESCRIPTOR, COMMIT, COMMIT]);
        let words = [(0, MARK), (4, kind), (8, number), (12, 0), (16, 1), (20, 0)];
        for (offset, word) in words {
            let task = self.task();
            self.queue.push_back(Command::Write(Write { task, core, block, offset, data: word.to_be_bytes() }));
        }
    }

    /// One block after another by one core, whose journal is empty or not, so that its transaction meets the report task's limit and its
    /// own: from the fourth to the eighth command 2 takes most. Writes into a block that is held come in between. Where the blocks have
    /// holders, these are closed, of this core or another, or run.
    fn queue_crowd(&mut self, card: &Card) {
        let is_empty = |core: &Core| core.length == 0 && core.closed.is_none();
        let empty = if self.random.chance(500) { self.core_where(card, is_empty) } else { None };
        let (core, first) = (empty.unwrap_or_else(|| self.hot_core()), self.hot_block());
        let running = card.cores[core as usize].running;
        let held = running.and_then(|running| running.blocks.first().copied()).map_or(first, u16::from);
        let most = if self.shape.blocks > 8 && self.shape.journal > 9 { 12 } else { 5 };
        for i in 0..self.random.pick(&[4, most]) {
            let (block, offset) = ((first + i) % self.shape.blocks as u16, self.random.pick(&[0, 0, 4, 124]));
            let by_lamp = (3..8).contains(&i) && self.random.chance(600);
            let task = if by_lamp { Task::Lamp } else { self.task() };
            let write = self.write_by(task, core, block, offset);
            let again = self.random.chance(200).then(|| self.write_at(core, held, offset));
            self.queue.extend([write].into_iter().chain(again));
        }
    }

    /// CLOSE and all stores of a core's running transaction, or some of them.
    fn queue_commit(&mut self, card: &Card) {
        if let Some(core) = self.core_where(card, |core| core.running.is_some()) {
            self.queue_commit_of(card, core);
        }
    }

    fn queue_commit_of(&mut self, card: &Card, core: u8) {
        let state = &card.cores[core as usize];
        let waiting = state.closed.map_or(0, |closed| closed.blocks.len() + 2 - state.stored as usize);
        let stores = state.running.map_or(2, |running| running.blocks.len() + 2);
        self.queue.extend((0..waiting).map(|_| Command::Store { core }));
        self.queue.push_back(Command::Close { core });
        let most = if self.random.chance(750) { stores } else { self.random.below(stores) };
        self.queue.extend((0..most).map(|_| Command::Store { core }));
    }

    /// Home stores of a core's oldest one, enough of them or not, then RETIRE, and so on with the next. A write or a cut may come in
    /// between.
    fn queue_drain(&mut self, card: &Card) {
        let Some(core) = self.core_where(card, |core| core.committed > 0) else { return };
        for _ in 0..self.random.between(1, 6) {
            let home_stores = self.random.pick(&[0, 1, 1, 2, 3, 8]);
            self.queue.extend((0..home_stores).map(|_| Command::Checkpoint { core }));
            let between = match self.random.below(16) {
                0 => Some(Command::Cut),
                1..=5 => Some(self.write()),
                _ => None,
            };
            self.queue.extend(between.into_iter().chain([Command::Retire { core }]));
        }
    }

    /// Another core writes into a block that the slow core holds, then closes and is stored, so that both lists grow.
    /// Once the slow core's list is long it may commit at last, with a cut soon after.
    fn queue_visit(&mut self, card: &Card, slow: u8) {
        let running = card.cores[slow as usize].running;
        let held = running.and_then(|running| running.blocks.first().copied());
        self.visits = if held.is_some() { self.visits + 1 } else { 0 };
        if self.visits > 11 && self.random.chance(100) {
            self.queue_commit_of(card, slow);
            self.queue.push_back(Command::Cut);
            return;
        }
        let other = (slow + self.random.between(1, self.shape.cores as usize - 1) as u8) % self.shape.cores;
        let core = if held.is_some() { other } else { slow };
        let block = held.map_or(self.hot_block(), |block| block as u16);
        let offset = self.random.below(125) as u8;
        let visit = self.write_at(core, block, offset);
        self.queue.push_back(visit);
        if held.is_some() {
            self.queue_commit_of(card, core);
        }
    }
}

fn any_shape(random: &mut Random) -> Shape {
    let (cores, blocks, journal) = match random.below(10) {
        0..=2 => (random.between(1, 3), random.between(1, 3), random.between(4, 8)),
        3..=5 => (random.between(2, 4), random.between(1, 6), random.between(4, 16)),
        6 => (random.between(2, 4), random.between(1, 12), 24),
        7 => (8, random.between(1, 12), random.between(4, 24)),
        8 => (8, 64, 24),
        _ => (random.between(1, 8), random.between(1, 64), random.between(4, 24)),
    };
    Shape { cores: cores as u8, blocks: blocks as u8, journal: journal as u8 }
}

fn any_mood(random: &mut Random, shape: Shape) -> Mood {
    let slow = shape.cores > 1 && random.chance(250);
    let is_roomy = shape.blocks > 3 && shape.journal > 5;
    Mood {
        cut: random.pick(&[0, 3, 10, 30, 80]),
        cut_again: random.pick(&[0, 50, 200, 400]),
        wild: random.pick(&[0, 5, 20, 100]),
        forge: random.pick(&[0, 0, 20, 60]),
        report: random.pick(&[0, 100, 500, 900]),
        crowd: if is_roomy { random.pick(&[0, 0, 20, 60]) } else { 0 },
        weights: random.pick(&[
            [6, 2, 6, 4, 3],
            [3, 2, 6, 6, 4],
            [12, 1, 3, 1, 1],
            [4, 3, 8, 0, 1],
            [4, 2, 8, 2, 2],
            [1, 1, 1, 1, 1],
        ]),
        hot_blocks: random.between(1, shape.blocks as usize),
        hot_cores: random.between(1, shape.cores as usize),
        aimed: random.pick(&[300, 800, 950]),
        slow_core: slow.then(|| random.below(shape.cores as usize) as u8),
    }
}
