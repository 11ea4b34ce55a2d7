// sequence.rs: tapes and foreign disks on which it makes a difference that a transaction depends on the one before it on its core
// (paper 02, request c).

use crate::checks::{Bench, Checks, Failure};
use crate::command::{Command, Task, Write};
use crate::directed::{commit_of, retire_of};
use crate::endings::RECOVERED;
use crate::foreign::{any_shape, put};
use crate::journal::{Journals, Set};
use crate::layout::{
    commit, descriptor, master, Block, Layout, Master, Name, Shape, Tail, Tails, BLOCK, CORES, DISK, LAYOUTS,
};
use crate::order::Order;
use crate::random::Random;
use crate::shrink::tape_of;
use crate::wrong::Wrong;

/// Run under the old rule to its CUT and recovered under the new it gives neither book's area. Under the new rule throughout its
/// CHECKPOINT is refused.
pub const CHANGED_AT_THE_CUT: &str = "01 03 03 06 | 02 01 0002 00 01010101 | 02 02 0002 04 02020202 | 03 01 | 04 01 | 04 01 \
    | 04 01 | 02 01 0001 00 03030303 | 02 00 0000 00 04040404 | 02 00 0001 04 05050505 | 03 00 | 04 00 | 04 00 | 04 00 | 03 01 \
    | 04 01 | 04 01 | 04 01 | 05 00 | 06 | 07 | 07";

/// The last lines printed of it under the new rule, from its CHECKPOINT on: 32, and no block.
pub const CHANGED_AT_THE_CUT_LINES: [&str; 4] = ["73 5 32 9", "75 6 0 9", "76 7 0 10", "77 7 23 10"];

/// Core 0's first names one that still runs, its second names nothing: the old rule keeps the second, the new one neither.
pub const LATER_ALONE: &str = "01 02 02 05 | 02 01 0000 00 01010101 | 02 00 0000 04 02020202 | 03 00 | 04 00 | 04 00 \
    | 02 00 0001 00 03030303 | 03 00 | 04 00 | 04 00 | 04 00 | 06 | 07 | 07";

/// Core 0's transaction names core 1's second, whose first names one that still runs: CHECKPOINT meets 32 under the new rule alone.
pub const NAMES_A_LATER_ONE: &str =
    "01 03 02 04 | 02 02 0001 00 01010101 | 02 01 0001 04 02020202 | 03 01 | 04 01 | 04 01 \
    | 02 00 0000 00 03030303 | 02 01 0000 04 04040404 | 03 00 | 04 00 | 04 00 | 04 00 | 03 01 | 04 01 | 04 01 | 05 00";

/// Core 0's transaction names both of core 1, the first of which names one that still runs. Its commit holds the second alone, so that
/// the old rule's card keeps it: neither rule's book does.
pub const FIRST_NOT_HELD: &str =
    "01 03 03 09 | 02 01 0000 00 01010101 | 02 02 0000 04 02020202 | 03 01 | 04 01 | 04 01 | 04 01 \
    | 02 01 0001 00 03030303 | 03 01 | 04 01 | 04 01 | 04 01 | 02 00 0002 00 05050505 | 02 00 0000 08 04040404 \
    | 02 00 0001 08 06060606 | 03 00 | 04 00 | 04 00 | 04 00 | 04 00 | 04 00 | 06 | 07 | 07 | 07 | 07";

/// Cards that are wrong in the sequence, the old rule's among them, each with a short tape on which one demand alone catches it.
#[rustfmt::skip]
pub const TAPES: &[(Wrong, Checks, &str)] = &[
    (Wrong::NoSequence, Checks::AREA, LATER_ALONE),
    (Wrong::NoSequence, Checks::BYTES, LATER_ALONE),
    (Wrong::NoSequence, Checks::ANSWER, NAMES_A_LATER_ONE),
    (Wrong::NoSequence, Checks::AREA, FIRST_NOT_HELD),
    (Wrong::SequenceInRecoveryAlone, Checks::AREA, CHANGED_AT_THE_CUT),
    // the second of core 1 takes block 0 after the first of core 0 has closed
    (Wrong::SequenceInRecoveryAlone, Checks::AREA,
        "01 03 02 05 | 02 02 0001 00 01010101 | 02 01 0001 04 02020202 | 03 01 | 04 01 | 04 01 | 02 00 0000 00 03030303 \
         | 02 01 0000 04 04040404 | 03 00 | 02 01 0000 08 05050505 | 04 00 | 04 00 | 04 00 | 03 01 | 04 01 | 04 01 | 04 01 \
         | 05 00 | 06 | 07"),
    (Wrong::SequenceInRecoveryAlone, Checks::ANSWER, NAMES_A_LATER_ONE),
    (Wrong::SequenceInRunningAlone, Checks::AREA, LATER_ALONE),
    (Wrong::SequenceInRunningAlone, Checks::BYTES, LATER_ALONE),
    // the third of core 0 comes back, whose second was struck
    (Wrong::SequenceOneRound, Checks::AREA,
        "01 02 03 08 | 02 01 0000 00 01010101 | 02 00 0000 04 02020202 | 03 00 | 04 00 | 04 00 | 02 00 0001 00 03030303 | 03 00 \
         | 04 00 | 04 00 | 04 00 | 02 00 0002 00 04040404 | 03 00 | 04 00 | 04 00 | 04 00 | 06 | 07 | 07"),
    (Wrong::SequenceOneRound, Checks::ANSWER, NAMES_A_LATER_ONE),
    // core 0's transaction names core 1's third
    (Wrong::SequenceOneRound, Checks::ANSWER,
        "01 03 03 07 | 02 02 0001 00 01010101 | 02 01 0001 04 02020202 | 03 01 | 04 01 | 04 01 | 02 01 0002 00 03030303 | 03 01 \
         | 04 01 | 04 01 | 04 01 | 02 00 0000 00 04040404 | 02 01 0000 04 05050505 | 03 00 | 04 00 | 04 00 | 04 00 | 03 01 \
         | 04 01 | 04 01 | 05 00"),
    // the first since a recovery, and one whose predecessor is retired
    (Wrong::SequenceBelowTail, Checks::AREA,
        "01 01 01 04 | 06 | 07 | 02 00 0000 00 01010101 | 03 00 | 04 00 | 04 00 | 04 00 | 06 | 07"),
    (Wrong::SequenceBelowTail, Checks::ANSWER,
        "01 01 01 04 | 06 | 07 | 02 00 0000 00 01010101 | 03 00 | 04 00 | 04 00 | 04 00 | 05 00"),
    (Wrong::SequenceBelowTail, Checks::AREA,
        "01 01 01 04 | 02 00 0000 00 01010101 | 03 00 | 04 00 | 04 00 | 04 00 | 05 00 | 08 00 | 02 00 0000 00 02020202 | 03 00 \
         | 04 00 | 04 00 | 04 00 | 06 | 07"),
];

/// Runs so many tapes, and recovers as many foreign disks.
pub fn run(bench: &mut Bench, seed: u64, count: usize) -> Result<(), Failure> {
    let mut random = Random::new(seed);
    for _ in 0..count {
        bench.run_tape(&tape(&mut random))?;
        bench.run_tape_over(disk(&mut random).disk, RECOVERED)?;
    }
    Ok(())
}

/// A tape on which core 0 holds block 0 and seldom closes. Others write into that block, and so hang on it, then into blocks of
/// their own, which hang on it by the one before alone, and two into one block, so that their names carry this on.
pub fn tape(random: &mut Random) -> Vec<u8> {
    let cores = random.between(3, 8) as u8;
    let (blocks, journal) = (cores + random.below(3) as u8, random.between(6, 24) as u8);
    let mut commands = vec![Command::Format { cores, blocks, journal }, write(random, 0, 0)];
    for _ in 0..random.between(5, 60) {
        commands.extend(some_commands(random, cores, blocks));
    }
    commands.push(Command::Cut);
    commands.extend(vec![Command::Recover; blocks as usize + 1]);
    tape_of(&commands)
}

fn some_commands(random: &mut Random, cores: u8, blocks: u8) -> Vec<Command> {
    let core = random.between(1, cores as usize - 1) as u8;
    let other = 1 + core % (cores - 1);
    let own = write(random, core, core);
    // enough stores for two blocks; one too many is refused
    let stored = |core| commit_of(core, 2);
    match random.below(16) {
        0..=3 => [vec![write(random, core, 0)], stored(core)].concat(),
        4..=8 => [vec![own], stored(core)].concat(),
        9..=11 => [vec![own, write(random, other, core)], stored(core), stored(other)].concat(),
        12 => [vec![own, write(random, other, core), write(random, other, other)], stored(other)].concat(),
        13 | 14 => vec![retire_of(core, random.below(3)); random.between(1, 2)].concat(),
        _ if random.chance(500) => [stored(0), vec![write(random, 0, 0)]].concat(),
        _ => [vec![Command::Cut], vec![Command::Recover; blocks as usize + 1], vec![write(random, 0, 0)]].concat(),
    }
}

pub(crate) fn write(random: &mut Random, core: u8, block: u8) -> Command {
    let (offset, data) = (4 * random.below(32) as u8, [random.byte(), random.byte(), core, block]);
    Command::Write(Write { task: Task::Lamp, core, block: block as u16, offset, data })
}

/// A foreign disk of whole records in either layout. In a journal the first that is not valid names one that is not committed, or
/// one of an earlier core that is left; what comes after it names nothing. So its records are known to be valid or not without
/// being read.
pub struct Made {
    pub disk: Vec<u8>,
    layout: Layout,
    shape: Shape,
    tails: Tails,
    /// Of each core, how many records are read and how many of them are valid under the new rule.
    pub read: [usize; CORES],
    pub valid: [usize; CORES],
}

pub fn disk(random: &mut Random) -> Made {
    let (layout, shape, tails) = (random.pick(&LAYOUTS), any_shape(random), Tails::default());
    let mut made = Made { disk: vec![0; DISK], layout, shape, tails, read: [0; CORES], valid: [0; CORES] };
    random.fill(&mut made.disk);
    (0..shape.cores as usize).for_each(|core| made.choose(random, core));
    put(&mut made.disk, 0, &master(&Master { layout, shape, tails: made.tails }));
    (0..shape.cores).for_each(|core| made.fill(random, core));
    made
}

impl Made {
    /// The first record is left in half of the journals.
    fn choose(&mut self, random: &mut Random, core: usize) {
        let journal = self.shape.journal as usize;
        let (number, position) = (random.between(2, 30) as u32, random.below(journal) as u8);
        self.tails[core] = Tail { number, position };
        self.read[core] = random.between(0, journal / 2);
        self.valid[core] = if random.chance(500) { 0 } else { random.between(0, self.read[core]) };
    }

    fn fill(&mut self, random: &mut Random, core: u8) {
        let (tail, read) = (self.tails[core as usize], self.read[core as usize]);
        let (mut at, mut spare) = (tail.position as usize, self.shape.journal as usize - 2 * read);
        for i in 0..read {
            let count = random.between(0, spare.min(3).min(self.shape.blocks as usize));
            let names = self.names(random, core as usize, i);
            self.put_record(random, Name { core, number: tail.number + i as u32 }, at, count, &names);
            at += count + 2;
            spare -= count;
        }
    }

    fn names(&self, random: &mut Random, core: usize, i: usize) -> Vec<Name> {
        match self.valid[core] {
            first_left if i == first_left => vec![self.unmet(random, core)],
            first_left if i < first_left && random.chance(400) => vec![self.met(random)],
            _ => Vec::new(),
        }
    }

    /// One that is not committed, or is left in the journal of an earlier core.
    fn unmet(&self, random: &mut Random, core: usize) -> Name {
        let other = random.below(core + 1);
        let first = if other < core { self.valid[other] } else { self.read[other] };
        Name {
            core: other as u8,
            number: self.tails[other].number + random.between(first, self.read[other] + 1) as u32,
        }
    }

    /// One that is valid, or the one below the tail.
    fn met(&self, random: &mut Random) -> Name {
        let other = random.below(self.shape.cores as usize);
        Name { core: other as u8, number: self.tails[other].number - 1 + random.between(0, self.valid[other]) as u32 }
    }

    fn put_record(&mut self, random: &mut Random, name: Name, at: usize, count: usize, names: &[Name]) {
        let (layout, shape, first) = (self.layout, self.shape, random.below(self.shape.blocks as usize));
        let blocks: Vec<u8> = (0..count).map(|i| ((first + i) % shape.blocks as usize) as u8).collect();
        let flags: Vec<bool> = blocks.iter().map(|_| random.chance(200)).collect();
        let stamp = random.between(1, 40) as u64;
        let mut store = |i: usize, block: &Block| put(&mut self.disk, shape.place(name.core, at + i), block);
        store(0, &descriptor(name.number, &blocks, &flags));
        (0..count).for_each(|i| store(1 + i, &[name.number as u8 ^ (16 * i) as u8; BLOCK]));
        store(1 + count, &commit(layout, name.number, stamp, names));
    }
}

/// How many sets were looked at, and how many of them the added dependence made smaller.
#[derive(Default)]
pub struct Looks {
    pub sets: usize,
    pub smaller: usize,
}

impl Looks {
    /// For each core, whether each of its run is in the set under the new rule and under the old.
    pub fn look(&mut self, new: &[Vec<bool>; CORES], old: &[Vec<bool>; CORES]) {
        self.sets += 1;
        self.smaller += (new != old) as usize;
        for (new, old) in new.iter().zip(old) {
            assert!(new.is_sorted_by(|one, next| one >= next), "not a beginning: {new:?}");
            assert!(new.iter().zip(old).all(|(new, old)| new <= old), "{new:?} does not lie in {old:?}");
        }
    }

    /// The valid sets of a disk under both rules.
    pub fn look_at(&mut self, disk: &[u8]) {
        let Ok((_, journals)) = Journals::of_disk(disk) else { return };
        self.look(&valid_runs(&journals, Order::InSequence), &valid_runs(&journals, Order::Unordered));
    }
}

/// For each core, whether each of its records is valid.
pub fn valid_runs(journals: &Journals, order: Order) -> [Vec<bool>; CORES] {
    let valid = journals.valid(journals.everything(), order);
    std::array::from_fn(|core| {
        let first = journals.first_of(core as u8);
        (0..journals.of_core(core as u8).len()).map(|i| valid >> (first + i) & 1 == 1).collect()
    })
}

/// How many records of a disk are left before the first round, after it, and so on.
pub fn round_sizes(disk: &[u8], count: usize) -> Vec<u32> {
    let (_, journals) = Journals::of_disk(disk).expect("a fit master");
    let strike = |set: &Set| Some(journals.struck(*set, Order::InSequence));
    let rounds = std::iter::successors(Some(journals.everything()), strike);
    rounds.take(count).map(Set::count_ones).collect()
}
