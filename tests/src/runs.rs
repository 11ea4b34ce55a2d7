// runs.rs: foreign disks made for how records are kept that were read: of each core a run of them, one behind the other and core by
// core, of which a beginning counts. Journals are full, wrapped, of twelve records without blocks, of one record, cut short before
// records that are whole, and named in chains that lower one count a round. How many records of each core are read, why no more, and
// mostly how many are valid is known from how the disk was made. And tapes that fill journals of a card that is up.

use crate::card::Card;
use crate::command::Command;
use crate::counts::Counts;
use crate::directed::{commit_of, disk_with, put_record, retire_of, LARGEST};
use crate::endings::record_lengths;
use crate::foreign::{any_shape, put};
use crate::layout::{
    descriptor, put_word, word, Layout, Master, Name, Shape, Tail, BLOCK, COMMIT, CORES, DESCRIPTOR, HOMES, LAYOUTS,
    MARK, NAMES, TAKEN,
};
use crate::random::Random;
use crate::sequence::write;
use crate::shrink::tape_of;
use crate::wide::{any_counts, any_name, any_tails, card_over, length};

/// What a disk is made for.
#[derive(Clone, Copy, PartialEq, Eq, Debug)]
pub enum Filling {
    /// Records of one to eight blocks leave no block, or one. With B = 1 the last may have none.
    Full,
    /// In each journal a record goes round its end.
    Wrapped,
    /// Twelve records without blocks in each of eight journals.
    NoBlocks,
    /// One record in one journal, that of the core whose turn it is; all others are empty.
    One,
    /// In some journals a record before the last is damaged, so that reading ends with this number; those behind it are whole.
    Damaged(u8),
    /// Each record names another, and one names none that is there: the last that counts of one core is struck in each round.
    Chain(Way),
    /// In each journal the records from one on are left: that one names one left in another, or none that is there.
    LeftFrom,
    /// Block 0 or B - 1 in each of many records, and one of two stamps.
    Shared,
}

/// In which order of cores a chain is struck. Of a core the last record always goes first.
#[derive(Clone, Copy, PartialEq, Eq, Debug)]
pub enum Way {
    Ascending,
    Descending,
    /// One of each core, then the next one of each.
    InTurn,
}

pub const WAYS: [Way; 3] = [Way::Ascending, Way::Descending, Way::InTurn];

pub const FILLINGS: [Filling; 13] = [
    Filling::Full,
    Filling::Wrapped,
    Filling::NoBlocks,
    Filling::One,
    Filling::Damaged(1),
    Filling::Damaged(2),
    Filling::Damaged(3),
    Filling::Damaged(4),
    Filling::Chain(Way::Ascending),
    Filling::Chain(Way::Descending),
    Filling::Chain(Way::InTurn),
    Filling::LeftFrom,
    Filling::Shared,
];

/// Recovery until up, cut after its first store, after two, and so on up to seven: at most a store for each block and one for the master.
pub const CUT_OFTEN: &[u8] = &{
    let mut tape = [7; 28 + 7 + HOMES + 1];
    let (mut at, mut stores) = (0, 1);
    while stores <= 7 {
        at += stores;
        tape[at] = 6;
        at += 1;
        stores += 1;
    }
    tape
};

pub struct Made {
    pub disk: Vec<u8>,
    pub master: Master,
    /// The block counts of each core's records, those behind a damaged one too.
    pub counts: [Vec<usize>; CORES],
    /// Of each core, how many records are read, and why no more.
    pub read: Counts,
    pub ends: [u8; CORES],
    /// Of each core, how many are valid, where that is known.
    pub valid: Option<Counts>,
}

/// What each record names, by core and place.
type Named = [Vec<Vec<Name>>; CORES];

/// A disk in either layout.
pub fn disk(random: &mut Random, filling: Filling, turn: usize) -> Made {
    let shape = shape_for(random, filling, turn);
    let mut master = Master { layout: random.pick(&LAYOUTS), shape, tails: any_tails(random, shape) };
    let mut made =
        Made { disk: Vec::new(), master, counts: Default::default(), read: [0; CORES], ends: [1; CORES], valid: None };
    let cores = shape.cores as usize;
    made.counts[..cores].iter_mut().for_each(|counts| *counts = counts_for(random, filling, shape));
    match filling {
        Filling::One => (0..cores).filter(|core| *core != turn).for_each(|core| made.counts[core].clear()),
        // so that chains of the largest shape have 96 links or 64
        Filling::Chain(_) => (1..cores).for_each(|core| made.counts[core] = made.counts[0].clone()),
        _ => {}
    }
    if filling == Filling::Wrapped {
        for (tail, counts) in master.tails.iter_mut().zip(&made.counts).take(cores) {
            tail.position = wrapping_tail(random, shape, counts);
        }
        made.master = master;
    }
    let damaged = made.choose_damaged(random, filling);
    made.fill(random, filling);
    damaged.iter().for_each(|(core, record)| made.damage(random, *core, *record));
    made
}

/// A disk of any filling.
pub fn any_disk(random: &mut Random) -> Vec<u8> {
    let (filling, turn) = (random.pick(&FILLINGS), random.below(CORES));
    disk(random, filling, turn).disk
}

/// Shows so many disks of each filling, one of each in turn.
pub fn each_made(rounds: usize, seed: u64, mut show: impl FnMut(Filling, &Made)) {
    let mut random = Random::new(seed);
    for (turn, filling) in (0..rounds).flat_map(|turn| FILLINGS.map(|filling| (turn, filling))) {
        show(filling, &disk(&mut random, filling, turn % CORES));
    }
}

/// After how many disks of these fillings in turn one is found, within so many.
pub fn first_of(fillings: &[Filling], most: usize, seed: u64, is_found: impl Fn(Vec<u8>) -> bool) -> Option<usize> {
    let mut random = Random::new(seed);
    let mut turns = fillings.iter().cycle().take(most).enumerate();
    let before = turns.position(|(i, filling)| is_found(disk(&mut random, *filling, i % CORES).disk))?;
    Some(before + 1)
}

fn shape_for(random: &mut Random, filling: Filling, turn: usize) -> Shape {
    let any = any_shape(random);
    match filling {
        Filling::One => Shape { cores: random.between(turn + 1, CORES) as u8, ..any },
        Filling::NoBlocks => Shape { blocks: any.blocks, ..LARGEST },
        Filling::Chain(_) if random.chance(500) => LARGEST,
        // enough for a record before the last whose descriptor counts more blocks than are left
        Filling::Damaged(_) => {
            Shape { journal: any.journal.max(6), blocks: random.pick(&[3, 8, any.blocks.max(3)]), ..any }
        }
        Filling::Shared => {
            Shape { blocks: random.pick(&[1, 2, 9]), cores: any.cores.max(2), journal: any.journal.max(8) }
        }
        _ => any,
    }
}

fn most_blocks(shape: Shape) -> usize {
    TAKEN.min(shape.blocks as usize)
}

fn counts_for(random: &mut Random, filling: Filling, shape: Shape) -> Vec<usize> {
    let journal = shape.journal as usize;
    match filling {
        Filling::NoBlocks => vec![0; journal / 2],
        Filling::One => any_record(random, shape),
        Filling::Chain(_) => {
            let blocks = random.below(2);
            vec![blocks; journal / (blocks + 2)]
        }
        Filling::Wrapped => match any_counts(random, shape) {
            none if none.is_empty() => any_record(random, shape),
            counts => counts,
        },
        Filling::LeftFrom | Filling::Damaged(_) if random.chance(400) => any_counts(random, shape),
        _ => full_counts(random, shape),
    }
}

fn any_record(random: &mut Random, shape: Shape) -> Vec<usize> {
    vec![random.between(0, most_blocks(shape).min(shape.journal as usize - 2))]
}

/// Blocks of records, each with one at least where that leaves no room for another: no block is left at the end, or one.
fn full_counts(random: &mut Random, shape: Shape) -> Vec<usize> {
    let (mut counts, mut left) = (Vec::new(), shape.journal as usize);
    while left >= 2 {
        let fitting: Vec<usize> = (0..=most_blocks(shape).min(left - 2)).collect();
        let best: Vec<usize> = fitting.iter().copied().filter(|count| *count > 0 && left - count != 4).collect();
        let count = random.pick(if best.is_empty() { &fitting[fitting.len() - 1..] } else { &best });
        counts.push(count);
        left -= count + 2;
    }
    counts
}

/// The first of so many blocks that stand one behind the other: from 0 on, up to the last, round past it, or any.
fn any_first(random: &mut Random, blocks: usize, count: usize) -> usize {
    let any = random.below(blocks);
    random.pick(&[0, blocks - count, blocks - 1, any])
}

/// A position from which on one of the records goes round the end of its journal, anywhere in it.
fn wrapping_tail(random: &mut Random, shape: Shape, counts: &[usize]) -> u8 {
    let journal = shape.journal as usize;
    let record = random.below(counts.len());
    let before_end = length(&counts[..record]) + random.between(1, counts[record] + 1);
    ((2 * journal - before_end) % journal) as u8
}

impl Made {
    /// A card that is up over this disk and counts every record as committed, also those that are not read.
    pub fn card(&self) -> Card {
        card_over(&self.master, &self.counts)
    }

    /// Records read and the end of each core that is there.
    pub fn due(&self) -> Vec<(usize, u8)> {
        let all = self.read.into_iter().zip(self.ends);
        all.take(self.master.shape.cores as usize).collect()
    }

    fn cores(&self) -> std::ops::Range<usize> {
        0..self.master.shape.cores as usize
    }

    fn name(&self, core: usize, record: usize) -> Name {
        Name { core: core as u8, number: self.master.tails[core].number + record as u32 }
    }

    /// Where a record begins in its journal.
    pub fn start(&self, core: usize, record: usize) -> usize {
        self.master.tails[core].position as usize + length(&self.counts[core][..record])
    }

    /// Some cores, at least one, each with a record before its last. So few blocks are left there that a descriptor of eight has too few,
    /// where that is asked for.
    fn choose_damaged(&mut self, random: &mut Random, filling: Filling) -> Vec<(usize, usize)> {
        self.read = std::array::from_fn(|core| self.counts[core].len());
        let Filling::Damaged(end) = filling else { return Vec::new() };
        let (shape, first) = (self.master.shape, random.below(self.master.shape.cores as usize));
        let journal = shape.journal as usize;
        let chosen: Vec<usize> = self.cores().filter(|core| *core == first || random.chance(300)).collect();
        let choose = |core: usize| {
            let most = if end == 3 { most_blocks(shape) + 1 } else { journal };
            let fits: Vec<usize> = (4..=most.min(journal)).filter(|left| journal - left != 1).collect();
            let left = random.pick(&fits);
            let longest = most_blocks(shape) + 2;
            let before = record_lengths(random, journal - left, longest);
            let own: Vec<usize> = (2..=longest.min(left - 2)).filter(|length| left - length != 1).collect();
            let own = random.pick(&own);
            let behind = record_lengths(random, left - own, longest);
            self.counts[core] = before.iter().chain(&[own]).chain(&behind).map(|length| length - 2).collect();
            (self.read[core], self.ends[core]) = (before.len(), end);
            (core, before.len())
        };
        chosen.into_iter().map(choose).collect()
    }

    fn fill(&mut self, random: &mut Random, filling: Filling) {
        let Master { layout, shape, tails } = self.master;
        self.disk = disk_with(layout, shape, &tails[..shape.cores as usize]);
        random.fill(&mut self.disk[BLOCK..]);
        let named = self.names(random, filling);
        let stamps: &[u64] = match random.below(3) {
            _ if filling == Filling::Shared => &[1, 2],
            0 => &[1, 2],
            1 => &[1, 2, 3, 1 << 32, u64::MAX],
            _ => &[],
        };
        for (core, names) in self.cores().zip(&named) {
            for (record, names) in names.iter().enumerate() {
                let stamp = if stamps.is_empty() { random.between(1, 200) as u64 } else { random.pick(stamps) };
                self.put(random, filling, core, record, names, stamp);
            }
        }
    }

    /// What stands on the disk behind the first bytes of each data block tells the images apart.
    fn put(&mut self, random: &mut Random, filling: Filling, core: usize, record: usize, names: &[Name], stamp: u64) {
        let (shape, count) = (self.master.shape, self.counts[core][record]);
        let (start, blocks) = (self.start(core, record), shape.blocks as usize);
        let first = match filling {
            Filling::Shared => random.pick(&[0, blocks - count, blocks - 1]),
            _ => any_first(random, blocks, count),
        };
        let mut taken: Vec<u8> = (first..first + count).map(|block| (block % blocks) as u8).collect();
        if random.chance(300) {
            taken.reverse();
        }
        let name = self.name(core, record);
        put_record(&mut self.disk, name, start, &taken, names);
        let commit = shape.place(core as u8, start + count + 1) * BLOCK;
        self.disk[commit + 12..commit + 20].copy_from_slice(&stamp.to_be_bytes());
    }

    fn names(&mut self, random: &mut Random, filling: Filling) -> Named {
        match filling {
            Filling::Chain(way) => self.chained(way),
            Filling::LeftFrom => self.left_from(random),
            _ => self.any_names(random),
        }
    }

    fn nothing_named(&self) -> Named {
        std::array::from_fn(|core| vec![Vec::new(); self.counts[core].len()])
    }

    /// Any record, or the number below or above a core's, in a share of all; now and then in none.
    fn any_names(&mut self, random: &mut Random) -> Named {
        let mut named = self.nothing_named();
        let share = random.pick(&[0, 30, 100, 400]);
        for names in named.iter_mut().flatten() {
            let count = if random.chance(share) { random.between(1, 3) } else { 0 };
            names.extend((0..count).map(|_| any_name(random, &self.master, &self.counts)));
        }
        self.valid = (share == 0).then_some(self.read);
        named
    }

    /// Of each core the last record, then the one before it; the first to be struck names the number behind its own journal's last.
    fn chained(&mut self, way: Way) -> Named {
        let of_core = |core: usize| (0..self.counts[core].len()).rev().map(move |record| (core, record));
        let mut links: Vec<(usize, usize)> = match way {
            Way::Descending => self.cores().rev().flat_map(of_core).collect(),
            _ => self.cores().flat_map(of_core).collect(),
        };
        if way == Way::InTurn {
            links.sort_by_key(|(core, record)| (self.counts[*core].len() - record, *core));
        }
        let mut named = self.nothing_named();
        let mut next = self.name(links[0].0, self.counts[links[0].0].len());
        for (core, record) in links {
            named[core][record].push(next);
            next = self.name(core, record);
        }
        self.valid = Some([0; CORES]);
        named
    }

    /// Cores in any order: the first record that is left of one names one that is left of a core before it in this order.
    fn left_from(&mut self, random: &mut Random) -> Named {
        let mut named = self.nothing_named();
        let valid: Counts = std::array::from_fn(|core| random.between(0, self.read[core]));
        let mut order: Vec<(u64, usize)> = self.cores().map(|core| (random.draw(), core)).collect();
        order.sort();
        let mut left: Option<usize> = None;
        for (_, core) in order.into_iter().filter(|(_, core)| valid[*core] < self.read[*core]) {
            let other = left.unwrap_or(core);
            let first = if left.is_some() { valid[other] } else { self.read[other] };
            named[core][valid[core]].push(self.name(other, random.between(first, self.read[other])));
            left = Some(core);
        }
        for names in named.iter_mut().zip(valid).flat_map(|(names, valid)| &mut names[..valid]) {
            let other = random.below(self.master.shape.cores as usize);
            let number = self.master.tails[other].number - 1 + random.between(0, valid[other]) as u32;
            names.extend(random.chance(300).then_some(Name { core: other as u8, number }));
        }
        self.valid = Some(valid);
        named
    }

    /// One fault in a record that was whole, so that its journal's reading ends there as it is to.
    fn damage(&mut self, random: &mut Random, core: usize, record: usize) {
        let (shape, number) = (self.master.shape, self.name(core, record).number);
        let (start, count) = (self.start(core, record), self.counts[core][record]);
        let [first, last] = [0, count + 1].map(|i| shape.place(core as u8, start + i) * BLOCK);
        let headless = |block: usize, kind: u32| {
            vec![(block, MARK ^ 1), (block + 4, kind), (block + 8, number + 1), (block + 8, number - 1)]
        };
        let faults = match self.ends[core] {
            1 => headless(first, COMMIT),
            2 => self.bad_fields(first, count),
            3 => return self.put_longer(core, record),
            _ => [headless(last, DESCRIPTOR), self.bad_names(last)].concat(),
        };
        let (at, word) = random.pick(&faults);
        put_word(&mut self.disk, at, word);
    }

    /// Words of a descriptor just out of range, or a block twice.
    fn bad_fields(&self, first: usize, count: usize) -> Vec<(usize, u32)> {
        let last = first + 8 + 8 * count;
        let mut faults = vec![(first + 12, TAKEN as u32 + 1), (first + 12, u32::MAX)];
        faults.extend([(last, self.master.shape.blocks as u32), (last + 4, 2)].iter().filter(|_| count > 0));
        faults.extend((count > 1).then_some((last, word(&self.disk, first + 16))));
        faults
    }

    /// A thirteenth name, or a number for a core that is not there.
    fn bad_names(&self, last: usize) -> Vec<(usize, u32)> {
        let cores = self.master.shape.cores as usize;
        match self.master.layout {
            Layout::Lists => vec![(last + 20, NAMES as u32 + 1)],
            Layout::Numbers => (cores..CORES).map(|core| (last + 24 + 4 * core, 1)).collect(),
        }
    }

    /// A descriptor of one block more than are left for data and commit.
    fn put_longer(&mut self, core: usize, record: usize) {
        let Tail { number, position } = self.master.tails[core];
        let used = length(&self.counts[core][..record]);
        let blocks: Vec<u8> = (0..self.master.shape.journal - used as u8 - 1).collect();
        let first = descriptor(number + record as u32, &blocks, &vec![false; blocks.len()]);
        put(&mut self.disk, self.master.shape.place(core as u8, position as usize + used), &first);
    }
}

/// A tape that fills journals: each core's tail is moved on, then some cores commit until there is no room, among them transactions
/// without blocks, which wrote into block 0 while the last core held it and ran. Then a cut and recovery.
pub fn tape(random: &mut Random) -> Vec<u8> {
    let shape = any_shape(random);
    let Shape { cores, blocks, journal } = shape;
    let mut commands = vec![Command::Format { cores, blocks, journal }];
    for core in 0..cores {
        for _ in 0..random.below(4) {
            let count = any_record(random, shape)[0].max(1);
            commands.extend(taking(random, core, shape, count));
            commands.extend(retire_of(core, count));
        }
    }
    let active = random.between(1, cores as usize);
    for _ in 0..random.between(10, 80) {
        commands.extend(some_commands(random, shape, active));
    }
    commands.push(Command::Cut);
    commands.extend(vec![Command::Recover; blocks as usize + 1]);
    tape_of(&commands)
}

/// A transaction that takes so many blocks, if there is room, and is committed.
fn taking(random: &mut Random, core: u8, shape: Shape, count: usize) -> Vec<Command> {
    let blocks = shape.blocks as usize;
    let first = any_first(random, blocks, count);
    let mut commands: Vec<Command> =
        (first..first + count).map(|block| write(random, core, (block % blocks) as u8)).collect();
    commands.extend(commit_of(core, count));
    commands
}

fn some_commands(random: &mut Random, shape: Shape, active: usize) -> Vec<Command> {
    let (core, last) = (random.below(active) as u8, shape.cores - 1);
    match random.below(16) {
        0..=5 => {
            let count = random.between(1, most_blocks(shape));
            taking(random, core, shape, count)
        }
        6..=10 => [vec![write(random, core, 0)], commit_of(core, 1)].concat(),
        11..=13 => vec![write(random, last, 0)],
        14 => commit_of(last, 2),
        _ => retire_of(core, random.below(4)),
    }
}
