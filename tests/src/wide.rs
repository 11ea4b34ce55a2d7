// wide.rs: foreign disks where a descriptor of the expected number names a block by a number wider than a byte (paper 02, request f).
// Its low byte is a block of the disk and its record is whole otherwise, so that a reader which narrows the number before it tests the
// range reads on. Where each journal ends is known from how the disk was made.

use crate::card::{self, Card, Core, Phase};
use crate::directed::{disk_with, put_record};
use crate::endings::{blocks_left, record_lengths};
use crate::foreign::{any_shape, put};
use crate::layout::{
    commit, descriptor, master, put_word, read_master, Block, Layout, Master, Name, Shape, Tail, Tails, BLOCK, CORES,
    DISK, LAYOUTS, TAKEN,
};
use crate::random::Random;
use crate::wrong::Wrong;

/// What stands above the low byte: multiples of 256, each higher byte by itself, and all of them full.
const ABOVE: [u32; 7] = [1 << 8, 2 << 8, 0xFF << 8, 1 << 16, 1 << 24, 1 << 31, 0xFFFF_FF00];

/// Numbers with this low byte that no disk has a block for.
fn numbers(low: u8) -> impl Iterator<Item = u32> {
    ABOVE.into_iter().map(move |above| above + low as u32)
}

/// Every place of descriptors that a disk of so many blocks can have: how many entries there are, and which it is.
fn places(blocks: u8) -> impl Iterator<Item = (usize, usize)> {
    (1..=TAKEN.min(blocks as usize)).flat_map(|count| (0..count).map(move |place| (count, place)))
}

/// Where a journal of 24 blocks begins, and how many records without blocks come first. In the last two the record behind them wraps.
const STARTS: [(usize, usize); 4] = [(0, 0), (5, 1), (22, 0), (21, 1)];

/// Shows disks of 1, 10 and 64 blocks with one core, and how many records are read of it and its end. In every place of a record there
/// is every block, which is read where it stands there once, and for every low byte below B all wide numbers; then B, 259 and the highest.
pub fn each_place(mut show: impl FnMut(&[u8], usize, u8)) {
    for (blocks, layout) in [1, 10, 64].into_iter().flat_map(|blocks| LAYOUTS.map(|layout| (blocks, layout))) {
        for ((count, place), start) in places(blocks).flat_map(|place| STARTS.map(|start| (place, start))) {
            let (mut disk, descriptor) = one_record(layout, blocks, start, count);
            let entry = descriptor + 16 + 8 * place;
            let mut show = |number: u32, read: usize, end: u8| {
                put_word(&mut disk, entry, number);
                show(&disk, read, end);
            };
            let before = start.1;
            for low in 0..blocks {
                let is_twice = (0..count).any(|i| i != place && block_of(blocks, i) == low);
                let (read, end) = if is_twice { (before, 2) } else { (before + 1, 1) };
                show(low as u32, read, end);
                numbers(low).for_each(|number| show(number, before, 2));
            }
            [blocks as u32, 259, u32::MAX].into_iter().for_each(|number| show(number, before, 2));
        }
    }
}

/// The i-th block that the record of `each_place` takes: B - 1, then those from 0 on.
fn block_of(blocks: u8, i: usize) -> u8 {
    (blocks - 1 + i as u8) % blocks
}

/// A record of so many blocks, and where its descriptor begins on the disk.
fn one_record(layout: Layout, blocks: u8, (position, before): (usize, usize), count: usize) -> (Vec<u8>, usize) {
    let shape = Shape { cores: 1, blocks, journal: 24 };
    let mut disk = disk_with(layout, shape, &[Tail { number: 7, position: position as u8 }]);
    let mut put = |i: usize, taken: &[u8]| {
        put_record(&mut disk, Name { core: 0, number: 7 + i as u32 }, position + 2 * i, taken, &[]);
    };
    (0..before).for_each(|i| put(i, &[]));
    let taken: Vec<u8> = (0..count).map(|i| block_of(blocks, i)).collect();
    put(before, &taken);
    (disk, shape.place(0, position + 2 * before) * BLOCK)
}

/// What the chosen place of a disk holds.
#[derive(Clone, Copy, PartialEq, Eq, Debug)]
pub enum Entry {
    /// A wide number. Its low byte is none of the descriptor's other blocks.
    Alone,
    /// A wide number. Its low byte is another block of the descriptor.
    Twice,
    /// Block B - 1, which is read.
    InRange,
}

/// Cards that narrow too early, and where that makes a difference: the first still finds a block twice beside its low byte.
pub const NARROWING: [(Wrong, &[Entry]); 2] =
    [(Wrong::NarrowedFirst, &[Entry::Alone]), (Wrong::NarrowedForRange, &[Entry::Alone, Entry::Twice])];

/// In words, how many of something it takes by a hundred seeds: the fewest, the most and the middle.
pub fn spread(what: &str, taken: impl Fn(u64) -> u64) -> String {
    let mut all: Vec<u64> = (1..=100).map(taken).collect();
    all.sort();
    format!("{} to {} {what}, in half of 100 runs within {}", all[0], all[99], all[49])
}

/// One place in one descriptor: of which core, in which of its records from the tail on, in which entry, and what stands there.
#[derive(Clone, Copy, Debug)]
pub struct Chosen {
    pub core: u8,
    pub record: usize,
    pub place: usize,
    pub entry: Entry,
}

pub struct Made {
    pub disk: Vec<u8>,
    pub master: Master,
    /// The block counts of each core's records. All of them have their commits, those behind the chosen one too.
    pub counts: [Vec<usize>; CORES],
    pub chosen: Chosen,
}

pub fn disk(random: &mut Random) -> Made {
    let shape = any_shape(random);
    let master = Master { layout: random.pick(&LAYOUTS), shape, tails: any_tails(random, shape) };
    let core = random.below(shape.cores as usize) as u8;
    let mut counts: [Vec<usize>; CORES] = Default::default();
    counts[..shape.cores as usize].iter_mut().for_each(|counts| *counts = any_counts(random, shape));
    if counts[core as usize].iter().all(|count| *count == 0) {
        counts[core as usize] = vec![1];
    }
    let chosen = any_place(random, core, &counts[core as usize]);
    let mut made = Made { disk: vec![0; DISK], master, counts, chosen };
    made.fill(random);
    made
}

/// Numbers of up to ten digits, but none so high that the tail after recovery would be capped.
pub(crate) fn any_tails(random: &mut Random, shape: Shape) -> Tails {
    let mut tails = Tails::default();
    for tail in &mut tails[..shape.cores as usize] {
        let number = random.between(2, 30) as u32 + random.pick(&[0, 0, 256, 3_999_999_900]);
        *tail = Tail { number, position: random.below(shape.journal as usize) as u8 };
    }
    tails
}

pub(crate) fn any_counts(random: &mut Random, shape: Shape) -> Vec<usize> {
    let journal = shape.journal as usize;
    let used = journal - blocks_left(random, journal);
    let lengths = record_lengths(random, used, TAKEN.min(shape.blocks as usize) + 2);
    lengths.iter().map(|length| length - 2).collect()
}

/// In half of the cases the first record that has blocks, otherwise any such; of its entries any.
fn any_place(random: &mut Random, core: u8, counts: &[usize]) -> Chosen {
    let with_blocks: Vec<usize> = (0..counts.len()).filter(|i| counts[*i] > 0).collect();
    let record = if random.chance(500) { with_blocks[0] } else { random.pick(&with_blocks) };
    let entry = match random.pick(&[Entry::Alone, Entry::Alone, Entry::Twice, Entry::InRange]) {
        Entry::Twice if counts[record] == 1 => Entry::Alone,
        entry => entry,
    };
    Chosen { core, record, place: random.below(counts[record]), entry }
}

impl Made {
    /// How many records of a core are read, and its end: 2 at the wide number, 1 behind the last record.
    pub fn due(&self, core: u8) -> (usize, u8) {
        if core == self.chosen.core && self.chosen.entry != Entry::InRange {
            (self.chosen.record, 2)
        } else {
            (self.counts[core as usize].len(), 1)
        }
    }

    /// Whether the chosen record goes round the end of its journal.
    pub fn wraps(&self) -> bool {
        let Chosen { core, record, .. } = self.chosen;
        let journal = self.master.shape.journal as usize;
        self.start(core, record) % journal + self.counts[core as usize][record] + 2 > journal
    }

    /// A card that is up over this disk and counts every record as committed.
    pub fn card(&self) -> Card {
        card_over(&self.master, &self.counts)
    }

    fn start(&self, core: u8, record: usize) -> usize {
        self.master.tails[core as usize].position as usize + length(&self.counts[core as usize][..record])
    }

    fn fill(&mut self, random: &mut Random) {
        if random.chance(500) {
            random.fill(&mut self.disk);
        }
        put(&mut self.disk, 0, &master(&self.master));
        for core in 0..self.master.shape.cores {
            (0..self.counts[core as usize].len()).for_each(|record| self.put_record(random, core, record));
        }
    }

    fn put_record(&mut self, random: &mut Random, core: u8, record: usize) {
        let (Master { layout, shape, tails }, start) = (self.master, self.start(core, record));
        let number = tails[core as usize].number + record as u32;
        let entries = self.entries(random, core, record);
        let flags: Vec<bool> = entries.iter().map(|_| random.chance(200)).collect();
        let mut first = descriptor(number, &vec![0; entries.len()], &flags);
        entries.iter().enumerate().for_each(|(i, entry)| put_word(&mut first, 16 + 8 * i, *entry));
        let named = random.pick(&[0, 0, 1]);
        let names: Vec<Name> = (0..named).map(|_| any_name(random, &self.master, &self.counts)).collect();
        let last = commit(layout, number, random.between(1, 40) as u64, &names);
        let mut store = |i: usize, block: &Block| put(&mut self.disk, shape.place(core, start + i), block);
        store(0, &first);
        (0..entries.len()).for_each(|i| store(1 + i, &[number as u8 ^ (16 * i) as u8; BLOCK]));
        store(1 + entries.len(), &last);
    }

    /// The block numbers of a descriptor: one after another from any on, but for the chosen place.
    fn entries(&self, random: &mut Random, core: u8, record: usize) -> Vec<u32> {
        let (count, blocks) = (self.counts[core as usize][record], self.master.shape.blocks as usize);
        let Chosen { place, entry, .. } = self.chosen;
        let is_chosen = (core, record) == (self.chosen.core, self.chosen.record);
        let first = match entry {
            // so that block B - 1 stands in the chosen place
            Entry::InRange if is_chosen => blocks - 1 - place,
            _ => random.below(blocks),
        };
        let mut entries: Vec<u32> = (first..first + count).map(|block| (block % blocks) as u32).collect();
        if is_chosen && entry != Entry::InRange {
            let beside = if entry == Entry::Twice { random.between(1, count - 1) } else { 0 };
            entries[place] = random.pick(&ABOVE) + entries[(place + beside) % count];
        }
        entries
    }
}

/// A record of any core, or the number just below or above its records.
pub(crate) fn any_name(random: &mut Random, master: &Master, counts: &[Vec<usize>; CORES]) -> Name {
    let core = random.below(master.shape.cores as usize);
    let above = random.between(0, counts[core].len() + 1) as u32;
    Name { core: core as u8, number: master.tails[core].number - 1 + above }
}

/// The journal blocks of records with so many blocks each.
pub(crate) fn length(counts: &[usize]) -> usize {
    counts.iter().map(|count| count + 2).sum()
}

pub(crate) fn card_over(master: &Master, counts: &[Vec<usize>; CORES]) -> Card {
    let mut card = Card { shape: master.shape, ..Card::with(Phase::Up, card::Kind::default()) };
    for ((core, tail), counts) in card.cores.iter_mut().zip(master.tails).zip(counts) {
        let (next, committed) = (tail.number + counts.len() as u32, counts.len() as u8);
        *core = Core { tail, next, committed, length: length(counts) as u8, ..Core::default() };
    }
    card
}

/// Two records of a card that is up: the oldest of core 0 took one block, and another with a lower stamp has a number in one of its
/// entries. Only where that number is the block itself do both take it.
#[derive(Clone, Copy, Debug)]
pub struct Sharing {
    blocks: u8,
    block: u8,
    /// Of the other record, as `OTHERS` has them.
    core: u8,
    is_later: bool,
    /// Its entries, and the number that stands in one of them.
    count: usize,
    place: usize,
    number: u32,
}

/// A later record of core 0, the oldest of core 1, and a later one.
const OTHERS: [(u8, bool); 3] = [(0, true), (1, false), (1, true)];

impl Sharing {
    /// In every place, on disks of one block and of 64, the wide numbers whose low byte is the block, and the block itself.
    pub fn all() -> Vec<Sharing> {
        let mut all = Vec::new();
        for (blocks, block) in [(1, 0), (64, 0), (64, 3), (64, 63)] {
            for ((count, place), (core, is_later)) in
                places(blocks).flat_map(|place| OTHERS.map(|other| (place, other)))
            {
                let of = |above| Sharing { blocks, block, core, is_later, count, place, number: above + block as u32 };
                all.extend(ABOVE.into_iter().chain([0]).map(of));
            }
        }
        all
    }

    fn is_wide(&self) -> bool {
        self.number != self.block as u32
    }

    /// What CHECKPOINT and what RETIRE answer to core 0 and to core 1, each tried first: 33 where both took the block, and 31 where the
    /// oldest record is not read or none is there. Of all others nothing is stored home yet, so that one without blocks can be retired.
    pub fn due(&self) -> [[u8; 2]; 2] {
        let (with_blocks, without) = ([0, 34], [35, 0]);
        let of_core_1 = match (self.core, self.is_later) {
            (1, true) => without,
            (1, false) if !self.is_wide() => with_blocks,
            _ => [31; 2],
        };
        let of_core_0 = if self.is_wide() { with_blocks } else { [33; 2] };
        [0, 1].map(|command| [of_core_0[command], of_core_1[command]])
    }

    /// What a card answers that reads the low byte.
    pub fn due_narrowed(&self) -> [[u8; 2]; 2] {
        Sharing { number: self.block as u32, ..*self }.due()
    }

    /// The disk, and the card that is up over it.
    pub fn made(&self) -> (Vec<u8>, Card) {
        let Sharing { blocks, block, core, count, .. } = *self;
        let tails = [Tail { number: 5, position: 20 }, Tail { number: 9, position: 23 }];
        let mut disk = disk_with(Layout::Numbers, Shape { cores: 2, blocks, journal: 24 }, &tails);
        let mut counts: [Vec<usize>; CORES] = Default::default();
        let mut lay = |core: u8, taken: &[u8]| {
            let (tail, counts) = (tails[core as usize], &mut counts[core as usize]);
            let at = tail.position as usize + length(counts);
            put_record(&mut disk, Name { core, number: tail.number + counts.len() as u32 }, at, taken, &[]);
            counts.push(taken.len());
            at
        };
        lay(0, &[block]);
        if (core, self.is_later) == (1, true) {
            lay(1, &[]);
        }
        let others: Vec<u8> = (0..count as u8).map(|i| (block + 1 + i) % blocks).collect();
        let at = lay(core, &others);
        let master = read_master(&disk).expect("a fit master");
        put_word(&mut disk, master.shape.place(core, at) * BLOCK + 16 + 8 * self.place, self.number);
        // a lower stamp than the others have
        put_word(&mut disk, master.shape.place(core, at + count + 1) * BLOCK + 16, 1);
        (disk, card_over(&master, &counts))
    }
}
