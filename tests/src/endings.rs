// endings.rs: foreign disks made for why reading stops: in each journal whole records, and behind them a descriptor of the expected
// number and its commit, each right or with one field wrong. Tail, records and the blocks left for the last one are any.

use crate::foreign::{any_master, fill_unread, put};
use crate::layout::{
    commit, descriptor, master, put_word, Block, Layout, Master, Name, Shape, Tail, COMMIT, CORES, DESCRIPTOR, DISK,
    HOMES, MARK, NAMES, TAKEN,
};
use crate::random::Random;

/// A cut after some steps of recovery, then all of it: at most a store for each block and one for the master.
pub const RECOVERED: &[u8] = &{
    let mut tape = [7; 5 + HOMES + 1];
    tape[4] = 6;
    tape
};

pub fn disk(random: &mut Random) -> Vec<u8> {
    let mut disk = vec![0; DISK];
    if random.chance(500) {
        random.fill(&mut disk);
    }
    let fields = any_master(random);
    let Master { layout, shape, tails } = fields;
    put(&mut disk, 0, &master(&fields));
    for core in 0..shape.cores {
        Journal { disk: &mut disk, layout, shape, core, tail: tails[core as usize] }.fill(random);
    }
    disk
}

struct Journal<'a> {
    disk: &'a mut [u8],
    layout: Layout,
    shape: Shape,
    core: u8,
    tail: Tail,
}

impl Journal<'_> {
    fn fill(&mut self, random: &mut Random) {
        let journal = self.shape.journal as usize;
        let left = blocks_left(random, journal);
        let lengths = record_lengths(random, journal - left, self.most_blocks() + 2);
        let number = self.tail.number + lengths.len() as u32;
        self.forge_commits(random, number);
        let mut used = 0;
        for (i, length) in lengths.iter().enumerate() {
            self.put_record(random, self.tail.number + i as u32, used, length - 2);
            used += length;
        }
        self.put_last(random, number, used, left);
    }

    fn most_blocks(&self) -> usize {
        TAKEN.min(self.shape.blocks as usize)
    }

    fn put(&mut self, used: usize, block: &Block) {
        put(self.disk, self.shape.place(self.core, self.tail.position as usize + used), block);
    }

    /// A commit of the last record's number wherever nothing else will stand, so that one that is looked for at a wrong place is found.
    fn forge_commits(&mut self, random: &mut Random, number: u32) {
        if random.chance(500) {
            (0..self.shape.journal as usize).for_each(|used| self.put(used, &commit(self.layout, number, 1, &[])));
        }
    }

    fn put_record(&mut self, random: &mut Random, number: u32, used: usize, count: usize) {
        let (first, last) = self.record(random, number, count);
        self.put(used, &first);
        self.put(used + count + 1, &last);
    }

    /// Descriptor and commit of a record with so many blocks. Behind their entries stands one more that is in range, so that a count
    /// above its limit is all that is wrong.
    fn record(&self, random: &mut Random, number: u32, count: usize) -> (Block, Block) {
        let (lowest, blocks) = (random.below(self.shape.blocks as usize), self.shape.blocks as usize);
        let taken: Vec<u8> = (lowest..=lowest + count).map(|block| (block % blocks) as u8).collect();
        let flags: Vec<bool> = taken.iter().map(|_| random.chance(500)).collect();
        let names: Vec<Name> = (0..random.pick(&[0, 1, 2, NAMES])).map(|_| any_name(random, self.shape)).collect();
        let mut first = descriptor(number, &taken[..count], &flags);
        let mut last = commit(self.layout, number, random.pick(&[1, 2, 1 << 32, u64::MAX]), &names);
        put_word(&mut first, 16 + 8 * count, taken[count] as u32);
        match self.layout {
            Layout::Lists => put_word(&mut last, 28 + 8 * names.len(), 1),
            Layout::Numbers => fill_unread(random, &mut last),
        }
        (first, last)
    }

    /// The record where the journal ends, as far as blocks are left: those it lacks are the first record's.
    fn put_last(&mut self, random: &mut Random, number: u32, used: usize, left: usize) {
        let near = [0, 1, left.saturating_sub(2), left.saturating_sub(1), left, TAKEN];
        let count = random.pick(&near).min(self.most_blocks());
        let (mut first, mut last) = self.record(random, number, count);
        if random.chance(500) {
            spoil_descriptor(random, &mut first, self.shape, number, count);
        }
        if random.chance(700) {
            self.spoil_commit(random, &mut last, number);
        }
        if left > 0 {
            self.put(used, &first);
        }
        if left >= count + 2 {
            self.put(used + count + 1, &last);
        }
    }

    /// One word out of range, or a bit of any flipped.
    fn spoil_commit(&self, random: &mut Random, block: &mut Block, number: u32) {
        let cores = self.shape.cores as u32;
        let beside = random.pick(&[number - 1, number + 1]);
        let fields = [(0, MARK ^ 1), (4, DESCRIPTOR), (8, beside)];
        let in_list = [(20, 13), (20, u32::MAX), (24, cores), (28, 0), (112, cores), (116, 0)];
        // numbers of cores that are not there; where all are, any number is in range
        let beyond: Vec<(usize, u32)> = (self.shape.cores as usize..CORES).map(|core| (24 + 4 * core, 1)).collect();
        let named = if self.layout == Layout::Lists { &in_list[..] } else { &beyond };
        let (at, word) = random.pick(&[&fields[..], named].concat());
        match random.below(10) {
            0 => block[12..20].fill(0),
            1..=3 => flip(random, block, 32),
            _ => put_word(block, at, word),
        }
    }
}

/// One block alone holds no record, so that all but one left is as good as all.
pub(crate) fn blocks_left(random: &mut Random, journal: usize) -> usize {
    let left = match random.below(8) {
        0 => 0,
        1 => 1,
        2..=4 => random.between(2, journal.min(10)),
        _ => random.below(journal + 1),
    };
    if left + 1 == journal {
        journal
    } else {
        left
    }
}

/// Lengths of records that fill so many blocks, which are not just one.
pub(crate) fn record_lengths(random: &mut Random, blocks: usize, most: usize) -> Vec<usize> {
    let (mut lengths, mut rest) = (Vec::new(), blocks);
    while rest > 0 {
        let fits = |length: &usize| *length <= rest && rest - length != 1;
        let choices: Vec<usize> = (2..=most).filter(fits).collect();
        lengths.push(random.pick(&choices));
        rest -= lengths[lengths.len() - 1];
    }
    lengths
}

fn any_name(random: &mut Random, shape: Shape) -> Name {
    Name { core: random.below(shape.cores as usize) as u8, number: random.pick(&[1, 2, 9, u32::MAX]) }
}

/// One word just out of range or twice, or a bit of any flipped, which reaches behind the entries too.
fn spoil_descriptor(random: &mut Random, block: &mut Block, shape: Shape, number: u32, count: usize) {
    let beside = random.pick(&[number - 1, number + 1]);
    let mut words = vec![(0, MARK ^ 1), (4, COMMIT), (8, beside), (12, 9), (12, u32::MAX)];
    if count > 0 {
        let (at, low) = (16 + 8 * random.below(count), random.below(shape.blocks as usize) as u32);
        words.extend([(at, shape.blocks as u32), (at, 259), (at, 256 + low), (at, low), (at, low)]);
        words.extend([(at + 4, 2), (at + 4, u32::MAX)]);
    }
    let (at, word) = random.pick(&words);
    if random.chance(300) {
        flip(random, block, 6 + 2 * count);
    } else {
        put_word(block, at, word);
    }
}

/// Flips a bit of one of the first words.
fn flip(random: &mut Random, block: &mut Block, words: usize) {
    block[random.below(4 * words)] ^= 1 << random.below(8);
}
