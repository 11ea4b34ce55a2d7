// records.rs: what the plain card reads from the journals: records, the valid set, the newest image of a block.

use card_tests::few::Few;
use card_tests::layout::{
    block_at, unescaped, word, Block, Layout, Master, Name, Shape, Tail, COMMIT, CORES, DESCRIPTOR, LAST_NUMBER, MARK,
    NAMES, TAKEN,
};

/// The most records that journals hold: twelve of two blocks each for eight cores.
pub const MOST: usize = 96;

/// A committed transaction: where its record stands, and what tells its extent.
#[derive(Clone, Copy, Default)]
pub struct Record {
    pub name: Name,
    pub stamp: u64,
    position: u8,
    count: u8,
}

impl Record {
    fn descriptor<'a>(&self, disk: &'a [u8], shape: Shape) -> &'a [u8] {
        block_at(disk, shape.place(self.name.core, self.position as usize))
    }

    fn commit<'a>(&self, disk: &'a [u8], shape: Shape) -> &'a [u8] {
        block_at(disk, shape.place(self.name.core, (self.position + self.count + 1) as usize))
    }

    pub fn blocks(&self, disk: &[u8], shape: Shape) -> Few<u8, TAKEN> {
        let descriptor = self.descriptor(disk, shape);
        let mut blocks = Few::new();
        (0..self.count as usize).for_each(|i| blocks.push(word(descriptor, 16 + 8 * i) as u8));
        blocks
    }

    fn place_of(&self, disk: &[u8], shape: Shape, block: u8) -> Option<usize> {
        let descriptor = self.descriptor(disk, shape);
        (0..self.count as usize).find(|i| word(descriptor, 16 + 8 * i) == block as u32)
    }

    pub fn image(&self, disk: &[u8], shape: Shape, i: usize) -> Block {
        let flag = word(self.descriptor(disk, shape), 20 + 8 * i);
        let place = shape.place(self.name.core, self.position as usize + 1 + i);
        unescaped(block_at(disk, place), flag == 1)
    }
}

/// The records of all journals, in order of core and number.
pub struct Records {
    master: Master,
    starts: [usize; CORES + 1],
    items: [Record; MOST],
}

impl Records {
    /// At most so many of each core, from its tail on.
    pub fn read(disk: &[u8], master: Master, most: &[usize; CORES]) -> Records {
        let mut records = Records { master, starts: [0; CORES + 1], items: [Record::default(); MOST] };
        for (c, most) in most.iter().enumerate() {
            let count = if c < master.shape.cores as usize { records.read_core(disk, c, *most) } else { 0 };
            records.starts[c + 1] = records.starts[c] + count;
        }
        records
    }

    fn read_core(&mut self, disk: &[u8], c: usize, most: usize) -> usize {
        let Tail { mut number, position } = self.master.tails[c];
        let (mut used, mut count) = (0, 0);
        while count < most {
            let name = Name { core: c as u8, number };
            let Some(record) = read_record(disk, &self.master, name, position as usize, used) else { break };
            self.items[self.starts[c] + count] = record;
            used += record.count as usize + 2;
            number += 1;
            count += 1;
        }
        count
    }

    pub fn all(&self) -> &[Record] {
        &self.items[..self.starts[CORES]]
    }

    pub fn first_of(&self, c: usize) -> usize {
        self.starts[c]
    }

    pub fn count_of(&self, c: usize) -> usize {
        self.starts[c + 1] - self.starts[c]
    }

    /// Strikes records with an unmet name, and those behind a struck one in its journal, until none goes.
    pub fn valid(&self, disk: &[u8]) -> [bool; MOST] {
        let mut valid = [true; MOST];
        let mut is_done = false;
        while !is_done {
            is_done = true;
            for (i, record) in self.all().iter().enumerate() {
                let follows = self.first_of(record.name.core as usize) == i || valid[i - 1];
                if valid[i] && !(follows && self.names_met(disk, record, &valid)) {
                    valid[i] = false;
                    is_done = false;
                }
            }
        }
        valid
    }

    fn names_met(&self, disk: &[u8], record: &Record, valid: &[bool; MOST]) -> bool {
        let shape = self.master.shape;
        let commit = record.commit(disk, shape);
        let number = |c: usize| self.is_met(c, word(commit, 24 + 4 * c), valid);
        let pair = |i: usize| self.is_met(word(commit, 24 + 8 * i) as usize, word(commit, 28 + 8 * i), valid);
        match self.master.layout {
            Layout::Numbers => (0..shape.cores as usize).all(number),
            Layout::Lists => (0..word(commit, 20) as usize).all(pair),
        }
    }

    /// Below the tail or valid; 0, which stands for none, is below every tail.
    fn is_met(&self, c: usize, number: u32, valid: &[bool; MOST]) -> bool {
        let Some(above) = number.checked_sub(self.master.tails[c].number) else { return true };
        (above as usize) < self.count_of(c) && valid[self.starts[c] + above as usize]
    }

    /// Whether one of lower stamp took one of these blocks.
    pub fn shares_lower(&self, disk: &[u8], oldest: &Record, blocks: &[u8]) -> bool {
        let mut lower = self.all().iter().filter(|record| record.stamp < oldest.stamp);
        lower.any(|record| blocks.iter().any(|block| record.place_of(disk, self.master.shape, *block).is_some()))
    }

    /// The image of highest stamp in the valid set; of equal stamps the last.
    pub fn newest(&self, disk: &[u8], valid: &[bool; MOST], block: u8) -> Option<Block> {
        let members = self.all().iter().zip(valid).filter(|(_, is_valid)| **is_valid);
        let images = members.filter_map(|(record, _)| Some((record, record.place_of(disk, self.master.shape, block)?)));
        let (record, i) = images.max_by_key(|(record, _)| record.stamp)?;
        Some(record.image(disk, self.master.shape, i))
    }
}

/// The record that begins so many blocks past a tail's position, or a miss.
fn read_record(disk: &[u8], master: &Master, name: Name, tail: usize, used: usize) -> Option<Record> {
    let shape = master.shape;
    let start = (tail + used) % shape.journal as usize;
    if name.number > LAST_NUMBER || used + 2 > shape.journal as usize {
        return None;
    }
    let count = read_descriptor(block_at(disk, shape.place(name.core, start)), shape, name.number)?;
    if used + count + 2 > shape.journal as usize {
        return None;
    }
    let stamp = read_commit(block_at(disk, shape.place(name.core, start + count + 1)), master, name.number)?;
    Some(Record { name, stamp, position: start as u8, count: count as u8 })
}

fn has_head(block: &[u8], kind: u32, number: u32) -> bool {
    word(block, 0) == MARK && word(block, 4) == kind && word(block, 8) == number
}

fn read_descriptor(block: &[u8], shape: Shape, number: u32) -> Option<usize> {
    let count = word(block, 12) as usize;
    if !has_head(block, DESCRIPTOR, number) || count > TAKEN {
        return None;
    }
    let home = |i: usize| word(block, 16 + 8 * i);
    let fits = |i: usize| home(i) < shape.blocks as u32 && word(block, 20 + 8 * i) <= 1;
    let is_new = |i: usize| (0..i).all(|j| home(j) != home(i));
    (0..count).all(|i| fits(i) && is_new(i)).then_some(count)
}

/// The stamp of a commit whose fields are in range.
fn read_commit(block: &[u8], master: &Master, number: u32) -> Option<u64> {
    let (cores, named) = (master.shape.cores as usize, word(block, 20) as usize);
    let stamp = (word(block, 12) as u64) << 32 | word(block, 16) as u64;
    if !has_head(block, COMMIT, number) || stamp == 0 {
        return None;
    }
    let is_name = |i: usize| word(block, 24 + 8 * i) < cores as u32 && word(block, 28 + 8 * i) >= 1;
    let fits = match master.layout {
        Layout::Numbers => (cores..CORES).all(|c| word(block, 24 + 4 * c) == 0),
        Layout::Lists => named <= NAMES && (0..named).all(is_name),
    };
    fits.then_some(stamp)
}
