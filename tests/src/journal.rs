// journal.rs: reading records from the journals and why it stops, the valid set of what was read, and the newest image of a block.

use crate::few::Few;
use crate::layout::{
    block_at, read_master, unescaped, word, Block, Layout, Master, Name, Shape, Tails, COMMIT, CORES, DESCRIPTOR,
    LAST_NUMBER, MARK, NAMES, TAKEN,
};
use crate::order::Order;
use crate::wrong::Wrong;

/// One committed transaction as its journal tells it.
#[derive(Clone, Copy, PartialEq, Eq, Debug, Default)]
pub struct Record {
    pub core: u8,
    pub number: u32,
    pub position: u8,
    pub stamp: u64,
    pub blocks: Few<u8, TAKEN>,
    pub flags: Few<bool, TAKEN>,
    pub names: Few<Name, NAMES>,
}

impl Record {
    pub fn name(&self) -> Name {
        Name { core: self.core, number: self.number }
    }

    /// Journal blocks of this record: descriptor, data, commit.
    pub fn length(&self) -> usize {
        self.blocks.len() + 2
    }

    pub fn image(&self, disk: &[u8], shape: Shape, i: usize) -> Block {
        let place = shape.place(self.core, self.position as usize + 1 + i);
        unescaped(block_at(disk, place), self.flags[i])
    }

    /// The different cores named.
    pub fn cores_named(&self) -> usize {
        (0..CORES as u8).filter(|core| self.names.iter().any(|name| name.core == *core)).count()
    }

    pub fn took(&self, block: u8) -> bool {
        self.blocks.contains(&block)
    }

    pub fn shares_a_block(&self, others: &[u8]) -> bool {
        others.iter().any(|block| self.took(*block))
    }
}

/// Why no record is read where one is looked for; the first that fits.
#[derive(Clone, Copy, PartialEq, Eq, Debug)]
pub enum End {
    /// No descriptor of the expected number, that number above the last, or no block left for one.
    NoDescriptor = 1,
    /// A field of the descriptor out of range, or a block twice.
    UnfitDescriptor = 2,
    /// Too few blocks left for data and commit.
    TooFewLeft = 3,
    /// No commit of that number with its fields in range.
    NoCommit = 4,
}

impl End {
    pub fn number(self) -> u8 {
        self as u8
    }
}

/// All records read, in order of core and number.
pub struct Journals {
    pub records: Vec<Record>,
    pub tails: Tails,
    /// Of each core that is there; none where as many records were read as were asked for.
    pub ends: [Option<End>; CORES],
    starts: [usize; CORES + 1],
}

/// A set of records, one bit for each place in `Journals::records` (at most 8 x 12).
pub type Set = u128;

impl Journals {
    /// The shape of a disk and its whole journals, as recovery reads them; 8 where the master is unfit.
    pub fn of_disk(disk: &[u8]) -> Result<(Shape, Journals), u8> {
        let master = read_master(disk).ok_or(8)?;
        let reader = Reader { disk, master, wrong: Wrong::No };
        Ok((master.shape, Journals::read(reader, &[usize::MAX; CORES])))
    }

    /// Reads at most `limits[core]` records of each core, from its tail on.
    pub fn read(reader: Reader, limits: &[usize; CORES]) -> Journals {
        let Master { shape, tails, .. } = reader.master;
        let (records, ends, starts) = (Vec::new(), [None; CORES], [0; CORES + 1]);
        let mut all = Journals { records, tails, ends, starts };
        for (core, limit) in limits.iter().enumerate() {
            all.starts[core] = all.records.len();
            if core < shape.cores as usize {
                all.ends[core] = reader.journal(core as u8, *limit, &mut all.records);
            }
        }
        all.starts[CORES] = all.records.len();
        if reader.wrong == Wrong::StartNotAdvanced {
            all.records = all.wrongly_started();
        }
        all
    }

    /// Behind a core that was cut short the next one's records are taken from the same start, and so on with those behind it.
    fn wrongly_started(&self) -> Vec<Record> {
        let (mut start, mut taken) = (0, Vec::new());
        for (core, end) in self.ends.iter().enumerate() {
            let own = self.of_core(core as u8);
            let others = own.iter().zip(&self.records[start..]);
            taken.extend(others.map(|(own, other)| Record { core: own.core, number: own.number, ..*other }));
            let is_cut_short = end.is_some_and(|end| end != End::NoDescriptor);
            start += if is_cut_short { 0 } else { own.len() };
        }
        taken
    }

    pub fn of_core(&self, core: u8) -> &[Record] {
        &self.records[self.starts[core as usize]..self.starts[core as usize + 1]]
    }

    pub fn first_of(&self, core: u8) -> usize {
        self.starts[core as usize]
    }

    pub fn everything(&self) -> Set {
        (0..self.records.len()).fold(0, |set, i| set | 1 << i)
    }

    /// A name is met in a set where it is a member or lies below its core's tail number.
    pub fn is_met(&self, name: Name, set: Set) -> bool {
        let Some(above) = name.number.checked_sub(self.tails[name.core as usize].number) else { return true };
        let read = self.of_core(name.core).len();
        (above as usize) < read && set >> (self.first_of(name.core) + above as usize) & 1 == 1
    }

    /// One round: those of a set go of which something that they require is not met in it, a name or the one before.
    pub fn struck(&self, set: Set, order: Order) -> Set {
        let mut left = set;
        for (i, record) in self.records.iter().enumerate() {
            let mut required = record.names.iter().copied().chain(order.before(record.name()));
            if required.any(|name| !self.is_met(name, set)) {
                left &= !(1 << i);
            }
        }
        left
    }

    /// The largest set within this one in which all that is required is met: strike until none goes.
    pub fn valid(&self, set: Set, order: Order) -> Set {
        let left = self.struck(set, order);
        if left == set {
            set
        } else {
            self.valid(left, order)
        }
    }

    /// The member that holds the newest image of a block: highest stamp, and of equal ones the last in order.
    pub fn newest(&self, block: u8, set: Set) -> Option<&Record> {
        let members = self.records.iter().enumerate().filter(|(i, _)| set >> i & 1 == 1).map(|(_, record)| record);
        members.filter(|record| record.took(block)).max_by_key(|record| record.stamp)
    }
}

/// Reads the records of a disk by what its master tells, or the card that is up.
#[derive(Clone, Copy)]
pub struct Reader<'a> {
    pub disk: &'a [u8],
    pub master: Master,
    pub wrong: Wrong,
}

impl Reader<'_> {
    /// Reads on until there is no record, and says why, or until the limit.
    fn journal(&self, core: u8, limit: usize, out: &mut Vec<Record>) -> Option<End> {
        let (mut number, mut used) = (self.master.tails[core as usize].number, 0);
        for _ in 0..limit {
            match self.record(core, number, used) {
                Ok(record) => {
                    used += record.length();
                    number += 1;
                    out.push(record);
                }
                Err(end) => return Some(end),
            }
        }
        None
    }

    /// The record that begins `used` blocks after the tail, or why there is none.
    pub fn record(&self, core: u8, number: u32, used: usize) -> Result<Record, End> {
        let Master { shape, tails, .. } = self.master;
        let start = (tails[core as usize].position as usize + used) % shape.journal as usize;
        let left = (shape.journal as usize).saturating_sub(used);
        let mut record = Record { core, number, position: start as u8, ..Record::default() };
        let first = block_at(self.disk, shape.place(core, start));
        if left == 0 || number > LAST_NUMBER || !is_headed(first, DESCRIPTOR, number) {
            return Err(End::NoDescriptor);
        }
        self.entries(first, &mut record).ok_or(End::UnfitDescriptor)?;
        if left < record.length() + (self.wrong == Wrong::LastOfFullUnread) as usize {
            return Err(End::TooFewLeft);
        }
        let last = block_at(self.disk, shape.place(core, start + record.blocks.len() + 1));
        self.commit(last, &mut record).ok_or(End::NoCommit)?;
        Ok(record)
    }

    fn entries(&self, block: &[u8], record: &mut Record) -> Option<()> {
        let (count, mut taken) = (word(block, 12), Few::<u32, TAKEN>::new());
        if count > TAKEN as u32 {
            return None;
        }
        for i in 0..count as usize {
            let (number, flag) = (word(block, 16 + 8 * i), word(block, 20 + 8 * i));
            let (home, told_apart) = match self.wrong {
                Wrong::NarrowedFirst => (number % 256, number % 256),
                Wrong::NarrowedForRange => (number % 256, number),
                _ => (number, number),
            };
            if home >= self.master.shape.blocks as u32 || flag > 1 || taken.contains(&told_apart) {
                return None;
            }
            taken.push(told_apart);
            record.blocks.push(home as u8);
            record.flags.push(flag == 1);
        }
        Some(())
    }

    fn commit(&self, block: &[u8], record: &mut Record) -> Option<()> {
        record.stamp = (word(block, 12) as u64) << 32 | word(block, 16) as u64;
        if !is_headed(block, COMMIT, record.number) || record.stamp == 0 {
            return None;
        }
        match self.master.layout {
            Layout::Lists => self.list(block, record),
            Layout::Numbers => self.numbers(block, record),
        }
    }

    fn list(&self, block: &[u8], record: &mut Record) -> Option<()> {
        let count = word(block, 20);
        if count > NAMES as u32 {
            return None;
        }
        for i in 0..count as usize {
            let (core, number) = (word(block, 24 + 8 * i), word(block, 28 + 8 * i));
            if core >= self.master.shape.cores as u32 || number == 0 {
                return None;
            }
            record.names.push(Name { core: core as u8, number });
        }
        Some(())
    }

    /// Of a core that is not there no number may stand; bytes 20 to 23 are not looked at.
    fn numbers(&self, block: &[u8], record: &mut Record) -> Option<()> {
        if self.wrong == Wrong::UnusedBytesRead && word(block, 20) != 0 {
            return None;
        }
        for core in 0..CORES as u8 {
            let number = word(block, 24 + 4 * core as usize);
            match self.wrong {
                _ if number == 0 => {}
                _ if core < self.master.shape.cores => record.names.push(Name { core, number }),
                Wrong::CoreBeyondUnread => {}
                Wrong::CoreBeyondNamed => record.names.push(Name { core, number }),
                _ => return None,
            }
        }
        Some(())
    }
}

fn is_headed(block: &[u8], kind: u32, number: u32) -> bool {
    word(block, 0) == MARK && word(block, 4) == kind && word(block, 8) == number
}
