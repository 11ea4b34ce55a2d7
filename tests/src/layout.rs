// layout.rs: sizes, the shape of a disk and the bytes of its blocks.

pub const BLOCK: usize = 128;
pub const DISK: usize = 257 * BLOCK;
pub const MEMORY: usize = 128 * BLOCK;
pub const CORES: usize = 8;
pub const HOMES: usize = 64;
pub const TAKEN: usize = 8;
pub const NAMES: usize = 12;

pub const MARK: u32 = 0xC03B_3998;
pub const DESCRIPTOR: u32 = 1;
pub const COMMIT: u32 = 2;
pub const MASTER: u32 = 4;

pub const LAST_NUMBER: u32 = 4_000_000_000;
pub const LAST_TAIL: u32 = 4_000_000_001;

pub type Block = [u8; BLOCK];
pub const ZERO: Block = [0; BLOCK];

/// A transaction by its core and number.
#[derive(Clone, Copy, PartialEq, Eq, Hash, Debug, Default)]
pub struct Name {
    pub core: u8,
    pub number: u32,
}

/// Where a journal begins: the number expected there and its position.
#[derive(Clone, Copy, PartialEq, Eq, Hash, Debug, Default)]
pub struct Tail {
    pub number: u32,
    pub position: u8,
}

pub type Tails = [Tail; CORES];

/// How a commit holds what its transaction names. Bytes 8 to 11 of the master say which: 0 or 1, and nothing else is fit.
#[derive(Clone, Copy, PartialEq, Eq, Hash, Debug, Default)]
pub enum Layout {
    /// Paper 01: up to twelve names.
    Lists = 0,
    /// Paper 02, request d: for each core the highest number named.
    #[default]
    Numbers = 1,
}

pub const LAYOUTS: [Layout; 2] = [Layout::Lists, Layout::Numbers];

impl Layout {
    pub fn of_word(word: u32) -> Option<Layout> {
        LAYOUTS.into_iter().find(|layout| *layout as u32 == word)
    }

    pub fn other(self) -> Layout {
        LAYOUTS[1 - self as usize]
    }
}

/// What a master tells.
#[derive(Clone, Copy, PartialEq, Eq, Debug, Default)]
pub struct Master {
    pub layout: Layout,
    pub shape: Shape,
    pub tails: Tails,
}

/// C, B and J, within their limits.
#[derive(Clone, Copy, PartialEq, Eq, Hash, Debug, Default)]
pub struct Shape {
    pub cores: u8,
    pub blocks: u8,
    pub journal: u8,
}

impl Shape {
    pub fn new(cores: u32, blocks: u32, journal: u32) -> Option<Shape> {
        let fits = (1..=8).contains(&cores) && (1..=64).contains(&blocks) && (4..=24).contains(&journal);
        fits.then_some(Shape { cores: cores as u8, blocks: blocks as u8, journal: journal as u8 })
    }

    pub const SMALLEST: Shape = Shape { cores: 1, blocks: 1, journal: 4 };

    /// A shape that can be worked with: the smallest one where none is known yet.
    pub fn or_smallest(self) -> Shape {
        if self.cores == 0 {
            Shape::SMALLEST
        } else {
            self
        }
    }

    /// The disk block of home block `block`.
    pub fn home(&self, block: u8) -> usize {
        1 + block as usize
    }

    /// The disk block of a place in a core's journal, which counts round modulo J.
    pub fn place(&self, core: u8, position: usize) -> usize {
        self.journal_start(core) + position % self.journal as usize
    }

    pub fn journal_start(&self, core: u8) -> usize {
        1 + self.blocks as usize + core as usize * self.journal as usize
    }

    /// How many disk blocks this shape uses; those beyond are touched by FORMAT alone.
    pub fn used(&self) -> usize {
        self.journal_start(self.cores)
    }
}

pub fn block_at(bytes: &[u8], index: usize) -> &[u8] {
    &bytes[index * BLOCK..(index + 1) * BLOCK]
}

pub fn copy_of(bytes: &[u8], index: usize) -> Block {
    let mut block = ZERO;
    block.copy_from_slice(block_at(bytes, index));
    block
}

pub fn word(bytes: &[u8], at: usize) -> u32 {
    u32::from_be_bytes([bytes[at], bytes[at + 1], bytes[at + 2], bytes[at + 3]])
}

pub fn put_word(bytes: &mut [u8], at: usize, value: u32) {
    bytes[at..at + 4].copy_from_slice(&value.to_be_bytes());
}

fn header(kind: u32, number: u32) -> Block {
    let mut block = ZERO;
    put_word(&mut block, 0, MARK);
    put_word(&mut block, 4, kind);
    put_word(&mut block, 8, number);
    block
}

pub fn master(fields: &Master) -> Block {
    let Master { layout, shape, tails } = fields;
    let mut block = header(MASTER, *layout as u32);
    put_word(&mut block, 12, shape.cores as u32);
    put_word(&mut block, 16, shape.blocks as u32);
    put_word(&mut block, 20, shape.journal as u32);
    for (core, tail) in tails.iter().enumerate().take(shape.cores as usize) {
        put_word(&mut block, 24 + 8 * core, tail.number);
        put_word(&mut block, 28 + 8 * core, tail.position as u32);
    }
    block
}

pub fn descriptor(number: u32, blocks: &[u8], flags: &[bool]) -> Block {
    let mut block = header(DESCRIPTOR, number);
    put_word(&mut block, 12, blocks.len() as u32);
    for (i, (home, flag)) in blocks.iter().zip(flags).enumerate().take(TAKEN) {
        put_word(&mut block, 16 + 8 * i, *home as u32);
        put_word(&mut block, 20 + 8 * i, *flag as u32);
    }
    block
}

/// A commit of a transaction that names these, in either layout.
pub fn commit(layout: Layout, number: u32, stamp: u64, names: &[Name]) -> Block {
    match layout {
        Layout::Lists => list_commit(number, stamp, names),
        Layout::Numbers => number_commit(number, stamp, &highest(names)),
    }
}

fn commit_header(number: u32, stamp: u64) -> Block {
    let mut block = header(COMMIT, number);
    block[12..20].copy_from_slice(&stamp.to_be_bytes());
    block
}

/// One name more than a list may have still has its place in the block.
fn list_commit(number: u32, stamp: u64, names: &[Name]) -> Block {
    let mut block = commit_header(number, stamp);
    put_word(&mut block, 20, names.len() as u32);
    for (pair, name) in block[24..].chunks_exact_mut(8).zip(names) {
        put_word(pair, 0, name.core as u32);
        put_word(pair, 4, name.number);
    }
    block
}

pub fn number_commit(number: u32, stamp: u64, numbers: &[u32; CORES]) -> Block {
    let mut block = commit_header(number, stamp);
    for (core, number) in numbers.iter().enumerate() {
        put_word(&mut block, 24 + 4 * core, *number);
    }
    block
}

/// For each core the highest number named, zero for none.
pub fn highest(names: &[Name]) -> [u32; CORES] {
    let mut numbers = [0; CORES];
    for name in names {
        let highest = &mut numbers[name.core as usize];
        *highest = name.number.max(*highest);
    }
    numbers
}

pub fn begins_with_mark(image: &[u8]) -> bool {
    word(image, 0) == MARK
}

/// An image as it stands in a journal: the mark at its front is zeroed there.
pub fn escaped(image: &[u8]) -> Block {
    let mut block = copy_of(image, 0);
    if begins_with_mark(image) {
        put_word(&mut block, 0, 0);
    }
    block
}

/// The image that a data block of a journal stands for.
pub fn unescaped(data: &[u8], flag: bool) -> Block {
    let mut block = copy_of(data, 0);
    if flag {
        put_word(&mut block, 0, MARK);
    }
    block
}

/// What the master tells, or nothing where RECOVER answers 8.
pub fn read_master(disk: &[u8]) -> Option<Master> {
    read_master_in(Layout::of_word(word(disk, 8))?, disk)
}

/// The same with the layout given, whatever bytes 8 to 11 hold.
pub fn read_master_in(layout: Layout, disk: &[u8]) -> Option<Master> {
    let block = block_at(disk, 0);
    if word(block, 0) != MARK || word(block, 4) != MASTER {
        return None;
    }
    let shape = Shape::new(word(block, 12), word(block, 16), word(block, 20))?;
    let mut tails = Tails::default();
    for (core, tail) in tails.iter_mut().enumerate().take(shape.cores as usize) {
        let (number, position) = (word(block, 24 + 8 * core), word(block, 28 + 8 * core));
        if !(1..=LAST_TAIL).contains(&number) || position >= shape.journal as u32 {
            return None;
        }
        *tail = Tail { number, position: position as u8 };
    }
    Some(Master { layout, shape, tails })
}
