// cells.rs: where the library keeps a card in its cells, the cells of the model's card, and what any cells mean, also as a card of
// the model. Each cell has a field of a width; in a run the bits above it are 0, and where a caller put some there they have no meaning.

use card_tests::card::{Card, Core, Kind, Phase, Transaction};
use card_tests::layout::{highest, Name, Shape, Tail, CORES, HOMES, TAKEN};

pub const CELLS: usize = 423;
pub const PHASE: usize = 0;
pub const SHAPE: usize = 1;
pub const CLOSES: usize = 4;
pub const RECOVERED: usize = 5;
pub const STORES: usize = 6;
pub const TAIL: usize = 7;
pub const HOLDER: usize = 23;
pub const CORE: usize = 87;
pub const CORE_SIZE: usize = 42;
pub const RUNNING: usize = 4;
pub const CLOSED: usize = 23;
/// In a transaction: its blocks, and for each core the highest number that it names.
const BLOCKS: usize = 3;
const HIGHEST: usize = BLOCKS + TAKEN;

pub type Cells = [u64; CELLS];

pub fn name_cell(name: &Name) -> u64 {
    8 * name.number as u64 + name.core as u64
}

pub fn name_in(cell: u64) -> Name {
    Name { core: (cell % 8) as u8, number: (cell / 8) as u32 }
}

fn put_transaction(cells: &mut [u64], transaction: &Transaction) {
    cells[0] = 1;
    cells[1] = transaction.stamp;
    cells[2] = transaction.blocks.len() as u64;
    for (cell, block) in cells[BLOCKS..HIGHEST].iter_mut().zip(transaction.blocks.iter()) {
        *cell = *block as u64;
    }
    cells[HIGHEST..HIGHEST + CORES].copy_from_slice(&highest(&transaction.names).map(u64::from));
}

/// The cells of the model's card after so many stores. The model keeps nothing for cores that its shape has not; the library has
/// tail number `beyond` and position 0 for each, and `beyond` as the number to open next.
pub fn of_card(card: &Card, stores: u64, beyond: u32) -> Cells {
    let mut cells = [0; CELLS];
    cells[PHASE] = card.phase as u64;
    let shape = [card.shape.cores, card.shape.blocks, card.shape.journal];
    cells[SHAPE..SHAPE + 3].copy_from_slice(&shape.map(u64::from));
    cells[CLOSES] = card.closes;
    cells[RECOVERED] = card.place as u64;
    cells[STORES] = stores;
    for (cell, holder) in cells[HOLDER..].iter_mut().zip(&card.holders) {
        *cell = holder.map_or(0, |name| 1 + name_cell(&name));
    }
    for (c, core) in card.cores.iter().enumerate() {
        let is_beyond = c >= card.shape.cores as usize;
        cells[TAIL + 2 * c] = if is_beyond { beyond } else { core.tail.number } as u64;
        cells[TAIL + 2 * c + 1] = core.tail.position as u64;
        let own = &mut cells[CORE + CORE_SIZE * c..CORE + CORE_SIZE * (c + 1)];
        // the library's next number is the running one's until it closes
        let next = core.running.map_or(core.next, |running| running.number);
        own[0] = if is_beyond { beyond } else { next } as u64;
        own[1..RUNNING].copy_from_slice(&[core.length, core.stored, core.home].map(u64::from));
        core.running.iter().for_each(|running| put_transaction(&mut own[RUNNING..CLOSED], running));
        core.closed.iter().for_each(|closed| put_transaction(&mut own[CLOSED..], closed));
    }
    cells
}

/// How the value of a cell is read.
#[derive(Clone, Copy, PartialEq, Debug)]
pub enum Field {
    /// Blank, up, and every other value down.
    Phase,
    /// Zero or not.
    Flag,
    /// So many bits.
    Bits(u32),
    /// 0 for none, else one above a name.
    Holder,
}

/// Bits of a name: three for the core, 32 for the number.
const NAME: u32 = 35;

impl Field {
    /// The field of a cell.
    pub fn at(cell: usize) -> Field {
        match cell {
            PHASE => Field::Phase,
            CLOSES | STORES => Field::Bits(64),
            TAIL..HOLDER => Field::Bits([32, 8][(cell - TAIL) % 2]),
            HOLDER..CORE => Field::Holder,
            CORE.. => Field::of_core((cell - CORE) % CORE_SIZE),
            _ => Field::Bits(8),
        }
    }

    fn of_core(cell: usize) -> Field {
        match cell {
            0 => Field::Bits(32),
            1..RUNNING => Field::Bits(8),
            _ => match (cell - RUNNING) % (CLOSED - RUNNING) {
                0 => Field::Flag,
                1 => Field::Bits(64),
                2..HIGHEST => Field::Bits(8),
                _ => Field::Bits(32),
            },
        }
    }

    /// The value that a run has where this one stands.
    pub fn meaning(self, value: u64) -> u64 {
        match self {
            Field::Phase => value.min(2),
            Field::Flag => value.min(1),
            Field::Bits(width) => low(value, width),
            Field::Holder if value == 0 => 0,
            Field::Holder => 1 + low(value - 1, NAME),
        }
    }
}

fn low(value: u64, width: u32) -> u64 {
    value & 1u64.checked_shl(width).unwrap_or(0).wrapping_sub(1)
}

/// The cells of a run that mean the same.
pub fn meaning(cells: &Cells) -> Cells {
    std::array::from_fn(|i| Field::at(i).meaning(cells[i]))
}

/// The transaction of this number in a core's cells, where there is one.
fn transaction_in(cells: &[u64], number: u32) -> Option<Transaction> {
    let mut found = Transaction { number, stamp: cells[1], ..Transaction::default() };
    cells[BLOCKS..HIGHEST].iter().take(cells[2] as usize).for_each(|block| found.blocks.push(*block as u8));
    let named = cells[HIGHEST..HIGHEST + CORES].iter().enumerate().filter(|(_, number)| **number != 0);
    named.for_each(|(core, number)| found.names.push(Name { core: core as u8, number: *number as u32 }));
    (cells[0] != 0).then_some(found)
}

fn core_in(cells: &Cells, c: usize) -> Core {
    let own = &cells[CORE + CORE_SIZE * c..CORE + CORE_SIZE * (c + 1)];
    let tail = Tail { number: cells[TAIL + 2 * c] as u32, position: cells[TAIL + 2 * c + 1] as u8 };
    // the running one has the next number until it closes, the closed one that before it; the rest from the tail on is committed
    let next = own[0] as u32;
    let running = transaction_in(&own[RUNNING..CLOSED], next);
    let closed = transaction_in(&own[CLOSED..], next.saturating_sub(1));
    let committed = next.saturating_sub(tail.number).saturating_sub(closed.is_some() as u32);
    Core {
        tail,
        next: next.saturating_add(running.is_some() as u32),
        running,
        closed,
        stored: own[2] as u8,
        // no journal has as many records
        committed: committed.min(u8::MAX as u32) as u8,
        length: own[1] as u8,
        home: own[3] as u8,
    }
}

/// The model's card that any cells mean. The shape is read within its limits.
pub fn to_card(cells: &Cells) -> Card {
    let cells = meaning(cells);
    let phase = [Phase::Blank, Phase::Up, Phase::Down][cells[PHASE] as usize];
    let [cores, blocks, journal] =
        [(0, 1, 8), (1, 1, 64), (2, 4, 24)].map(|(i, low, high)| cells[SHAPE + i].clamp(low, high) as u8);
    let holder = |cell: u64| cell.checked_sub(1).map(name_in);
    Card {
        shape: Shape { cores, blocks, journal },
        cores: std::array::from_fn(|c| core_in(&cells, c)),
        holders: std::array::from_fn(|b| holder(cells[HOLDER + b])),
        closes: cells[CLOSES],
        place: cells[RECOVERED] as u8,
        ..Card::with(phase, Kind::default())
    }
}

/// The first cell in which two differ.
pub fn difference(one: &Cells, other: &Cells) -> Option<String> {
    let i = (0..CELLS).find(|i| one[*i] != other[*i])?;
    Some(format!("cell {i} is {}, not {}", one[i], other[i]))
}

const _: () = assert!(TAIL == STORES + 1 && TAIL + 2 * CORES == HOLDER && HOLDER + HOMES == CORE);
const _: () = assert!(CORE + CORES * CORE_SIZE == CELLS);
const _: () = assert!(CLOSED == RUNNING + HIGHEST + CORES && CORE_SIZE == CLOSED + HIGHEST + CORES);
const _: () = assert!(Phase::Blank as u64 == 0 && Phase::Up as u64 == 1 && Phase::Down as u64 == 2);
