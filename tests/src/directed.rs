// directed.rs: disks and tapes made for the worst cases: full journals, names in a chain that strike one a round, and
// transactions with the highest number, stamp and counts. Tapes on which the report task meets its limit.

use crate::command::{Command, Task, Write};
use crate::layout::{
    commit, descriptor, master, read_master, Layout, Master, Name, Shape, Tail, Tails, BLOCK, CORES, DISK, HOMES,
    LAST_NUMBER, LAST_TAIL, NAMES,
};

pub const LARGEST: Shape = Shape { cores: 8, blocks: 64, journal: 24 };

/// A name that no journal of these disks meets.
const UNMET: Name = Name { core: 0, number: 1000 };

/// A disk with a master of this layout and shape, whose first cores have these tails.
pub fn disk_with(layout: Layout, shape: Shape, tails: &[Tail]) -> Vec<u8> {
    let mut all = Tails::default();
    all[..tails.len()].copy_from_slice(tails);
    let mut disk = vec![0; DISK];
    disk[..BLOCK].copy_from_slice(&master(&Master { layout, shape, tails: all }));
    disk
}

/// A whole record put down at a position, as the master asks for. Its images begin with the mark.
pub fn put_record(disk: &mut [u8], name: Name, at: usize, blocks: &[u8], names: &[Name]) {
    let Master { layout, shape, .. } = read_master(disk).expect("a master");
    let mut put = |position: usize, block: &[u8]| {
        let start = shape.place(name.core, position) * BLOCK;
        disk[start..start + block.len()].copy_from_slice(block);
    };
    put(at, &descriptor(name.number, blocks, &vec![true; blocks.len()]));
    for i in 0..blocks.len() {
        put(at + 1 + i, &[0, 0, 0, 0, 7, 8, 9, 10 + i as u8]);
    }
    put(at + 1 + blocks.len(), &commit(layout, name.number, 3, names));
}

/// Puts so many records of so many blocks into each core's journal. Each record names the next one, in order of core and
/// number; the last names one that is never met, or none. Where it is never met, each round strikes one record, the last.
pub fn put_chain(disk: &mut [u8], counts: [usize; CORES], blocks: usize, is_met: bool) {
    let Master { shape, tails, .. } = read_master(disk).expect("a master");
    let cores = (0..shape.cores).flat_map(|core| (0..counts[core as usize]).map(move |i| (core, i)));
    let links: Vec<(u8, usize)> = cores.collect();
    let name_of = |(core, i): (u8, usize)| Name { core, number: tails[core as usize].number + i as u32 };
    for (k, &(core, i)) in links.iter().enumerate() {
        let next = links.get(k + 1).map(|link| name_of(*link)).or((!is_met).then_some(UNMET));
        let homes: Vec<u8> = (0..blocks).map(|b| ((k * blocks + b) % shape.blocks as usize) as u8).collect();
        let at = tails[core as usize].position as usize + i * (blocks + 2);
        put_record(disk, name_of((core, i)), at, &homes, next.as_slice());
    }
}

/// A disk of the largest shape whose journals are full of one chain.
pub fn chain_disk(layout: Layout, blocks: usize, is_met: bool) -> Vec<u8> {
    let mut disk = disk_with(layout, LARGEST, &[Tail { number: 1, position: 0 }; CORES]);
    put_chain(&mut disk, [LARGEST.journal as usize / (blocks + 2); CORES], blocks, is_met);
    disk
}

/// A disk of the largest shape where each core's one transaction has the highest number and stamp, and the most blocks and
/// names: all of these transactions, some twice. What follows it in the journal has a number too high to be read.
pub fn highest_disk(layout: Layout) -> Vec<u8> {
    let position = 20;
    let names: [Name; NAMES] = std::array::from_fn(|i| Name { core: i as u8 % LARGEST.cores, number: LAST_NUMBER });
    let mut disk = disk_with(layout, LARGEST, &[Tail { number: LAST_NUMBER, position }; CORES]);
    for core in 0..LARGEST.cores {
        let (at, name) = (position as usize, Name { core, number: LAST_NUMBER });
        put_record(&mut disk, name, at, &[63, 0, 1, 2, 3, 4, 5, 6], &names);
        put_record(&mut disk, Name { core, number: LAST_TAIL }, at + 10, &[], &[]);
        let stamp = LARGEST.place(core, at + 9) * BLOCK + 12;
        disk[stamp..stamp + 8].fill(0xFF);
    }
    disk
}

fn write(core: u8, block: usize) -> Command {
    Command::Write(Write { task: Task::Lamp, core, block: block as u16, offset: 0, data: [core, block as u8, 1, 2] })
}

/// CLOSE and all stores of a transaction of so many blocks.
pub fn commit_of(core: u8, blocks: usize) -> Vec<Command> {
    let stores = vec![Command::Store { core }; blocks + 2];
    [vec![Command::Close { core }], stores].concat()
}

/// So many home stores, and the store of the master.
pub fn retire_of(core: u8, home_stores: usize) -> Vec<Command> {
    [vec![Command::Checkpoint { core }; home_stores], vec![Command::Retire { core }]].concat()
}

pub const FORMAT: Command = Command::Format { cores: LARGEST.cores, blocks: LARGEST.blocks, journal: LARGEST.journal };

/// The records that `full_tape` leaves in each core's journal.
pub const FULL: [usize; CORES] = [12, 12, 12, 12, 12, 12, 12, 10];

/// Journals full of transactions without blocks: each wrote into a block that a running one holds. The first seven holders
/// are retired; the last one, core 7's, still runs.
pub fn full_tape() -> Vec<Command> {
    let mut commands = vec![FORMAT];
    let mut visits = |holder: u8, visitor: u8| {
        commands.push(write(holder, holder as usize));
        for _ in 0..FULL[visitor as usize] {
            commands.push(write(visitor, holder as usize));
            commands.extend(commit_of(visitor, 0));
        }
        if holder == 0 {
            commands.extend(commit_of(holder, 1));
            commands.extend(retire_of(holder, 1));
        }
    };
    (1..8).for_each(|visitor| visits(0, visitor));
    visits(7, 0);
    commands
}

/// The longest chain that tapes reach: holders of one block each, and between two of them a transaction without blocks that
/// wrote into both. The last holder still runs, so that each round strikes one of those committed. Tells how many these are.
pub fn chain_tape() -> (Vec<Command>, usize) {
    let mut room = [LARGEST.journal as usize; CORES];
    let mut commands = vec![FORMAT, write(0, 0)];
    let (mut holder, mut count) = (0, 0);
    room[0] -= 3;
    for block in 1..HOMES {
        let Some(next) = roomiest(&room, 3, &[holder]) else { break };
        let Some(visitor) = roomiest(&room, 2, &[holder, next]) else { break };
        commands.extend([write(next, block), write(visitor, block - 1), write(visitor, block)]);
        commands.extend(commit_of(visitor, 0));
        commands.extend(commit_of(holder, 1));
        room[next as usize] -= 3;
        room[visitor as usize] -= 2;
        holder = next;
        count += 2;
    }
    (commands, count)
}

/// The core with the most room, at least so much, that is none of those busy.
fn roomiest(room: &[usize; CORES], least: usize, busy: &[u8]) -> Option<u8> {
    let free = (0..CORES as u8).filter(|core| !busy.contains(core) && room[*core as usize] >= least);
    free.max_by_key(|core| room[*core as usize])
}

/// A tape in hex, and what its commands are answered.
pub type Answered = (&'static str, &'static [u8]);

/// Tapes for 36, the report task's block limit (paper 02, request h).
#[rustfmt::skip]
pub const REPORTS: [Answered; 8] = [
    // a fourth block is refused, one that is held is not; command 2 takes it, and byte 9 may then write into it and takes none
    ("01 01 09 18 | 09 00 0000 00 01010101 | 09 00 0001 00 02020202 | 09 00 0002 00 03030303 | 09 00 0003 00 04040404 \
      | 09 00 0001 04 05050505 | 02 00 0003 00 06060606 | 09 00 0003 04 07070707 | 09 00 0004 00 08080808",
        &[0, 0, 0, 0, 36, 0, 0, 0, 36]),
    // 25 before 36: byte 9 opens and command 2 takes up to eight; a ninth by either, one of the eight by either; after CLOSE byte 9 takes
    ("01 01 09 18 | 09 00 0000 00 01010101 | 02 00 0001 00 02020202 | 02 00 0002 00 03030303 | 02 00 0003 00 04040404 \
      | 02 00 0004 00 05050505 | 02 00 0005 00 06060606 | 02 00 0006 00 07070707 | 09 00 0007 00 08080808 \
      | 02 00 0007 00 08080808 | 09 00 0008 00 09090909 | 02 00 0008 00 0A0A0A0A | 09 00 0007 04 0B0B0B0B \
      | 02 00 0000 04 0C0C0C0C | 03 00 | 09 00 0008 00 0D0D0D0D",
        &[0, 0, 0, 0, 0, 0, 0, 0, 36, 0, 25, 25, 0, 0, 0, 0]),
    // 36 before 26: a closed one of three blocks and a running one of three fill the journal
    ("01 01 08 0A | 02 00 0000 00 01010101 | 02 00 0001 00 02020202 | 02 00 0002 00 03030303 | 03 00 \
      | 09 00 0003 00 04040404 | 09 00 0004 00 05050505 | 09 00 0005 00 06060606 | 09 00 0006 00 07070707 \
      | 02 00 0006 00 08080808 | 09 00 0000 04 09090909 | 02 00 0000 04 0A0A0A0A | 09 00 0004 04 0B0B0B0B",
        &[0, 0, 0, 0, 0, 0, 0, 0, 36, 26, 36, 26, 0]),
    // a third block in a journal that is full: both meet 26
    ("01 01 08 0A | 02 00 0000 00 01010101 | 02 00 0001 00 02020202 | 02 00 0002 00 03030303 | 02 00 0003 00 04040404 | 03 00 \
      | 09 00 0004 00 05050505 | 09 00 0005 00 06060606 | 09 00 0006 00 07070707 | 02 00 0006 00 08080808",
        &[0, 0, 0, 0, 0, 0, 0, 0, 26, 26]),
    // closed holders, of the own core and of another, not stored yet and committed; command 2 takes the block of one
    ("01 02 08 18 | 02 00 0000 00 01010101 | 03 00 | 09 01 0001 00 02020202 | 03 01 | 09 00 0002 00 03030303 \
      | 09 00 0003 00 04040404 | 02 00 0004 00 05050505 | 09 00 0000 04 06060606 | 09 00 0001 04 07070707 \
      | 04 00 | 04 00 | 04 00 | 04 01 | 04 01 | 04 01 | 09 00 0000 04 08080808 | 09 00 0001 04 09090909 \
      | 02 00 0001 04 0A0A0A0A | 09 00 0001 08 0B0B0B0B | 09 00 0000 08 0C0C0C0C | 03 00 | 04 00 | 04 00 | 04 00 | 04 00 \
      | 04 00 | 04 00 | 06 | 07 | 07 | 07 | 07 | 07 | 07",
        &[0, 0, 0, 0, 0, 0, 0, 0, 36, 36, 0, 0, 0, 0, 0, 0, 36, 36, 0, 0, 36, 0, 0, 0, 0, 0, 0, 0, 0, 0, 0, 0, 0, 0, 0]),
    // with three blocks, one that a running holder has: both name each other, and core 0's does not commit, so neither comes back
    ("01 02 08 18 | 09 00 0000 00 01010101 | 09 00 0001 00 02020202 | 09 00 0002 00 03030303 | 09 01 0003 00 04040404 \
      | 09 00 0003 04 05050505 | 09 01 0000 04 06060606 | 03 01 | 04 01 | 04 01 | 04 01 | 05 01 | 06 | 07 | 07",
        &[0, 0, 0, 0, 0, 0, 0, 0, 0, 0, 0, 32, 0, 0, 23]),
    // byte 9 takes a closed holder's block and names it; with the holder committed both come back
    ("01 02 01 0A | 09 00 0000 00 C03B3998 | 03 00 | 09 01 0000 04 02020202 | 03 01 | 04 01 | 04 01 | 04 01 | 05 01 \
      | 04 00 | 04 00 | 04 00 | 05 01 | 06 | 07 | 07",
        &[0, 0, 0, 0, 0, 0, 0, 0, 32, 0, 0, 0, 33, 0, 0, 0]),
    // 20; 22, 5, 6 and 7 in their order; operands that end early
    ("09 00 0000 00 01010101 | 01 01 01 0A | 09 01 0001 7D 01010101 | 09 00 0001 7D 01010101 | 09 00 0000 7D 01010101 \
      | 06 | 09 01 0001 7D 01010101 | 09 00 0000 00 010101",
        &[20, 0, 5, 6, 7, 0, 22, 3]),
];
