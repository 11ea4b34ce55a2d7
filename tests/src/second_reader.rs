// second_reader.rs: another reader of the journals, written apart from the card's own, for the ledger and the checks; it can be made
// wrong in one rule about why reading stops.

use crate::layout::{Block, Layout, Master, Name, Shape, Tail, BLOCK, LAST_NUMBER, MARK};
use crate::ledger::Entry;
use crate::wrong::WrongReader;

type Words = [u32; 32];

/// A disk block as its 32 big-endian words.
fn words(disk: &[u8], index: usize) -> Words {
    let bytes = &disk[BLOCK * index..];
    std::array::from_fn(|i| bytes[4 * i..4 * i + 4].iter().fold(0, |sum, byte| sum * 256 + *byte as u32))
}

/// The disk block so far behind a position of a core's journal.
fn place(shape: Shape, core: u8, start: Tail, distance: usize) -> usize {
    let journal = shape.journal as usize;
    1 + shape.blocks as usize + core as usize * journal + (start.position as usize + distance) % journal
}

/// All transactions that a journal holds whole from its tail on, at most `limit`.
pub fn read_journal(disk: &[u8], master: &Master, core: u8, limit: usize) -> Vec<Entry> {
    let Master { shape, tails, .. } = *master;
    let (journal, tail) = (shape.journal as usize, tails[core as usize]);
    let place = |distance: usize| place(shape, core, tail, distance);
    let (mut found, mut distance) = (Vec::new(), 0);
    while found.len() < limit && distance + 2 <= journal {
        let number = tail.number + found.len() as u32;
        let opening = words(disk, place(distance));
        let Some(blocks) = descriptor_blocks(&opening, shape, number) else { break };
        let end = distance + blocks.len() + 1;
        if end >= journal {
            break;
        }
        let closing = words(disk, place(end));
        let Some(names) = commit_names(&closing, master, number) else { break };
        let images = (0..blocks.len()).map(|i| image(disk, place(distance + 1 + i), opening[5 + 2 * i])).collect();
        let stamp = (closing[3] as u64) * (1 << 32) + closing[4] as u64;
        let stored = blocks.len() + 2;
        found.push(Entry { number, blocks, names, stamp, images, stored, home_stores: 0 });
        distance = end + 1;
    }
    found
}

/// Where the reading of a journal stops: the end, the number and position of the record that is not there, and the blocks left.
#[derive(Clone, Copy, PartialEq, Debug)]
pub struct Stop {
    pub end: u8,
    pub next: Tail,
    pub left: usize,
}

/// Goes from record to record by the conditions of `end_at` alone.
pub fn journal_stop(disk: &[u8], master: &Master, core: u8, reader: WrongReader) -> Stop {
    let shape = master.shape;
    let (mut next, mut left) = (master.tails[core as usize], shape.journal as usize);
    loop {
        if let Some(end) = end_at(disk, master, core, next, left, reader) {
            return Stop { end, next, left };
        }
        let length = 2 + words(disk, place(shape, core, next, 0))[3] as usize;
        let position = (next.position as usize + length) % shape.journal as usize;
        next = Tail { number: next.number + 1, position: position as u8 };
        left -= length;
    }
}

/// The end where a record is looked for with so many blocks left: of all conditions the first that fits. None where a record stands
/// whole.
pub fn end_at(disk: &[u8], master: &Master, core: u8, next: Tail, left: usize, reader: WrongReader) -> Option<u8> {
    let shape = master.shape;
    let opening = words(disk, place(shape, core, next, 0));
    let count = opening[3] as usize;
    let closing = words(disk, place(shape, core, next, 1 + count.min(8)));
    let is_no_commit = |master: Master| commit_names(&closing, &master, next.number).is_none();
    let mut conditions = [
        (1, left == 0),
        (1, next.number > LAST_NUMBER),
        (1, opening[..3] != [MARK, 1, next.number]),
        (2, blocks_in_range(&opening, shape, u32::MAX).is_none()),
        (3, left < count + 2),
        (4, is_no_commit(*master)),
    ];
    match reader {
        WrongReader::No => {}
        WrongReader::FieldsFirst => conditions.swap(2, 3),
        WrongReader::RoomFirst => conditions.swap(3, 4),
        WrongReader::CommitFirst => conditions.swap(4, 5),
        WrongReader::OneLeftIsNone => conditions[0].1 = left < 2,
        WrongReader::NoneLeftUnasked => conditions[0].1 = false,
        WrongReader::LimitLast => {
            conditions[1].0 = 4;
            conditions[1..].rotate_left(1);
        }
        WrongReader::LowByte => conditions[3].1 = blocks_in_range(&opening, shape, 0xFF).is_none(),
        WrongReader::CoreBeyond => {
            conditions[5].1 = is_no_commit(Master { shape: Shape { cores: 8, ..shape }, ..*master })
        }
        WrongReader::UnusedRead => conditions[5].1 |= master.layout == Layout::Numbers && closing[5] != 0,
        WrongReader::OtherLayout => conditions[5].1 = is_no_commit(Master { layout: master.layout.other(), ..*master }),
    }
    conditions.iter().find(|(_, fits)| *fits).map(|(end, _)| *end)
}

/// Words 0 to 3: mark, type 1, number, n; then n pairs of block and flag.
fn descriptor_blocks(block: &Words, shape: Shape, number: u32) -> Option<Vec<u8>> {
    let is_due = block[..3] == [MARK, 1, number] && number <= LAST_NUMBER;
    blocks_in_range(block, shape, u32::MAX).filter(|_| is_due)
}

/// The blocks of n pairs that are in range and distinct; of each block number the bits of the mask are looked at.
fn blocks_in_range(block: &Words, shape: Shape, mask: u32) -> Option<Vec<u8>> {
    let [_, _, _, count, pairs @ ..] = block;
    if *count > 8 {
        return None;
    }
    let pairs = pairs.chunks(2).take(*count as usize).map(|pair| (pair[0] & mask, pair[1]));
    let pairs: Vec<(u32, u32)> = pairs.collect();
    let in_range = pairs.iter().all(|(block, flag)| *block < shape.blocks as u32 && *flag < 2);
    let distinct = pairs.iter().enumerate().all(|(i, (block, _))| pairs[..i].iter().all(|(other, _)| other != block));
    (in_range && distinct).then(|| pairs.iter().map(|(block, _)| *block as u8).collect())
}

/// Words 0 to 4: mark, type 2, number, stamp in two; then what is named.
fn commit_names(block: &Words, master: &Master, number: u32) -> Option<Vec<Name>> {
    let [mark, kind, bearer, high, low, named @ ..] = block;
    if (*mark, *kind, *bearer) != (MARK, 2, number) || (*high, *low) == (0, 0) {
        return None;
    }
    match master.layout {
        Layout::Lists => names_of_list(named, master.shape),
        Layout::Numbers => names_of_numbers(named, master.shape),
    }
}

/// A count, then as many pairs of core and number.
fn names_of_list(words: &[u32], shape: Shape) -> Option<Vec<Name>> {
    let pairs = words[1..].chunks(2).take(words[0] as usize);
    let in_range = words[0] <= 12 && pairs.clone().all(|pair| pair[0] < shape.cores as u32 && pair[1] > 0);
    in_range.then(|| pairs.map(|pair| Name { core: pair[0] as u8, number: pair[1] }).collect())
}

/// A word of any value, then eight numbers, all zero from core C on.
fn names_of_numbers(words: &[u32], shape: Shape) -> Option<Vec<Name>> {
    let (there, beyond) = words[1..9].split_at(shape.cores as usize);
    let names =
        (0..).zip(there).filter(|(_, number)| **number > 0).map(|(core, number)| Name { core, number: *number });
    beyond.iter().all(|number| *number == 0).then(|| names.collect())
}

fn image(disk: &[u8], index: usize, flag: u32) -> Block {
    let mut image = [0; BLOCK];
    image.copy_from_slice(&disk[index * BLOCK..(index + 1) * BLOCK]);
    if flag == 1 {
        image[..4].copy_from_slice(&[0xC0, 0x3B, 0x39, 0x98]);
    }
    image
}
