// ends.rs: why the reading of a journal stops: both sides of each boundary in both layouts, two faults at once, readers that are wrong
// in one rule, and a torn record from its first store until recovery has emptied the journals.

use card_tests::card::Card;
use card_tests::command::from_hex;
use card_tests::directed::{disk_with, put_record};
use card_tests::journal::{Journals, Reader};
use card_tests::layout::{
    commit, descriptor, put_word, read_master, Block, Layout, Name, Shape, Tail, BLOCK, COMMIT, DESCRIPTOR, DISK,
    LAST_NUMBER, LAST_TAIL, LAYOUTS, MARK, MASTER, MEMORY, NAMES,
};
use card_tests::page::page;
use card_tests::second_reader::{end_at, journal_stop};
use card_tests::wrong::{Wrong, WrongReader, READERS};

const SHAPE: Shape = Shape { cores: 3, blocks: 10, journal: 12 };
const J: usize = SHAPE.journal as usize;
const CORE: u8 = 1;
const NUMBER: u32 = 7;

/// A word put at an offset of a block.
type Put = (usize, u32);

/// A journal whose last record may be spoilt. It begins at any position, and may have whole records first.
#[derive(Clone)]
struct Made {
    disk: Vec<u8>,
    tail: Tail,
    /// Blocks before the last record, and how many blocks that one took.
    used: usize,
    count: usize,
    records: usize,
}

/// Blocks that a record takes: neither 0 nor any twice, so that an entry of zeros after the last is in range too.
const TAKEN: [u8; 8] = [9, 1, 2, 3, 4, 5, 6, 7];

fn twelve_names() -> [Name; NAMES] {
    std::array::from_fn(|i| Name { core: i as u8 % SHAPE.cores, number: 1 + i as u32 })
}

impl Made {
    /// A record of so many blocks and with twelve names, and records before it so that so many blocks are left for it.
    fn new(position: usize, number: u32, left: usize, count: usize) -> Made {
        Made::laid(Layout::Numbers, position, number, left, count)
    }

    fn laid(layout: Layout, position: usize, number: u32, left: usize, count: usize) -> Made {
        let tail = Tail { number, position: position as u8 };
        let mut tails = [Tail { number: 1, position: 0 }; 3];
        tails[CORE as usize] = tail;
        let mut made = Made { disk: disk_with(layout, SHAPE, &tails), tail, used: 0, count, records: 0 };
        for length in lengths(J - left) {
            let (name, at) = (made.next(), position + made.used);
            put_record(&mut made.disk, name, at, &TAKEN[..length - 2], &[]);
            made.used += length;
            made.records += 1;
        }
        let number = made.next().number;
        made.put(0, &descriptor(number, &TAKEN[..count], &vec![false; count]));
        if left >= count + 2 {
            made.put(count + 1, &commit(layout, number, 1, &twelve_names()));
        }
        made
    }

    /// A whole record in an empty journal.
    fn whole(position: usize, count: usize) -> Made {
        Made::new(position, NUMBER, J, count)
    }

    fn next(&self) -> Name {
        Name { core: CORE, number: self.tail.number + self.records as u32 }
    }

    fn start(&self, distance: usize) -> usize {
        SHAPE.place(CORE, self.tail.position as usize + self.used + distance) * BLOCK
    }

    fn put(&mut self, distance: usize, block: &Block) {
        let start = self.start(distance);
        self.disk[start..start + BLOCK].copy_from_slice(block);
    }

    fn with_descriptor(mut self, words: &[Put]) -> Made {
        let start = self.start(0);
        words.iter().for_each(|(at, word)| put_word(&mut self.disk, start + at, *word));
        self
    }

    fn with_commit(mut self, words: &[Put]) -> Made {
        let start = self.start(self.count + 1);
        words.iter().for_each(|(at, word)| put_word(&mut self.disk, start + at, *word));
        self
    }

    /// The end of the journal; the last record is read with it or not. Page and second reader agree.
    fn end(&self) -> (u8, bool) {
        let (_, journals) = Journals::of_disk(&self.disk).expect("a fit master");
        let end = journals.ends[CORE as usize].expect("all is read").number();
        let master = read_master(&self.disk).expect("a fit master");
        assert_eq!(journal_stop(&self.disk, &master, CORE, WrongReader::No).end, end);
        let page = page(&self.disk);
        assert_eq!(page[page.len() - 2], *format!("{CORE:2} {end:2}{:59}\n", "").as_bytes());
        let read = journals.of_core(CORE).len();
        assert!(read == self.records || read == self.records + 1);
        (end, read > self.records)
    }

    /// What a reader answers where the last record is looked for, with so many blocks left; 0 is a record.
    fn alone(&self, left: usize, reader: WrongReader) -> u8 {
        let position = (self.tail.position as usize + self.used) % J;
        let next = Tail { number: self.next().number, position: position as u8 };
        let mut master = read_master(&self.disk).expect("a fit master");
        let end = end_at(&self.disk, &master, CORE, next, left, reader).unwrap_or(0);
        if reader == WrongReader::No {
            // with a tail so many blocks further on, all the others are used
            master.tails[CORE as usize].position = ((position + left) % J) as u8;
            let reader = Reader { disk: &self.disk, master, wrong: Wrong::No };
            let read = reader.record(CORE, next.number, J - left);
            assert_eq!(read.map_or_else(|end| end.number(), |_| 0), end);
        }
        end
    }
}

/// Lengths of records that fill so many blocks, which are not just one.
fn lengths(blocks: usize) -> Vec<usize> {
    match blocks {
        0 => vec![],
        2..=10 => vec![blocks],
        _ => vec![blocks - 3, 3],
    }
}

/// The record is read, and nothing stands behind it.
const READ: (u8, bool) = (1, true);

fn missed(end: u8) -> (u8, bool) {
    (end, false)
}

/// Each word alone, in a record at every position of the journal, so that it stands before and behind the journal's end.
fn holds(layout: Layout, words: &[Put], due: (u8, bool), spoilt: impl Fn(Made) -> Made) {
    for position in 0..J {
        let made = Made::laid(layout, position, NUMBER, J, 8);
        assert_eq!(spoilt(made).end(), due, "{words:x?} at position {position}, {layout:?}");
    }
}

fn descriptor_holds(words: &[Put], due: (u8, bool)) {
    LAYOUTS.iter().for_each(|layout| holds(*layout, words, due, |made| made.with_descriptor(words)));
}

fn commit_holds(words: &[Put], due: (u8, bool)) {
    LAYOUTS.iter().for_each(|layout| commit_in_holds(*layout, words, due));
}

fn commit_in_holds(layout: Layout, words: &[Put], due: (u8, bool)) {
    holds(layout, words, due, |made| made.with_commit(words));
}

#[test]
fn end_1_no_descriptor_of_the_expected_number() {
    descriptor_holds(&[], READ);
    for word in
        [(0, 0), (0, MARK ^ 1), (4, 0), (4, COMMIT), (4, MASTER), (4, 257), (8, 0), (8, 6), (8, 8), (8, 7 + 256)]
    {
        descriptor_holds(&[word], missed(1));
    }
}

/// Whatever stands there, a number above the last is not read.
#[test]
fn end_1_the_expected_number_above_the_last() {
    for position in 0..J {
        let [last, above] = [LAST_NUMBER, LAST_TAIL].map(|number| Made::new(position, number, J, 2));
        assert_eq!(last.end(), READ);
        assert_eq!(last.with_commit(&[(4, 1)]).end(), missed(4));
        assert_eq!(above.end(), missed(1));
        assert_eq!(above.clone().with_descriptor(&[(12, 9)]).end(), missed(1));
        assert_eq!(above.with_commit(&[(4, 1)]).end(), missed(1));
        // a record of the last number read first
        let next = Made::new(position, LAST_NUMBER, J - 3, 2);
        assert_eq!((next.end(), next.records), (missed(1), 1));
    }
}

#[test]
fn end_2_the_count() {
    descriptor_holds(&[(12, 8)], READ);
    for count in [9, 10, 256, 264, u32::MAX - 1, u32::MAX] {
        descriptor_holds(&[(12, count)], missed(2));
    }
}

/// The first entry and the last of eight; what stands behind them is not looked at.
#[test]
fn end_2_blocks_and_flags() {
    for entry in [16, 16 + 8 * 7] {
        let other = if entry == 16 { TAKEN[7] } else { TAKEN[0] } as u32;
        // 9 is B - 1, 10 is B; block 0 is none of the record's, and 3 stands there twice
        descriptor_holds(&[(16, 0), (entry, 9)], READ);
        for block in [10, 259, 256, 256 + 9, 1 << 16, 1 << 24, u32::MAX, 3, other] {
            descriptor_holds(&[(entry, block)], missed(2));
        }
        descriptor_holds(&[(entry + 4, 1)], READ);
        for flag in [2, 256, 257, u32::MAX] {
            descriptor_holds(&[(entry + 4, flag)], missed(2));
        }
    }
    descriptor_holds(&[(80, 10), (84, 2), (88, u32::MAX), (124, 9)], READ);
}

/// With n + 1 blocks left the commit has none; with n + 2 it has the last.
#[test]
fn end_3_the_blocks_left() {
    for (position, count) in (0..J).flat_map(|position| (0..=8).map(move |count| (position, count))) {
        let [short, just] = [1, 2].map(|more| Made::new(position, NUMBER, count + more, count));
        assert_eq!(short.end(), missed(3), "{count} blocks at {position}");
        assert_eq!(just.end(), READ, "{count} blocks at {position}");
        assert_eq!(just.with_commit(&[(0, 0)]).end(), missed(4), "{count} blocks at {position}");
        assert_eq!(short.with_descriptor(&[(0, 0)]).end(), missed(1), "{count} blocks at {position}");
    }
}

#[test]
fn one_block_left_is_looked_at() {
    for position in 0..J {
        let one = Made::new(position, NUMBER, 1, 0);
        assert_eq!(one.end(), missed(3));
        assert_eq!(one.clone().with_descriptor(&[(12, 9)]).end(), missed(2));
        assert_eq!(one.clone().with_descriptor(&[(12, 1), (16, 10)]).end(), missed(2));
        assert_eq!(one.with_descriptor(&[(8, NUMBER)]).end(), missed(1));
    }
}

/// In a journal the first record stands there; on a record alone the block fits, and is not looked at.
#[test]
fn end_1_no_block_left() {
    for position in 0..J {
        let mut full = disk_with(Layout::Numbers, SHAPE, &[Tail { number: NUMBER, position: position as u8 }; 3]);
        for i in 0..J / 2 {
            put_record(&mut full, Name { core: CORE, number: NUMBER + i as u32 }, position + 2 * i, &[], &[]);
        }
        let (_, journals) = Journals::of_disk(&full).expect("a fit master");
        assert_eq!((journals.of_core(CORE).len(), journals.ends[1].expect("all is read").number()), (6, 1));
        let fits = Made::whole(position, 0);
        assert_eq!([0, 1, 2].map(|left| fits.alone(left, WrongReader::No)), [1, 3, 0]);
        assert_eq!(fits.with_descriptor(&[(12, 9)]).alone(0, WrongReader::No), 1);
    }
}

#[test]
fn end_4_mark_type_and_number_of_the_commit() {
    commit_holds(&[], READ);
    for word in
        [(0, 0), (0, MARK ^ 1), (4, 0), (4, DESCRIPTOR), (4, MASTER), (4, 258), (8, 0), (8, 6), (8, 8), (8, 7 + 256)]
    {
        commit_holds(&[word], missed(4));
    }
}

#[test]
fn end_4_stamp() {
    commit_holds(&[(12, 0), (16, 0)], missed(4));
    commit_holds(&[(12, 1), (16, 0)], READ);
    commit_holds(&[(12, 0), (16, 1)], READ);
}

/// The shape has three cores. Bytes 20 to 23 are not looked at, nor those from 56 on.
#[test]
fn end_4_numbers() {
    let commit_holds = |words: &[Put], due| commit_in_holds(Layout::Numbers, words, due);
    for unread in [1, 12, 13, 256, u32::MAX] {
        commit_holds(&[(20, unread)], READ);
        commit_holds(&[(56, unread), (60, unread), (124, unread)], READ);
    }
    for number in [0, 1, 6, 7, 8, LAST_TAIL, u32::MAX] {
        (0..3).for_each(|core| commit_holds(&[(24 + 4 * core, number)], READ));
        (3..8).for_each(|core| commit_holds(&[(24 + 4 * core, number)], if number == 0 { READ } else { missed(4) }));
    }
    commit_holds(&[(24, 0), (28, 0), (32, 0)], READ);
    commit_holds(&[(52, 1 << 24)], missed(4));
}

#[test]
fn end_4_lists() {
    let commit_holds = |words: &[Put], due| commit_in_holds(Layout::Lists, words, due);
    // a thirteenth name in range, which is not looked at before
    commit_holds(&[(20, 12), (120, 0), (124, 1)], READ);
    for count in [13, 256, 268, u32::MAX] {
        commit_holds(&[(20, count), (120, 0), (124, 1)], missed(4));
    }
    commit_holds(&[(120, 3), (124, 0)], READ);
    for name in [24, 24 + 8 * 11] {
        commit_holds(&[(name, 2)], READ);
        for core in [3, 8, 256, 1 << 24, u32::MAX] {
            commit_holds(&[(name, core)], missed(4));
        }
        commit_holds(&[(name + 4, 0)], missed(4));
        commit_holds(&[(name + 4, 1)], READ);
        commit_holds(&[(name + 4, u32::MAX)], READ);
    }
    commit_holds(&[(20, 0), (24, 3), (28, 0)], READ);
}

/// Faults of two ends in one record: the first is answered.
#[test]
fn the_first_that_fits_is_answered() {
    for position in 0..J {
        let whole = || Made::whole(position, 2);
        let short = || Made::new(position, NUMBER, 3, 2);
        let no_commit = [(0, 0)];
        // 1 and 2, 1 and 3, 1 and 4
        assert_eq!(whole().with_descriptor(&[(4, COMMIT), (12, 9)]).end(), missed(1));
        assert_eq!(whole().with_descriptor(&[(8, 8), (20, 2)]).end(), missed(1));
        assert_eq!(short().with_descriptor(&[(0, 0)]).end(), missed(1));
        assert_eq!(whole().with_descriptor(&[(0, 0)]).with_commit(&no_commit).end(), missed(1));
        // 2 and 3, 2 and 4
        assert_eq!(short().with_descriptor(&[(20, 2)]).end(), missed(2));
        assert_eq!(short().with_descriptor(&[(24, 9)]).end(), missed(2));
        assert_eq!(short().with_descriptor(&[(12, 9)]).end(), missed(2));
        assert_eq!(whole().with_descriptor(&[(16, 259)]).with_commit(&no_commit).end(), missed(2));
        // 3 and 4; and 3 by itself, with a commit where it is not looked for
        assert_eq!(whole().with_commit(&no_commit).alone(3, WrongReader::No), 3);
        assert_eq!(whole().alone(3, WrongReader::No), 3);
    }
}

/// For each wrong reader a record, the blocks left, the right answer and the wrong one; 0 is a record read.
#[test]
fn each_wrong_reader_is_told_apart_by_a_record() {
    let whole = || Made::whole(11, 2);
    let cases = [
        // bytes that are no descriptor, where a count would be out of range
        (WrongReader::FieldsFirst, whole().with_descriptor(&[(0, 0), (12, 9)]), J, 1, 2),
        // a flag of 2, and no block for the commit
        (WrongReader::RoomFirst, whole().with_descriptor(&[(20, 2)]), 3, 2, 3),
        // neither a block for the commit nor one where it would stand
        (WrongReader::CommitFirst, whole().with_commit(&[(0, 0)]), 3, 3, 4),
        // a good descriptor in the last block
        (WrongReader::OneLeftIsNone, whole(), 1, 3, 1),
        // a good descriptor, but no block is left that it could stand in
        (WrongReader::NoneLeftUnasked, whole(), 0, 1, 3),
        // a whole record of the first number above the last
        (WrongReader::LimitLast, Made::new(11, LAST_TAIL, J, 2), J, 1, 4),
        // a whole record that names block 259
        (WrongReader::LowByte, whole().with_descriptor(&[(16, 259)]), J, 2, 0),
        // a number for the first core that the shape has not
        (WrongReader::CoreBeyond, whole().with_commit(&[(24 + 4 * 3, 1)]), J, 4, 0),
        // as many names as no list has, where numbers stand
        (WrongReader::UnusedRead, whole().with_commit(&[(20, 13)]), J, 0, 4),
        (WrongReader::OtherLayout, whole().with_commit(&[(20, 13)]), J, 0, 4),
    ];
    assert_eq!(
        cases.each_ref().map(|(reader, ..)| *reader).to_vec(),
        READERS.iter().map(|(r, _)| *r).collect::<Vec<_>>()
    );
    for ((reader, made, left, right, wrong), (_, words)) in cases.into_iter().zip(READERS) {
        let answers = (made.alone(left, WrongReader::No), made.alone(left, reader));
        assert_eq!(answers, (right, wrong), "{words}");
    }
}

/// The end of each journal after each command of a tape on a blank card.
fn ends_of(tape: &str) -> Vec<String> {
    let (tape, mut offset, mut card) = (from_hex(tape), 0, Card::blank());
    let (mut disk, mut memory, mut all) = (vec![0; DISK], vec![0; MEMORY], Vec::new());
    while offset < tape.len() {
        let outcome = card.command(&mut disk, &mut memory, &tape, offset);
        assert_eq!(outcome.answer, 0);
        offset = outcome.next;
        let (_, journals) = Journals::of_disk(&disk).expect("a fit master");
        all.push(journals.ends.iter().flatten().map(|end| end.number().to_string()).collect());
    }
    all
}

/// End 4 from the first store of a record to the last. A cut leaves it standing, and so do the home stores of recovery.
#[test]
fn a_torn_record_is_told_from_a_clean_end() {
    let format_write_close = ["01 02 02 06", "02 00 0000 00 01020304", "03 00"];
    let core_0_stored = ["04 00", "04 00", "04 00"];
    let core_1_torn = ["02 01 0001 00 05060708", "03 01", "04 01", "04 01"];
    let cut_and_recovered = ["06", "07", "06", "07", "07"];
    let tape = [&format_write_close[..], &core_0_stored, &core_1_torn, &cut_and_recovered].concat().join(" ");
    let due = "11 11 11 | 41 41 11 | 11 11 14 14 | 14 14 14 14 11";
    let due: Vec<&str> = due.split_whitespace().filter(|word| *word != "|").collect();
    assert_eq!(ends_of(&tape), due);
}
