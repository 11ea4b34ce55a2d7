// journal_page.rs: the library's page of a disk is the model's, line by line, on disks of runs, foreign and damaged ones, journals made
// to end in each way, and slices of a wrong length. Only a buffer of 65 bytes is touched.

use card_library::page::{compared, lay_line, line_count};
use card_tests::command::from_hex;
use card_tests::directed::{chain_disk, highest_disk};
use card_tests::disks::{disk_after, each_disk, P1_UNCUT};
use card_tests::endings;
use card_tests::foreign::{self, SPOILS};
use card_tests::layout::{put_word, read_master, Layout, BLOCK, DISK, HOMES, LAYOUTS};
use card_tests::page::{line_at, page, page_by, Line};
use card_tests::random::Random;
use card_tests::sequence;
use card_tests::wide::{self, each_place};
use card_tests::wrong::PAGES;

/// Tells a kind by the fields of a line and how many transactions its page has.
type IsMet = fn(&[&str], usize) -> bool;

/// The first kinds: the end of a core.
const ENDS: usize = 4;

/// What is to be met.
const KINDS: [(&str, IsMet); 20] = [
    ("end 1", |line, _| line.len() == 2 && line[1] == "1"),
    ("end 2", |line, _| line.len() == 2 && line[1] == "2"),
    ("end 3", |line, _| line.len() == 2 && line[1] == "3"),
    ("end 4", |line, _| line.len() == 2 && line[1] == "4"),
    ("kept", |line, _| line.last() == Some(&"kept")),
    ("left", |line, _| line.last() == Some(&"left")),
    ("the last core", |line, _| line.len() == 6 && line[0] == "7"),
    ("a number of two digits", |line, _| line.len() == 6 && line[1].len() == 2),
    ("a number of ten digits", |line, _| line.len() == 6 && line[1].len() == 10),
    ("a stamp of two digits", |line, _| line.len() == 6 && line[2].len() == 2),
    ("a stamp of ten digits", |line, _| line.len() == 6 && line[2].len() == 10),
    ("a stamp of twenty digits", |line, _| line.len() == 6 && line[2].len() == 20),
    ("no block", |line, _| line.len() == 6 && line[3] == "0"),
    ("eight blocks", |line, _| line.len() == 6 && line[3] == "8"),
    ("no name", |line, _| line.len() == 6 && line[4] == "0"),
    ("eight cores named", |line, _| line.len() == 6 && line[4] == "8"),
    ("no transaction", |line, transactions| line.len() == 3 && transactions == 0),
    ("many transactions", |line, transactions| line.len() == 3 && transactions > 20),
    ("refused with 1", |line, _| line == ["1"]),
    ("refused with 8", |line, _| line == ["8"]),
];

/// How often each kind was met, and how many pages and lines there were.
#[derive(Default)]
struct Met {
    kinds: [usize; KINDS.len()],
    pages: usize,
    lines: usize,
}

impl Met {
    fn count(&mut self, page: &[Line]) {
        self.pages += 1;
        self.lines += page.len();
        let lines: Vec<Vec<&str>> = page.iter().map(fields).collect();
        let transactions = lines.iter().filter(|line| line.len() == 6).count();
        for line in &lines {
            for (count, (_, is_met)) in self.kinds.iter_mut().zip(KINDS) {
                *count += is_met(line, transactions) as usize;
            }
        }
    }

    fn require(&self, least: usize) {
        for (count, (words, _)) in self.kinds.iter().zip(KINDS) {
            assert!(*count >= least, "met {count} times: {words}");
        }
    }
}

fn fields(line: &Line) -> Vec<&str> {
    std::str::from_utf8(line).expect("text").split_whitespace().collect()
}

/// A copy with one to four bits flipped: in the master, anywhere, or mostly in the heads of blocks that its shape uses.
fn damaged(random: &mut Random, disk: &[u8]) -> Vec<u8> {
    let mut copy = disk.to_vec();
    let used = read_master(disk).map_or(DISK / BLOCK, |master| master.shape.used());
    for _ in 0..random.between(1, 4) {
        let at = match random.below(8) {
            0 => random.below(BLOCK),
            1 => random.below(DISK),
            _ => random.below(used) * BLOCK + random.below(32),
        };
        copy[at] ^= 1 << random.below(8);
    }
    copy
}

fn p1_disk() -> Vec<u8> {
    disk_after(&from_hex(P1_UNCUT))
}

/// Every disk of so many generated commands, and beside some of them others: foreign, with made endings, damaged, cut short.
fn compare_pages(commands: u64, seed: u64) -> Met {
    let (mut random, mut met, mut altered) = (Random::new(seed), Met::default(), 0);
    each_disk(commands, seed, |disk| {
        let right = compared(disk);
        met.count(&right);
        if random.chance(100) {
            met.count(&compared(&foreign::disk(&mut random, disk)));
            met.count(&compared(&endings::disk(&mut random)));
        }
        if random.chance(300) {
            let other = compared(&damaged(&mut random, disk));
            met.count(&other);
            altered += (other != right) as usize;
        }
        if random.chance(10) {
            met.count(&compared(&disk[..random.below(DISK)]));
        }
    });
    met.require(100);
    assert!(altered > 1000, "damage altered {altered} pages");
    met
}

#[test]
fn the_page_is_the_models() {
    compare_pages(200_000, 51);
}

#[test]
fn the_ends_are_the_models() {
    let (mut random, mut met) = (Random::new(53), Met::default());
    for _ in 0..4000 {
        met.count(&compared(&endings::disk(&mut random)));
    }
    for (count, (words, _)) in met.kinds.iter().zip(KINDS).take(ENDS) {
        println!("{words}: {count} journals");
        assert!(*count > 0, "never met: {words}");
    }
}

#[test]
fn every_wrong_page_is_told_apart() {
    for (wrong, words) in PAGES {
        let mut random = Random::new(55);
        let mut disks = (0..200).map(|_| endings::disk(&mut random));
        assert!(disks.any(|disk| compared(&disk) != page_by(*wrong, &disk)), "not told apart: {words}");
    }
}

/// Records that name nothing behind one that is left.
#[test]
fn what_follows_one_that_is_left_is_left() {
    let mut random = Random::new(57);
    for _ in 0..2000 {
        let made = sequence::disk(&mut random);
        let lines = compared(&made.disk);
        let left = lines.iter().filter(|line| fields(line).last() == Some(&"left")).count();
        assert_eq!(left, made.read.iter().zip(made.valid).map(|(read, valid)| read - valid).sum::<usize>());
    }
}

/// Where each journal ends, and after how many records, is known from how the disk was made.
#[test]
fn a_block_number_wider_than_a_byte_ends_its_journal() {
    let (mut random, mut ended) = (Random::new(59), 0);
    for _ in 0..4000 {
        let made = wide::disk(&mut random);
        let lines = compared(&made.disk);
        let lines: Vec<Vec<&str>> = lines.iter().map(fields).collect();
        for core in 0..made.master.shape.cores {
            let (text, (read, end)) = (core.to_string(), made.due(core));
            let of_core: Vec<&Vec<&str>> = lines.iter().filter(|line| line.len() != 3 && line[0] == text).collect();
            let (last, transactions) = of_core.split_last().expect("a line with its end");
            assert!(transactions.len() == read && transactions.iter().all(|line| line.len() == 6));
            assert_eq!(**last, [text, end.to_string()]);
            ended += (end == 2) as usize;
        }
    }
    println!("{ended} journals end with 2 at such a number");
}

/// Every place of a descriptor, every low byte, every form of the number.
#[test]
fn a_block_number_is_tested_whole_in_every_place() {
    each_place(|disk, read, end| {
        let mut out = [0; 65];
        assert_eq!(line_count(disk), 2 + read);
        assert_eq!(lay_line(disk, 1 + read, &mut out), 0);
        assert_eq!(fields(&out), ["0".to_string(), end.to_string()]);
    });
}

#[test]
#[ignore = "takes some minutes"]
fn the_page_is_the_models_on_many_disks() {
    let (mut pages, mut lines) = (0, 0);
    for seed in 101..=120 {
        let met = compare_pages(1_000_000, seed);
        (pages, lines) = (pages + met.pages, lines + met.lines);
        println!("seed {seed}: {pages} pages, {lines} lines");
    }
}

#[test]
fn full_journals_are_shown() {
    for layout in LAYOUTS {
        assert_eq!(compared(&highest_disk(layout)).len(), 17);
        for (blocks, is_met, lines) in [(0, false, 105), (0, true, 105), (1, false, 73), (1, true, 73), (8, true, 25)] {
            assert_eq!(compared(&chain_disk(layout, blocks, is_met)).len(), lines);
        }
    }
}

/// Each bit of the master, and of descriptors and commits; and words just outside their range.
#[test]
fn a_flipped_bit_is_read_as_the_model_reads_it() {
    let first = 1 + HOMES;
    let highest = LAYOUTS.map(|layout| (highest_disk(layout), [0, first + 20, first + 5, first + 44, first + 29]));
    for (mut disk, blocks) in [(p1_disk(), [0, 5, 7, 17, 18])].into_iter().chain(highest) {
        for at in blocks.into_iter().flat_map(|block| block * BLOCK..(block + 1) * BLOCK) {
            for bit in 0..8 {
                disk[at] ^= 1 << bit;
                compared(&disk);
                disk[at] ^= 1 << bit;
            }
        }
        for (at, word) in SPOILS {
            let mut spoilt = disk.clone();
            put_word(&mut spoilt, at, word);
            compared(&spoilt);
        }
    }
}

/// The slice begins with a disk that has a page, or that is refused for its master too.
#[test]
fn a_disk_of_another_length_is_refused() {
    for disk in [p1_disk(), highest_disk(Layout::Numbers), vec![0; DISK]] {
        let twice = [&disk[..], &disk].concat();
        let near = (DISK - 16..=DISK + 16).filter(|length| *length != DISK);
        for length in near.chain([0, 1, BLOCK, 2 * DISK]) {
            assert_eq!(compared(&twice[..length]).len(), 1);
        }
    }
}

/// No byte of a page is above 127; those around the buffer and in it are.
#[test]
fn only_a_buffer_of_65_bytes_is_touched() {
    let around: [u8; 200] = std::array::from_fn(|at| 128 | at as u8);
    let disks = [p1_disk(), highest_disk(Layout::Lists), vec![0; DISK], vec![0; DISK + 1], Vec::new()];
    for (disk, length) in disks.iter().flat_map(|disk| (0..=130).map(move |length| (disk, length))) {
        let (right, before) = (page(disk), disk.clone());
        for i in (0..right.len() + 2).chain([1 << 8, 1 << 16, 1 << 32, usize::MAX]) {
            let (mut area, mut due) = (around, around);
            if length == 65 {
                due[30..95].copy_from_slice(&line_at(&right, i));
            }
            let number = lay_line(disk, i, &mut area[30..30 + length]);
            assert_eq!(number, (length != 65) as u8, "a buffer of {length} bytes, line {i}");
            assert!(area == due && *disk == before, "a buffer of {length} bytes, line {i}: a byte that is not due");
        }
    }
}
