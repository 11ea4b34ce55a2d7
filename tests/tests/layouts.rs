// layouts.rs: a disk is read by lists or by numbers as its master tells, and foreign disks meet what makes a difference there.

use card_tests::card::Card;
use card_tests::directed::disk_with;
use card_tests::disks::each_disk;
use card_tests::endings;
use card_tests::foreign::{self, put};
use card_tests::journal::{Journals, Reader};
use card_tests::layout::{
    block_at, commit, descriptor, highest, put_word, read_master, word, Layout, Master, Name, Shape, Tail, BLOCK,
    CORES, LAYOUTS, MEMORY, NAMES,
};
use card_tests::page::{page, print_page};
use card_tests::random::Random;
use card_tests::second_reader::{journal_stop, read_journal, Stop};
use card_tests::wrong::{Wrong, WrongReader};
use std::collections::BTreeMap;

/// Numbers 8 to 11 of a core, named in any order: the highest is held, not the last or the first.
#[test]
fn a_commit_holds_the_highest_number_of_each_core() {
    let of = |core, number| Name { core, number };
    let names = [of(2, 9), of(0, 10), of(2, 11), of(7, 1), of(0, 9), of(2, 8), of(0, 10)];
    assert_eq!(highest(&names), [10, 0, 11, 0, 0, 0, 0, 1]);
    let block = commit(Layout::Numbers, 5, 3, &names);
    let numbers: Vec<u32> = (24..56).step_by(4).map(|at| word(&block, at)).collect();
    assert_eq!((word(&block, 20), numbers), (0, vec![10, 0, 11, 0, 0, 0, 0, 1]));
    assert!(block[56..].iter().all(|byte| *byte == 0));
    let list = commit(Layout::Lists, 5, 3, &names);
    assert_eq!((word(&list, 20), word(&list, 24), word(&list, 28), word(&list, 32)), (7, 2, 9, 0));
    assert!(block[..20] == list[..20]);
}

/// A disk whose one commit names core 0's fifth as a list, and core 1's as numbers.
fn read_both_ways(in_master: u32) -> Vec<u8> {
    let shape = Shape { cores: 2, blocks: 1, journal: 4 };
    let mut disk = disk_with(Layout::Lists, shape, &[Tail { number: 3, position: 0 }, Tail { number: 6, position: 0 }]);
    put(&mut disk, shape.place(0, 0), &descriptor(3, &[], &[]));
    put(&mut disk, shape.place(0, 1), &commit(Layout::Lists, 3, 1, &[Name { core: 0, number: 5 }]));
    put_word(&mut disk, 8, in_master);
    disk
}

#[test]
fn the_master_tells_the_layout() {
    for (in_master, due, kept) in [(0, Name { core: 0, number: 5 }, "left"), (1, Name { core: 1, number: 5 }, "kept")] {
        let disk = read_both_ways(in_master);
        let (_, journals) = Journals::of_disk(&disk).expect("a fit master");
        assert_eq!(journals.records[0].names[..], [due]);
        let second = read_journal(&disk, &read_master(&disk).expect("a fit master"), 0, usize::MAX);
        assert_eq!(second[0].names, [due]);
        assert_eq!(page(&disk)[1][41..45], *kept.as_bytes());
    }
    for in_master in [2, 3, 256, 257, 1 << 16, 1 << 24, u32::MAX] {
        let mut disk = read_both_ways(in_master);
        assert!(read_master(&disk).is_none() && Journals::of_disk(&disk).is_err(), "{in_master}");
        assert_eq!(Card::down().command(&mut disk, &mut [0; MEMORY], &[7], 0).answer, 8);
        assert_eq!(print_page(&disk), format!(" 8{:62}\n", ""));
    }
}

/// What was met on foreign disks.
#[derive(Default, Debug)]
struct Met {
    /// Masters by their bytes 8 to 11, where all else is fit.
    masters: BTreeMap<u32, usize>,
    /// Commits of numbers that are read, though bytes 20 to 23 are not zero; and such where those behind the numbers are not.
    filled: usize,
    filled_behind: usize,
    /// Commits that are none for a number of a core not below C alone, or for a thirteenth name alone.
    core_beyond: usize,
    thirteenth: usize,
    /// Disks that would be read otherwise in the other layout.
    told_apart: [usize; 2],
}

impl Met {
    fn count(&mut self, disk: &[u8]) {
        let [lists, numbers] = LAYOUTS.map(|layout| with_layout(disk, layout));
        if read_master(&lists).is_none() {
            return;
        }
        *self.masters.entry(word(disk, 8)).or_default() += 1;
        let Some(master) = read_master(disk) else { return };
        let read = |disk: &[u8]| Journals::of_disk(disk).map(|(_, journals)| (journals.records, journals.ends));
        self.told_apart[master.layout as usize] += (read(&lists) != read(&numbers)) as usize;
        (0..master.shape.cores).for_each(|core| self.count_core(disk, &master, core));
    }

    fn count_core(&mut self, disk: &[u8], master: &Master, core: u8) {
        let Stop { end, next, .. } = journal_stop(disk, master, core, WrongReader::No);
        let (_, journals) = Journals::of_disk(disk).expect("a fit master");
        let is_numbers = master.layout == Layout::Numbers;
        for record in journals.of_core(core) {
            let at = record.position as usize + record.length() - 1;
            let commit = block_at(disk, master.shape.place(core, at));
            self.filled += (is_numbers && word(commit, 20) != 0) as usize;
            self.filled_behind += (is_numbers && commit[24 + 4 * CORES..].iter().any(|byte| *byte != 0)) as usize;
        }
        if end == 4 {
            self.count_miss(disk, master, core, next);
        }
    }

    /// Without the fault the commit would be read.
    fn count_miss(&mut self, disk: &[u8], master: &Master, core: u8, next: Tail) {
        let count = word(block_at(disk, master.shape.place(core, next.position as usize)), 12) as usize;
        let at = master.shape.place(core, next.position as usize + count + 1) * BLOCK;
        let mut mended = disk.to_vec();
        match master.layout {
            Layout::Numbers => mended[at + 24 + 4 * master.shape.cores as usize..at + 24 + 4 * CORES].fill(0),
            Layout::Lists if word(&mended[at..], 20) == NAMES as u32 + 1 => put_word(&mut mended[at..], 20, 12),
            Layout::Lists => return,
        }
        let mut tails = master.tails;
        tails[core as usize] = next;
        let reader = Reader { disk: &mended, master: Master { tails, ..*master }, wrong: Wrong::No };
        let is_read = reader.record(core, next.number, 0).is_ok() as usize;
        match master.layout {
            Layout::Numbers => self.core_beyond += is_read,
            Layout::Lists => self.thirteenth += is_read,
        }
    }
}

fn with_layout(disk: &[u8], layout: Layout) -> Vec<u8> {
    let mut copy = disk.to_vec();
    put_word(&mut copy, 8, layout as u32);
    copy
}

#[test]
fn foreign_disks_meet_both_layouts() {
    let (mut met, mut random) = (Met::default(), Random::new(71));
    each_disk(100_000, 71, |disk| {
        if random.chance(300) {
            met.count(&foreign::disk(&mut random, disk));
            met.count(&endings::disk(&mut random));
        }
    });
    println!("{met:?}");
    for in_master in [0, 1, 2, 256, 1 << 24, u32::MAX] {
        assert!(met.masters.get(&in_master).is_some_and(|count| *count >= 10), "{in_master} in the master");
    }
    let counts = [met.filled, met.filled_behind, met.core_beyond, met.thirteenth, met.told_apart[0], met.told_apart[1]];
    assert!(counts.iter().all(|count| *count >= 100), "{met:?}");
}
