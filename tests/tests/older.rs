// older.rs: the disk that a card of request (c) leaves, whose commits hold lists, is recovered by a card of today with one service book
// for both: after coming up the home area is the book's.

use card_tests::card::{Card, Kind, Outcome, Phase};
use card_tests::checks::{Bench, Checks, Shares};
use card_tests::command::from_hex;
use card_tests::disks::disk_by;
use card_tests::endings;
use card_tests::foreign;
use card_tests::generator::Generator;
use card_tests::layout::{
    put_word, read_master, read_master_in, Block, Layout, Master, Shape, BLOCK, DISK, LAST_TAIL, MARK, MEMORY, ZERO,
};
use card_tests::ledger::{Ledger, Rules};
use card_tests::older::{self, TAPES};
use card_tests::program::generated;
use card_tests::random::Random;
use card_tests::second_reader::{journal_stop, Stop};
use card_tests::sequence;
use card_tests::wrong::{words, Wrong, WrongReader};

const OLDER: Kind = Kind::older(Wrong::No);

#[test]
fn each_tape_tells_its_wrong_card() {
    for (wrong, checks, older, tape) in TAPES {
        let run = |wrong, checks| {
            let mut bench = Bench::new(wrong, checks, None);
            bench.run_handed_over(OLDER, &from_hex(older), &from_hex(tape))
        };
        assert!(run(*wrong, *checks).is_err(), "not caught: {}", words(*wrong));
        run(Wrong::No, Checks::ALL).expect("all checks hold");
    }
}

#[test]
fn disks_of_generated_tapes_are_recovered_as_the_book_says() {
    let mut bench = Bench::new(Wrong::No, Checks::ALL, None);
    bench.set_shares(Shares { foreign: 0, older: 1000 });
    bench.soak(500_000, 61).expect("all checks hold");
    let tally = bench.tally;
    println!(
        "{} disks of older cards, {} recoveries, {} cuts inside one",
        tally.handed_over, tally.recoveries, tally.cuts_in_recovery
    );
    assert!(tally.handed_over > 1000 && tally.cuts_in_recovery > 1000 && tally.answers_before[24] > 100);
}

#[test]
fn a_disk_is_handed_over_between_any_two_commands() {
    let mut bench = Bench::new(Wrong::No, Checks::ALL, None);
    older::run(&mut bench).expect("all checks hold");
    let tally = bench.tally;
    assert!(tally.handed_over == 564 && tally.recoveries >= 2 * 564, "{} disks", tally.handed_over);
}

/// The stores that recovery owes over a disk with lists, without what a card reads: home blocks and images by the ledger, tails by where
/// the second reader stops in each journal, and the closing master word by word, with this one in its bytes 8 to 11.
fn due_stores(disk: &[u8], in_master: u32) -> Vec<(usize, Block)> {
    let master = read_master_in(Layout::Lists, disk).expect("a fit master");
    let Shape { cores, blocks, journal } = master.shape;
    let restores = Ledger::over(disk, &[], Rules::default()).restores.expect("a fit master");
    let mut words = vec![MARK, 4, in_master, cores as u32, blocks as u32, journal as u32];
    for core in 0..cores {
        let Stop { next, .. } = journal_stop(disk, &master, core, WrongReader::No);
        words.extend([(next.number + 1).min(LAST_TAIL), 0]);
    }
    let mut closing = ZERO;
    words.iter().enumerate().for_each(|(i, word)| put_word(&mut closing, 4 * i, *word));
    let home = restores.into_iter().map(|(block, image)| (1 + block as usize, image));
    home.chain([(0, closing)]).collect()
}

/// A card recovers a copy of a disk, with cuts on the way: each answer, each count and every byte of the disk is as due.
fn recovers_as_due(random: &mut Random, kind: Kind, disk: &[u8]) {
    let due = due_stores(disk, kind.layout as u32);
    let mut card = Card::with(Phase::Down, kind);
    let (mut disk, mut memory, mut made) = (disk.to_vec(), vec![0; MEMORY], 0);
    while made < due.len() {
        assert!(card.phase == Phase::Down, "up after {made} of {} stores", due.len());
        let mut after = disk.clone();
        let is_cut = random.chance(100);
        let command = if is_cut { 6 } else { 7 };
        if is_cut {
            made = 0;
        } else {
            let (index, block) = due[made];
            after[index * BLOCK..(index + 1) * BLOCK].copy_from_slice(&block);
            made += 1;
        }
        let outcome = card.command(&mut disk, &mut memory, &[command], 0);
        assert_eq!(outcome, Outcome { answer: 0, stores: !is_cut as u8, next: 1 });
        assert!(disk == after, "{made} of {} stores", due.len());
    }
    assert!(card.phase == Phase::Up);
}

/// Whatever disk has 0 in its master is recovered by its lists, as the ledger and the second reader have it. The closing master of a
/// card of today holds 1, that of an older card 0.
#[test]
fn any_disk_with_lists_is_recovered_as_before() {
    let (mut random, mut generator, mut count) = (Random::new(63), Generator::new(64), 0);
    let mut run = vec![0; DISK];
    for i in 0..6000 {
        let disk = match i % 4 {
            0 => endings::disk(&mut random),
            1 => sequence::disk(&mut random).disk,
            2 => foreign::disk(&mut random, &run),
            _ => {
                run = disk_by(OLDER, &generated(&mut generator, None, 0));
                run.clone()
            }
        };
        if matches!(read_master(&disk), Some(Master { layout: Layout::Lists, .. })) {
            [Kind::default(), OLDER].into_iter().for_each(|kind| recovers_as_due(&mut random, kind, &disk));
            count += 1;
        }
    }
    println!("{count} disks with 0 in the master recovered as due");
    assert!(count > 3000);
}
