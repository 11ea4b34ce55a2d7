// wide.rs: block numbers wider than a byte (paper 02, request f): in every place of a descriptor they end its journal with 2, and
// block B - 1 is read. Cards that narrow them too early are caught over those disks where that makes a difference, and over no other.

use card_tests::card::Card;
use card_tests::checks::{Bench, Checks};
use card_tests::disks::{ends_by, reads_as};
use card_tests::endings::RECOVERED;
use card_tests::layout::{Layout, MEMORY};
use card_tests::random::Random;
use card_tests::second_reader::journal_stop;
use card_tests::wide::{self, each_place, spread, Entry, Made, Sharing, NARROWING};
use card_tests::wrong::{words, Wrong, WrongReader};

fn due_of(made: &Made) -> Vec<(usize, u8)> {
    (0..made.master.shape.cores).map(|core| made.due(core)).collect()
}

#[test]
fn a_wide_number_ends_the_journal_in_every_place() {
    let mut tried = 0;
    each_place(|disk, read, end| {
        reads_as(disk, &[(read, end)]);
        tried += (end == 2) as usize;
    });
    println!("{tried} descriptors end their journal with 2");
}

/// Tells a kind of made disk.
type IsMet = fn(&Made) -> bool;

/// What is to be met on made disks.
const KINDS: [(&str, IsMet); 12] = [
    ("a wide number", is_wide),
    ("in the first place", |made| is_wide(made) && made.chosen.place == 0),
    ("in a middle one", |made| is_wide(made) && (1..entries(made) - 1).contains(&made.chosen.place)),
    ("in the last", |made| is_wide(made) && made.chosen.place == entries(made) - 1),
    ("beside its low byte", |made| made.chosen.entry == Entry::Twice),
    ("in the oldest record", |made| is_wide(made) && made.chosen.record == 0),
    ("in a later one", |made| is_wide(made) && made.chosen.record > 0),
    ("in one that wraps", |made| is_wide(made) && made.wraps()),
    ("with lists", |made| is_wide(made) && made.master.layout == Layout::Lists),
    ("B = 1", |made| is_wide(made) && made.master.shape.blocks == 1),
    ("B = 64", |made| is_wide(made) && made.master.shape.blocks == 64),
    ("block B - 1 in its place", |made| !is_wide(made)),
];

fn is_wide(made: &Made) -> bool {
    made.chosen.entry != Entry::InRange
}

/// The entries of the chosen descriptor.
fn entries(made: &Made) -> usize {
    made.counts[made.chosen.core as usize][made.chosen.record]
}

#[test]
fn made_disks_end_where_they_were_made_to() {
    let (mut random, mut met) = (Random::new(81), [0; KINDS.len()]);
    for _ in 0..10_000 {
        let made = wide::disk(&mut random);
        reads_as(&made.disk, &due_of(&made));
        met.iter_mut().zip(KINDS).for_each(|(count, (_, is_met))| *count += is_met(&made) as usize);
    }
    for (count, (words, _)) in met.iter().zip(KINDS) {
        println!("{words}: {count} disks");
        assert!(*count > 300, "{words}: {count} disks");
    }
}

/// Narrowed first, a number that is alone is read with all behind it, and one beside its low byte is still a block twice. Where only
/// the range is tested on the low byte, both are read. The second reader's switch means the former.
#[test]
fn readers_that_narrow_too_early_read_on() {
    let mut random = Random::new(82);
    for _ in 0..4000 {
        let made = wide::disk(&mut random);
        let whole: Vec<(usize, u8)> = made.counts.iter().map(|counts| (counts.len(), 1)).collect();
        let whole = &whole[..made.master.shape.cores as usize];
        let entry = made.chosen.entry;
        let first = ends_by(&made.disk, Wrong::NarrowedFirst);
        assert_eq!(first, if entry == Entry::Twice { due_of(&made) } else { whole.to_vec() });
        assert_eq!(ends_by(&made.disk, Wrong::NarrowedForRange), whole);
        for (core, (read, end)) in first.iter().enumerate() {
            let stop = journal_stop(&made.disk, &made.master, core as u8, WrongReader::LowByte);
            let number = made.master.tails[core].number + *read as u32;
            assert_eq!((stop.end, stop.next.number), (*end, number));
        }
    }
}

/// Recovery with a cut in it, and generated tapes that go on after it: what is done is as due by the second reader's reading.
#[test]
fn commands_over_made_disks_pass_every_check() {
    let (mut random, mut bench) = (Random::new(83), Bench::new(Wrong::No, Checks::ALL, None));
    for _ in 0..2000 {
        bench.run_tape_over(wide::disk(&mut random).disk, RECOVERED).expect("all checks hold");
    }
    bench.set_disks(|random| wide::disk(random).disk);
    bench.soak(200_000, 84).expect("all checks hold");
    let tally = bench.tally;
    println!("{} commands over {} disks, {} recoveries", tally.commands, tally.foreign_disks, tally.recoveries);
}

#[test]
fn cards_that_narrow_too_early_are_caught() {
    for (wrong, differing) in NARROWING {
        let (mut random, mut caught) = (Random::new(85), 0);
        for _ in 0..1000 {
            let made = wide::disk(&mut random);
            let is_caught = Bench::new(wrong, Checks::ALL, None).run_tape_over(made.disk, RECOVERED).is_err();
            assert_eq!(is_caught, differing.contains(&made.chosen.entry), "{}: {:?}", words(wrong), made.chosen);
            caught += is_caught as usize;
        }
        let usual = Bench::new(wrong, Checks::ALL, None).soak(400_000, 1).expect_err("it is caught").commands;
        println!("{}: caught over {caught} of 1000 disks", words(wrong));
        println!(
            "  by generated tapes over such disks after {}",
            spread("commands", |seed| commands_until_caught(wrong, seed))
        );
        println!("  by generated tapes from any start after {usual} commands");
    }
}

/// By generated tapes over made disks.
fn commands_until_caught(wrong: Wrong, seed: u64) -> u64 {
    let mut bench = Bench::new(wrong, Checks::ALL, None);
    bench.set_disks(|random| wide::disk(random).disk);
    bench.soak(10_000, seed).expect_err("it is caught").commands
}

/// What a card answers to CHECKPOINT and to RETIRE of core 0 and of core 1, each tried first.
fn answers(disk: &[u8], mut card: Card, wrong: Wrong) -> [[u8; 2]; 2] {
    card.kind = wrong.into();
    let answer = |byte, core| {
        let mut card = card;
        card.command(&mut disk.to_vec(), &mut [0; MEMORY], &[byte, core], 0).answer
    };
    [5, 8].map(|byte| [0, 1].map(|core| answer(byte, core)))
}

/// Both answer 31 where the oldest record has a wide number, and see no block shared where another record has one.
#[test]
fn a_checkpoint_shares_no_block_with_a_wide_number() {
    for sharing in Sharing::all() {
        let (disk, card) = sharing.made();
        assert_eq!(answers(&disk, card, Wrong::No), sharing.due(), "{sharing:?}");
        for (wrong, _) in NARROWING {
            assert_eq!(answers(&disk, card, wrong), sharing.due_narrowed(), "{}: {sharing:?}", words(wrong));
        }
    }
}
