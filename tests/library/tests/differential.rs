// differential.rs: the library does what the model does, and the comparison tells every wrong card apart.

use card_library::cells::CELLS;
use card_library::session::Session;
use card_library::stage::Stage;
use card_library::watcher::Library;
use card_tests::card::Kind;
use card_tests::checks::{Bench, Checks, Failure, Shares};
use card_tests::command::from_hex;
use card_tests::directed::REPORTS;
use card_tests::endings;
use card_tests::layout::{BLOCK, DISK, MEMORY};
use card_tests::older;
use card_tests::random::Random;
use card_tests::recovered::recovered;
use card_tests::runs;
use card_tests::sequence;
use card_tests::wide;
use card_tests::wrong::{caught_by_generated, words, Wrong};

fn differs(wrong: Wrong, commands: u64, seed: u64) -> Option<String> {
    let mut library = Library::default();
    let mut bench = Bench::new(wrong, Checks::NONE, Some(&mut library));
    bench.soak(commands, seed).err().map(|failure| failure.detail)
}

#[test]
fn the_library_does_what_the_model_does() {
    let first = std::thread::spawn(|| differs(Wrong::No, 1_000_000, 21));
    assert_eq!(differs(Wrong::No, 1_000_000, 22), None);
    assert_eq!(first.join().expect("it ends"), None);
}

#[test]
fn the_library_recovers_made_endings_as_the_model_does() {
    let (mut random, mut library) = (Random::new(23), Library::default());
    let mut bench = Bench::new(Wrong::No, Checks::NONE, Some(&mut library));
    for _ in 0..2000 {
        bench.run_tape_over(endings::disk(&mut random), endings::RECOVERED).expect("the same");
    }
}

/// With as many RECOVERs as blocks are held and one more, each of them done, the card is up with the area that the disk gives.
#[test]
fn the_library_brings_back_what_the_disk_gives() {
    let (mut random, mut stage) = (Random::new(29), Stage::<Session>::default());
    for _ in 0..1000 {
        for disk in [endings::disk(&mut random), wide::disk(&mut random).disk, runs::any_disk(&mut random)] {
            let due = recovered(&disk).expect("a fit master");
            stage.start(true, &disk, &[0x5A; MEMORY]);
            for _ in 0..=due.held {
                assert_eq!(stage.card.read_number(0, &stage.disk, &stage.memory), 22);
                assert_eq!(stage.command(&[7], 0).number, 0);
            }
            assert_eq!(stage.card.read_number(0, &stage.disk, &stage.memory), 0);
            assert!(stage.disk[BLOCK..][..due.area.len()] == due.area);
        }
    }
}

/// The library beside the model, or a wrong one, where the one before on a core makes a difference: on tapes made for it, and over
/// disks whose later records name nothing and are left.
fn in_sequence(wrong: Wrong) -> Result<(), Failure> {
    let mut library = Library::default();
    let mut bench = Bench::new(wrong, Checks::NONE, Some(&mut library));
    sequence::run(&mut bench, 25, 1000)
}

#[test]
fn the_library_keeps_a_beginning_of_each_journal_as_the_model_does() {
    in_sequence(Wrong::No).expect("the same");
    assert!(in_sequence(Wrong::NoSequence).is_err(), "the old rule is not told apart");
}

/// The tapes on which the report task meets its limit; whole soaks have byte 9 among their commands too.
#[test]
fn the_library_keeps_the_report_tasks_limit_as_the_model_does() {
    let mut library = Library::default();
    let mut bench = Bench::new(Wrong::No, Checks::ALL, Some(&mut library));
    for (tape, _) in REPORTS {
        bench.run_tape(&from_hex(tape)).expect("the same");
    }
}

/// One service book goes from the card of request (c) on to the library, which has the model's disk after every command: after coming
/// up the home area is the book's.
#[test]
fn the_library_recovers_what_older_cards_left_as_the_book_says() {
    let mut library = Library::default();
    let mut bench = Bench::new(Wrong::No, Checks::ALL, Some(&mut library));
    older::run(&mut bench).expect("the same, and the book's area");
    bench.set_shares(Shares { foreign: 0, older: 1000 });
    bench.soak(400_000, 27).expect("the same, and the book's area");
    let tally = bench.tally;
    println!("{} disks of older cards, {} recoveries", tally.handed_over, tally.recoveries);
    assert!(tally.handed_over > 1000 && tally.cuts_in_recovery > 1000);
}

#[test]
fn every_wrong_card_is_told_apart() {
    for (wrong, words) in caught_by_generated() {
        assert!(differs(*wrong, 400_000, 1).is_some(), "not told apart: {words}");
    }
}

/// The old rule's card, and those that have the new one in part: generated tapes hardly meet it, so each has tapes of its own.
#[test]
fn every_card_wrong_in_the_sequence_is_told_apart() {
    for (wrong, _, tape) in sequence::TAPES {
        let mut library = Library::default();
        let mut bench = Bench::new(*wrong, Checks::NONE, Some(&mut library));
        assert!(bench.run_tape(&from_hex(tape)).is_err(), "not told apart: {}", words(*wrong));
    }
}

#[test]
fn every_card_wrong_over_older_disks_is_told_apart() {
    for (wrong, _, older, tape) in older::TAPES {
        let mut library = Library::default();
        let mut bench = Bench::new(*wrong, Checks::NONE, Some(&mut library));
        let is_told = bench.run_handed_over(Kind::older(Wrong::No), &from_hex(older), &from_hex(tape)).is_err();
        assert!(is_told, "not told apart: {}", words(*wrong));
    }
}

/// Slices of any length are answered, and what is lent with a wrong length is not touched.
#[test]
fn slices_of_a_wrong_length_are_refused() {
    let mut random = Random::new(5);
    for _ in 0..2000 {
        let (mut disk, mut memory) = (vec![1; random.below(2 * DISK)], vec![2; random.below(2 * MEMORY)]);
        let (disk_before, memory_before) = (disk.clone(), memory.clone());
        let tape: Vec<u8> = (0..random.below(12)).map(|_| random.below(11) as u8).collect();
        let mut session = if random.chance(500) { Session::blank() } else { Session::down() };
        let done = session.command(&tape, random.below(14), &mut disk, &mut memory);
        let is_wrong = disk_before.len() != DISK || memory_before.len() != MEMORY;
        assert!(!is_wrong || (done.number == 1 && disk == disk_before && memory == memory_before));
        let mut buffer = [3; 128];
        let number = session.read_block(0, &disk, &memory, &mut buffer);
        assert!(number != 0 && buffer == [3; 128]);
    }
}

/// Cells that a caller has zeroed are a blank card.
#[test]
fn zeroed_cells_are_a_blank_card() {
    assert!(Session::blank().cells() == &[0; CELLS]);
}
