// plain.rs: the plain card does what the model does, and what the library does on every tape that is measured.

use card_bench::plain::Plain;
use card_bench::workload::{all, require_same};
use card_library::watcher::Beside;
use card_tests::checks::{Bench, Checks, Failure};
use card_tests::sequence;
use card_tests::wrong::Wrong;

#[test]
fn the_plain_card_does_what_the_model_does() {
    let mut plain = Beside::<Plain>::default();
    let mut bench = Bench::new(Wrong::No, Checks::NONE, Some(&mut plain));
    if let Err(failure) = bench.soak(1_000_000, 31) {
        panic!("{}\ntape {}", failure.detail, card_tests::command::hex(&failure.tape));
    }
    assert!(bench.tally.recoveries > 1000 && bench.tally.foreign_disks > 100 && bench.tally.handed_over > 100);
}

/// Tapes and foreign disks on which the one before on a core makes a difference.
fn in_sequence(wrong: Wrong) -> Result<(), Failure> {
    let mut plain = Beside::<Plain>::default();
    let mut bench = Bench::new(wrong, Checks::NONE, Some(&mut plain));
    sequence::run(&mut bench, 33, 500)
}

#[test]
fn the_plain_card_keeps_a_beginning_of_each_journal() {
    in_sequence(Wrong::No).expect("the same");
    assert!(in_sequence(Wrong::NoSequence).is_err(), "the old rule is not told apart");
}

#[test]
fn both_do_the_same_on_every_tape_measured() {
    all().iter().for_each(require_same);
}
