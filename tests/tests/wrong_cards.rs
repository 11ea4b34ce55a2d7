// wrong_cards.rs: every wrong card is caught by the book or the ledger, and the equivalent one is not. Those of request (c) have tapes
// of their own in `sequence.rs`. A wrong service book is told from the right card.

use card_tests::checks::{Bench, Checks};
use card_tests::twin::Twin;
use card_tests::wrong::{caught_by_generated, words, Wrong, BOOKS};

fn is_caught(wrong: Wrong, checks: Checks, commands: u64) -> bool {
    Bench::new(wrong, checks, None).soak(commands, 1).is_err()
}

#[test]
fn every_wrong_card_is_caught() {
    for (wrong, words) in caught_by_generated() {
        assert!(is_caught(*wrong, Checks::ALL, 400_000), "not caught: {words}");
    }
}

/// They lose or invent writes.
const SEEN_BY_THE_BOOK: [Wrong; 40] = [
    Wrong::TailUnchanged,
    Wrong::NumbersFromOne,
    Wrong::FlagIgnored,
    Wrong::NoNameForCommitted,
    Wrong::ValidityOneDeep,
    Wrong::AllCommittedValid,
    Wrong::LastNumber,
    Wrong::FirstNumber,
    Wrong::FormatMasterZero,
    Wrong::RetireMasterZero,
    Wrong::RecoverMasterZero,
    Wrong::RecoverMasterKept,
    Wrong::ListsAlways,
    Wrong::ListsInRunning,
    Wrong::NumbersAlways,
    Wrong::LayoutForgotten,
    Wrong::StampAtOpen,
    Wrong::StampAtCommit,
    Wrong::No32,
    Wrong::No33,
    Wrong::No29,
    Wrong::NewestByOrder,
    Wrong::TailsCoreByCore,
    Wrong::WriterTakesRunning,
    Wrong::OnlyWriterNames,
    Wrong::OnlyHolderNames,
    Wrong::NotLoaded,
    Wrong::UpBeforeHome,
    Wrong::FirstRecordOnly,
    Wrong::NothingChanges,
    Wrong::BlankAlways,
    Wrong::CheckpointFromMemory,
    Wrong::RetiresAtOnce,
    Wrong::RetireNo32,
    Wrong::RetireNo34,
    Wrong::StoreFromImages,
    Wrong::NoWrap,
    Wrong::ReportNamesNone,
    Wrong::No26OnOpen,
    Wrong::Only26Stored,
];

/// Demand 3 sees these by itself: the book and the home area are all that is compared.
#[test]
fn the_book_alone_catches_those_that_lose_or_invent_writes() {
    for wrong in SEEN_BY_THE_BOOK {
        assert!(is_caught(wrong, Checks::AREA, 200_000), "not caught by the book alone: {}", words(wrong));
    }
}

/// They are right in all but the answer to a byte 9, or to a command 2 where a byte 9 would be refused.
#[test]
fn demand_1_alone_catches_those_wrong_in_36() {
    for wrong in
        [Wrong::No36, Wrong::Four36, Wrong::Held36, Wrong::Tied36, Wrong::Early36, Wrong::Late36, Wrong::Lamp36]
    {
        assert!(is_caught(wrong, Checks::ANSWER, 200_000), "not caught by demand 1 alone: {}", words(wrong));
    }
}

/// The report task takes a fourth block.
#[test]
fn the_limit_alone_catches_those_that_pass_it() {
    for wrong in [Wrong::No36, Wrong::Four36] {
        assert!(is_caught(wrong, Checks::LIMIT, 200_000), "not caught by the limit alone: {}", words(wrong));
    }
}

/// The card is right, and the home area is not the book's.
#[test]
fn the_area_tells_wrong_books() {
    for (wrong, words) in BOOKS {
        let mut bench = Bench::new(Wrong::No, Checks::ALL, None);
        bench.set_book(*wrong);
        let failure = bench.soak(20_000, 1).expect_err(words);
        assert_eq!(failure.check, "area", "{words}");
    }
}

/// A number used again: the descriptor of a torn record stands where the emptied journal begins.
#[test]
fn the_ends_alone_catch_those_that_use_a_number_again() {
    for wrong in
        [Wrong::TailOneAbove, Wrong::TailKept, Wrong::NumbersReused, Wrong::TailUnchanged, Wrong::NumbersFromOne]
    {
        assert!(is_caught(wrong, Checks::ENDS, 200_000), "not caught by the ends alone: {}", words(wrong));
    }
}

#[test]
fn a_card_that_tests_33_against_committed_ones_only_never_differs() {
    let mut twin = Twin::default();
    let mut bench = Bench::new(Wrong::Only33Committed, Checks::ALL, Some(&mut twin));
    bench.soak(300_000, 5).expect("an equivalent card");
}

#[test]
fn the_right_card_does_not_differ_from_itself() {
    let mut twin = Twin::default();
    let mut bench = Bench::new(Wrong::No, Checks::NONE, Some(&mut twin));
    bench.soak(50_000, 9).expect("the same card");
}

/// Under the new rule the one before is asked for anyway: answers and areas are right, bytes are not.
#[test]
fn a_card_without_its_own_cores_number_is_seen_by_demand_2_alone() {
    for checks in [Checks::ANSWER, Checks::AREA, Checks::RECOVERY, Checks::MEMORY] {
        assert!(!is_caught(Wrong::OwnCoreLeftOut, checks, 400_000), "caught by {checks:?}");
    }
    assert!(is_caught(Wrong::OwnCoreLeftOut, Checks::DEMAND_2, 1000));
}
