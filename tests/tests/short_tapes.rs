// short_tapes.rs: for each wrong card a short tape on which one demand alone catches it, while the right card passes.

use card_tests::checks::{Bench, Checks, Failure};
use card_tests::command::from_hex;
use card_tests::wrong::{words, Wrong, BOOKS};

/// The report task tries to take a fourth block.
const FOUR_REPORTS: &str = "01 01 04 0A | 09 00 0000 00 01010101 | 09 00 0001 00 02020202 | 09 00 0002 00 03030303 \
    | 09 00 0003 00 04040404";

/// Found by `short_tapes`, or written by hand. AREA is demand 3, DEMAND_2 demand 2, ANSWER demand 1:
/// demand 3 where it sees the fault. A card that goes wrong only over foreign disks has no such tape. Tapes for the cards that are
/// wrong in the sequence stand in `sequence.rs`, those over disks of older cards in `older.rs`.
#[rustfmt::skip]
const TAPES: &[(Wrong, Checks, &str)] = &[
    (Wrong::TailOneAbove, Checks::DEMAND_2,
        "01 03 01 04 | 02 02 0000 0c 01010101 | 02 00 0000 10 02020202 | 03 00 | 04 00 | 04 00 | 06 | 07"),
    (Wrong::TailKept, Checks::DEMAND_2,
        "01 01 01 04 | 06 | 07"),
    (Wrong::NumbersReused, Checks::DEMAND_2,
        "01 01 01 04 | 06 | 07"),
    (Wrong::TailUnchanged, Checks::AREA,
        "01 01 01 04 | 02 00 0000 00 c03b3998 | 03 00 | 04 00 | 04 00 | 04 00 | 06 | 07 | 07 \
         | 02 00 0000 00 09090909 | 03 00 | 04 00 | 06 | 07 | 07"),
    (Wrong::NumbersFromOne, Checks::AREA,
        "01 01 01 04 | 02 00 0000 00 c03b3998 | 03 00 | 04 00 | 04 00 | 04 00 | 06 | 07 | 07 \
         | 02 00 0000 00 09090909 | 03 00 | 04 00 | 06 | 07 | 07"),
    (Wrong::NoEscape, Checks::AREA,
        "01 01 02 06 | 02 00 0000 00 01010101 | 02 00 0001 00 c03b3998 | 02 00 0001 04 00000002 \
         | 02 00 0001 08 00000003 | 02 00 0001 10 00000001 | 03 00 | 04 00 | 04 00 | 04 00 | 04 00 | 06 | 07 \
         | 07 | 07 | 02 00 0000 00 02020202 | 03 00 | 04 00 | 04 00 | 06 | 07 | 07"),
    (Wrong::FlagIgnored, Checks::AREA,
        "01 01 02 04 | 02 00 0001 00 c03b3998 | 03 00 | 04 00 | 04 00 | 04 00 | 06 | 07 | 07"),
    (Wrong::NoNameForCommitted, Checks::AREA,
        "01 03 01 04 | 02 00 0000 1a 01010101 | 02 01 0000 4c 02020202 | 03 00 | 04 00 | 04 00 | 04 00 \
         | 02 02 0000 14 07070707 | 03 02 | 04 02 | 04 02 | 04 02 | 06 | 07 | 07"),
    (Wrong::ValidityOneDeep, Checks::AREA,
        "01 02 01 06 | 02 01 0000 03 01010101 | 02 00 0000 2e 02020202 | 03 01 | 04 01 | 04 01 \
         | 02 01 0000 01 06060606 | 02 00 0000 01 07070707 | 03 00 | 04 00 | 04 00 | 04 01 | 06 | 07 | 07"),
    (Wrong::AllCommittedValid, Checks::AREA,
        "01 03 01 04 | 02 00 0000 03 01010101 | 02 02 0000 01 02020202 | 03 00 | 04 00 | 04 00 | 04 00 | 06 \
         | 07 | 07"),
    // core 0's transaction names core 1's second, which still runs, and then its first
    (Wrong::LastNumber, Checks::AREA,
        "01 02 02 06 | 02 01 0000 00 01010101 | 03 01 | 02 01 0001 00 02020202 | 02 00 0001 04 03030303 \
         | 02 00 0000 04 04040404 | 04 01 | 04 01 | 04 01 | 03 00 | 04 00 | 04 00 | 04 00 | 06 | 07 | 07"),
    (Wrong::LastNumber, Checks::ANSWER,
        "01 02 02 06 | 02 01 0000 00 01010101 | 03 01 | 02 01 0001 00 02020202 | 02 00 0001 04 03030303 \
         | 02 00 0000 04 04040404 | 04 01 | 04 01 | 04 01 | 03 00 | 04 00 | 04 00 | 04 00 | 05 00"),
    // core 0's transaction names core 1's first, and then its second, which still runs
    (Wrong::FirstNumber, Checks::AREA,
        "01 02 01 04 | 02 00 0000 00 01010101 | 02 01 0000 04 02020202 | 03 01 | 02 01 0000 08 03030303 \
         | 04 01 | 04 01 | 03 00 | 04 00 | 04 00 | 04 00 | 06 | 07 | 07"),
    (Wrong::FirstNumber, Checks::ANSWER,
        "01 02 01 04 | 02 00 0000 00 01010101 | 02 01 0000 04 02020202 | 03 01 | 02 01 0000 08 03030303 \
         | 04 01 | 04 01 | 03 00 | 04 00 | 04 00 | 04 00 | 05 00"),
    (Wrong::OwnCoreLeftOut, Checks::DEMAND_2,
        "01 01 01 06 | 02 00 0000 00 01010101 | 03 00 | 04 00 | 04 00 | 04 00 | 02 00 0000 04 02020202 \
         | 03 00 | 04 00 | 04 00 | 04 00"),
    // of two that are tied one commits: its numbers, read as a list, name nothing
    (Wrong::FormatMasterZero, Checks::AREA,
        "01 02 01 04 | 02 00 0000 00 01010101 | 02 01 0000 04 02020202 | 03 00 | 04 00 | 04 00 | 04 00 | 06 \
         | 07 | 07"),
    (Wrong::FormatMasterZero, Checks::DEMAND_2, "01 01 01 04"),
    (Wrong::RetireMasterZero, Checks::AREA,
        "01 02 01 04 | 02 00 0000 00 01010101 | 03 00 | 04 00 | 04 00 | 04 00 | 05 00 | 08 00 \
         | 02 00 0000 04 02020202 | 02 01 0000 08 03030303 | 03 00 | 04 00 | 04 00 | 04 00 | 06 | 07 | 07"),
    (Wrong::RecoverMasterZero, Checks::AREA,
        "01 02 01 04 | 06 | 07 | 02 00 0000 00 01010101 | 02 01 0000 04 02020202 | 03 00 | 04 00 | 04 00 \
         | 04 00 | 06 | 07 | 07"),
    (Wrong::ListsInRunning, Checks::ANSWER,
        "01 02 01 04 | 02 00 0000 00 01010101 | 02 01 0000 04 02020202 | 03 00 | 04 00 | 04 00 | 04 00 | 05 00"),
    (Wrong::ListsAlways, Checks::AREA,
        "01 02 01 04 | 02 00 0000 00 01010101 | 02 01 0000 04 02020202 | 03 00 | 04 00 | 04 00 | 04 00 | 06 \
         | 07 | 07"),
    (Wrong::StampAtOpen, Checks::AREA,
        "01 03 02 04 | 02 02 0000 0c 01010101 | 02 01 0001 14 02020202 | 03 01 | 04 01 \
         | 02 02 0001 04 05050505 | 03 02 | 04 02 | 04 02 | 04 02 | 04 01 | 04 01 | 04 02 | 06 | 07 | 07 | 07"),
    (Wrong::StampAtCommit, Checks::AREA,
        "01 02 01 04 | 02 01 0000 00 01010101 | 03 01 | 02 00 0000 00 03030303 | 04 01 | 03 00 | 04 00 \
         | 04 00 | 04 00 | 04 01 | 04 01 | 06 | 07 | 07"),
    (Wrong::StampsGoOn, Checks::DEMAND_2,
        "01 01 01 04 | 02 00 0000 04 01010101 | 03 00 | 06 | 07 | 02 00 0000 00 05050505 | 03 00 | 04 00 \
         | 04 00 | 04 00"),
    (Wrong::No32, Checks::AREA,
        "01 03 02 04 | 02 02 0001 08 01010101 | 02 00 0001 0b 02020202 | 03 02 | 04 02 | 04 02 | 04 02 \
         | 05 02 | 06 | 07"),
    (Wrong::No33, Checks::AREA,
        "01 02 03 04 | 02 01 0002 03 01010101 | 03 01 | 04 01 | 04 01 | 04 01 | 02 00 0002 00 06060606 \
         | 03 00 | 04 00 | 04 00 | 04 00 | 05 00 | 08 00 | 06 | 07 | 07"),
    (Wrong::No29, Checks::AREA,
        "01 01 01 06 | 02 00 0000 04 01010101 | 03 00 | 02 00 0000 03 03030303 | 03 00 | 04 00 | 04 00 \
         | 04 00 | 06 | 07 | 06 | 07 | 07"),
    (Wrong::RecoverHighestFirst, Checks::RECOVERY,
        "01 01 02 04 | 02 00 0000 00 01010101 | 02 00 0001 00 02020202 | 03 00 | 04 00 | 04 00 | 04 00 \
         | 04 00 | 06 | 07"),
    (Wrong::NewestByOrder, Checks::AREA,
        "01 02 01 04 | 02 01 0000 03 01010101 | 03 01 | 04 01 | 04 01 | 02 00 0000 00 05050505 | 03 00 \
         | 04 01 | 04 00 | 04 00 | 04 00 | 06 | 07 | 07"),
    (Wrong::TailsCoreByCore, Checks::AREA,
        "01 02 02 04 | 02 01 0001 00 01010101 | 02 00 0001 00 02020202 | 03 01 | 04 01 | 04 01 | 04 01 | 06 \
         | 07 | 06 | 07 | 07 | 07"),
    (Wrong::CutKeepsPlace, Checks::DEMAND_2,
        "01 01 01 04 | 02 00 0000 04 01010101 | 03 00 | 04 00 | 04 00 | 04 00 | 06 | 07 | 06 | 07 | 06"),
    (Wrong::CutKeepsMemory, Checks::MEMORY,
        "01 01 01 04 | 02 00 0000 00 01010101 | 06"),
    (Wrong::WriterTakesRunning, Checks::AREA,
        "01 03 03 04 | 02 01 0002 00 01010101 | 02 02 0002 3d 02020202 | 03 01 | 04 01 | 04 01 | 04 01 | 06 \
         | 07 | 07"),
    (Wrong::OnlyWriterNames, Checks::AREA,
        "01 03 01 04 | 02 00 0000 03 01010101 | 02 02 0000 01 02020202 | 03 00 | 04 00 | 04 00 | 04 00 | 06 \
         | 07 | 07"),
    (Wrong::OnlyHolderNames, Checks::AREA,
        "01 04 09 04 | 02 01 0002 00 01010101 | 02 03 0002 01 02020202 | 02 03 0008 0e 03030303 | 03 03 \
         | 04 03 | 04 03 | 04 03 | 06 | 07 | 07"),
    (Wrong::HolderKept, Checks::DEMAND_2,
        "01 01 01 04 | 02 00 0000 14 01010101 | 03 00 | 04 00 | 04 00 | 04 00 | 05 00 | 08 00 \
         | 02 00 0000 02 08080808 | 03 00 | 04 00 | 04 00 | 04 00"),
    (Wrong::NotLoaded, Checks::AREA,
        "01 01 01 04 | 02 00 0000 04 01010101 | 03 00 | 04 00 | 04 00 | 04 00 | 06 | 07 | 07 \
         | 02 00 0000 14 09090909 | 03 00 | 04 00 | 04 00 | 04 00 | 06 | 07 | 07"),
    (Wrong::UpBeforeHome, Checks::AREA,
        "01 01 01 04 | 02 00 0000 04 01010101 | 03 00 | 04 00 | 04 00 | 04 00 | 06 | 07"),
    (Wrong::FirstRecordOnly, Checks::AREA,
        "01 01 01 04 | 02 00 0000 04 01010101 | 03 00 | 04 00 | 04 00 | 04 00 | 06 | 07 | 07"),
    (Wrong::InventedCount, Checks::DEMAND_2,
        "01 01 01 04 | 02 00 0000 04 01010101 | 03 00"),
    (Wrong::NothingChanges, Checks::AREA,
        "01 01 01 04 | 02 00 0000 04 01010101 | 03 00 | 04 00 | 04 00 | 04 00 | 06 | 07"),
    (Wrong::BlankAlways, Checks::AREA,
        "01 01 01 04 | 02 00 0000 04 01010101 | 03 00 | 04 00 | 04 00 | 04 00 | 06 | 07 | 07"),
    (Wrong::StoreAlways30, Checks::ANSWER,
        "01 01 01 04 | 02 00 0000 04 01010101 | 03 00 | 04 00"),
    (Wrong::CheckpointAlways32, Checks::ANSWER,
        "01 01 01 04 | 05 00"),
    (Wrong::CheckpointFromMemory, Checks::AREA,
        "01 01 01 06 | 02 00 0000 04 01010101 | 03 00 | 04 00 | 04 00 | 04 00 | 02 00 0000 79 06060606 \
         | 05 00 | 08 00 | 06 | 07"),
    (Wrong::RetiresAtOnce, Checks::AREA,
        "01 01 01 04 | 02 00 0000 04 01010101 | 03 00 | 04 00 | 04 00 | 04 00 | 05 00 | 06 | 07"),
    // core 1's first has no block and is tied to core 0's, which is lost; its second comes back by itself
    (Wrong::RetireNo32, Checks::AREA,
        "01 02 02 0A | 02 00 0000 00 01010101 | 02 01 0000 04 02020202 | 03 01 | 04 01 | 04 01 | 08 01 \
         | 02 01 0001 00 03030303 | 03 01 | 04 01 | 04 01 | 04 01 | 06 | 07 | 07"),
    // both took the block, and nothing is stored home: 33 comes before 34
    (Wrong::RetireNo33, Checks::ANSWER,
        "01 02 01 0A | 02 00 0000 00 01010101 | 03 00 | 02 01 0000 04 02020202 | 03 01 | 04 00 | 04 00 | 04 00 \
         | 04 01 | 04 01 | 04 01 | 08 01"),
    (Wrong::RetireNo34, Checks::AREA,
        "01 01 01 0A | 02 00 0000 00 01010101 | 03 00 | 04 00 | 04 00 | 04 00 | 08 00 | 06 | 07 | 07"),
    (Wrong::RetireAlways34, Checks::ANSWER,
        "01 01 01 0A | 02 00 0000 00 01010101 | 03 00 | 04 00 | 04 00 | 04 00 | 05 00 | 08 00"),
    (Wrong::OldCheckpoint, Checks::ANSWER,
        "01 01 01 0A | 02 00 0000 00 01010101 | 03 00 | 04 00 | 04 00 | 04 00 | 05 00 | 05 00"),
    (Wrong::MasterWithLastHome, Checks::DEMAND_2,
        "01 01 01 0A | 02 00 0000 00 01010101 | 03 00 | 04 00 | 04 00 | 04 00 | 05 00"),
    (Wrong::No35, Checks::ANSWER,
        "01 01 01 0A | 02 00 0000 00 01010101 | 03 00 | 04 00 | 04 00 | 04 00 | 05 00 | 05 00"),
    (Wrong::StoreFromImages, Checks::AREA,
        "01 02 01 04 | 02 00 0000 4f 01010101 | 03 00 | 04 00 | 02 01 0000 00 04040404 | 04 00 | 04 00 | 06 \
         | 07 | 07"),
    (Wrong::NoWrap, Checks::AREA,
        "01 02 01 04 | 02 00 0000 00 01010101 | 03 00 | 04 00 | 04 00 | 02 01 0000 03 05050505 | 03 01 \
         | 04 00 | 05 00 | 08 00 | 04 01 | 04 01 | 04 01 | 02 00 0000 00 0d0d0d0d | 03 00 | 04 00 | 04 00 \
         | 06 | 07"),
    (Wrong::No36, Checks::LIMIT, FOUR_REPORTS),
    (Wrong::No36, Checks::ANSWER, FOUR_REPORTS),
    (Wrong::Four36, Checks::LIMIT, FOUR_REPORTS),
    (Wrong::Four36, Checks::ANSWER, FOUR_REPORTS),
    (Wrong::Held36, Checks::ANSWER,
        "01 01 03 0A | 09 00 0000 00 01010101 | 09 00 0001 00 02020202 | 09 00 0002 00 03030303 \
         | 09 00 0000 04 04040404"),
    // core 1 runs and holds the block
    (Wrong::Tied36, Checks::ANSWER,
        "01 02 04 0A | 09 01 0003 00 01010101 | 09 00 0000 00 02020202 | 09 00 0001 00 03030303 \
         | 09 00 0002 00 04040404 | 09 00 0003 04 05050505"),
    (Wrong::Early36, Checks::ANSWER,
        "01 01 09 0A | 02 00 0000 00 01010101 | 02 00 0001 00 02020202 | 02 00 0002 00 03030303 \
         | 02 00 0003 00 04040404 | 02 00 0004 00 05050505 | 02 00 0005 00 06060606 | 02 00 0006 00 07070707 \
         | 02 00 0007 00 08080808 | 09 00 0008 00 09090909"),
    // a closed one of three blocks and a running one of three fill the journal
    (Wrong::Late36, Checks::ANSWER,
        "01 01 07 0A | 02 00 0000 00 01010101 | 02 00 0001 00 02020202 | 02 00 0002 00 03030303 | 03 00 \
         | 09 00 0003 00 04040404 | 09 00 0004 00 05050505 | 09 00 0005 00 06060606 | 09 00 0006 00 07070707"),
    (Wrong::Lamp36, Checks::ANSWER,
        "01 01 04 0A | 02 00 0000 00 01010101 | 02 00 0001 00 02020202 | 02 00 0002 00 03030303 \
         | 02 00 0003 00 04040404"),
    // core 0's bytes come back in core 1's image, though core 0 did not commit
    (Wrong::ReportNamesNone, Checks::AREA,
        "01 02 01 0A | 02 00 0000 00 01010101 | 03 00 | 09 01 0000 04 02020202 | 03 01 | 04 01 | 04 01 | 04 01 \
         | 06 | 07 | 07"),
    (Wrong::No26OnOpen, Checks::AREA,
        "01 03 01 04 | 02 00 0000 00 01010101 | 03 00 | 02 02 0000 00 03030303 | 04 00 | 04 00 | 04 00 \
         | 02 00 0000 06 07070707 | 03 00 | 04 00 | 04 00 | 06 | 07"),
    (Wrong::Only26Stored, Checks::AREA,
        "01 01 01 04 | 02 00 0000 01 01010101 | 03 00 | 02 00 0000 7c 03030303 | 04 00 | 04 00 | 04 00 \
         | 03 00 | 04 00 | 04 00 | 06 | 07"),
];

fn run(wrong: Wrong, checks: Checks, tape: &str) -> Result<(), Failure> {
    Bench::new(wrong, checks, None).run_tape(&from_hex(tape))
}

#[test]
fn each_short_tape_catches_its_wrong_card() {
    for (wrong, checks, tape) in TAPES {
        assert!(run(*wrong, *checks, tape).is_err(), "not caught: {}", words(*wrong));
    }
}

/// What byte 9 wrote comes back, which a book that does not note it has not.
#[test]
fn a_short_tape_tells_wrong_books() {
    let tape = from_hex("01 01 01 0A | 09 00 0000 00 01010101 | 03 00 | 04 00 | 04 00 | 04 00 | 06 | 07 | 07");
    for (wrong, words) in BOOKS {
        let mut bench = Bench::new(Wrong::No, Checks::AREA, None);
        bench.run_tape(&tape).expect("the right book");
        bench.set_book(*wrong);
        assert_eq!(bench.run_tape(&tape).expect_err(words).check, "area");
    }
}

#[test]
fn the_right_card_passes_each_short_tape() {
    for (wrong, _, tape) in TAPES {
        run(Wrong::No, Checks::ALL, tape).unwrap_or_else(|failure| panic!("against {wrong:?}: {failure:?}"));
    }
}
