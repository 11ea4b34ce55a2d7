// sequence.rs: transactions of one core in their own sequence (paper 02, request c): what is kept and what is valid is a beginning of
// each core's run and lies in what the old rule keeps, on any tape and any disk; and each card that has the rule in part is caught.

use card_tests::book::Book;
use card_tests::checks::{Bench, Checks, Seen, Shares, Watcher};
use card_tests::command::{self, from_hex, Command};
use card_tests::directed::{chain_disk, chain_tape};
use card_tests::disks::{disk_after, each_disk};
use card_tests::foreign;
use card_tests::journal::Journals;
use card_tests::layout::{CORES, LAYOUTS};
use card_tests::order::Order;
use card_tests::page::page;
use card_tests::program::{print_by, Flaw};
use card_tests::random::Random;
use card_tests::sequence::{
    self, round_sizes, valid_runs, Looks, CHANGED_AT_THE_CUT, CHANGED_AT_THE_CUT_LINES, FIRST_NOT_HELD, LATER_ALONE,
    NAMES_A_LATER_ONE, TAPES,
};
use card_tests::shrink::{commands_of, tape_of};
use card_tests::wrong::{words, Wrong, SEQUENCE};

fn passes(books: Order, wrong: Wrong, checks: Checks, tape: &str) -> bool {
    Bench::under(books, wrong, checks, None).run_tape(&from_hex(tape)).is_ok()
}

#[test]
fn each_tape_tells_its_wrong_card() {
    for (wrong, checks, tape) in TAPES {
        assert!(!passes(Order::InSequence, *wrong, *checks, tape), "not caught: {}", words(*wrong));
        assert!(passes(Order::InSequence, Wrong::No, Checks::ALL, tape), "the right card fails: {tape}");
    }
}

#[test]
fn each_wrong_card_has_a_tape() {
    for card in SEQUENCE {
        assert!(TAPES.iter().any(|(wrong, ..)| *wrong == card), "no tape: {}", words(card));
    }
}

/// A later transaction comes back without an earlier one: only the old rule's book has it so.
#[test]
fn each_rules_card_fails_the_other_claim() {
    for (checks, tape) in
        [(Checks::AREA, LATER_ALONE), (Checks::BYTES, LATER_ALONE), (Checks::ANSWER, NAMES_A_LATER_ONE)]
    {
        assert!(!passes(Order::Unordered, Wrong::No, checks, tape));
        assert!(!passes(Order::InSequence, Wrong::NoSequence, checks, tape));
        assert!(passes(Order::Unordered, Wrong::NoSequence, Checks::ALL, tape));
    }
}

/// The old rule's claim is false of a card whose commits hold numbers: its own book has another area.
#[test]
fn the_old_rules_claim_fails_with_numbers() {
    for books in [Order::Unordered, Order::InSequence] {
        assert!(!passes(books, Wrong::NoSequence, Checks::AREA, FIRST_NOT_HELD), "{books:?}");
        assert!(Bench::under(books, Wrong::NoSequence, Checks::AREA, None).soak(200_000, 3).is_err(), "{books:?}");
    }
    let blocks = ["block 0 0101010102020202", "block 1 0303030300000000", "block 2 0505050500000000"];
    let text = print_by(Wrong::NoSequence.into(), &from_hex(FIRST_NOT_HELD), Flaw::No);
    assert!(text.lines().filter(|line| line.starts_with("block")).eq(blocks), "{text}");
    let mut book = Book::under(Order::Unordered);
    commands_of(&from_hex(FIRST_NOT_HELD)).iter().for_each(|command| book.feed(*command, 0));
    assert!(book
        .area()
        .chunks(8)
        .enumerate()
        .all(|(i, eight)| eight == if i == 16 { [3, 3, 3, 3, 0, 0, 0, 0] } else { [0; 8] }));
}

#[test]
fn generated_tapes_tell_the_rules_apart() {
    for (books, wrong) in [(Order::Unordered, Wrong::No), (Order::InSequence, Wrong::NoSequence)] {
        for checks in [Checks::ANSWER, Checks::AREA] {
            assert!(Bench::under(books, wrong, checks, None).soak(200_000, 3).is_err(), "not told apart: {books:?}");
        }
    }
}

#[test]
fn a_rule_changed_at_the_cut_gives_neither_area() {
    for books in [Order::InSequence, Order::Unordered] {
        assert!(!passes(books, Wrong::SequenceInRecoveryAlone, Checks::AREA, CHANGED_AT_THE_CUT), "{books:?}");
    }
    let last_lines = |wrong: Wrong| -> Vec<String> {
        let text = print_by(wrong.into(), &from_hex(CHANGED_AT_THE_CUT), Flaw::No);
        text.lines().skip(18).map(String::from).collect()
    };
    let blocks = ["block 0 0404040400000000", "block 1 0303030305050505"];
    assert_eq!(last_lines(Wrong::No), CHANGED_AT_THE_CUT_LINES);
    assert_eq!(last_lines(Wrong::NoSequence)[..4], ["73 5 0 10", "75 6 0 10", "76 7 0 11", "77 7 0 12"]);
    assert_eq!(last_lines(Wrong::NoSequence)[4..], blocks);
}

/// Keeps a book beside a card and looks at what a cut would keep.
#[derive(Default)]
struct Kept {
    book: Book,
    looks: Looks,
    longest: usize,
}

impl Watcher for Kept {
    fn start(&mut self, _: bool, _: &[u8], _: &[u8]) {
        self.book = Book::default();
    }

    fn command(&mut self, tape: &[u8], offset: usize, seen: Seen) -> Result<(), String> {
        let Ok((command, _)) = command::read(tape, offset) else { return Ok(()) };
        if matches!(command, Command::Cut | Command::Checkpoint { .. } | Command::Retire { .. }) {
            let runs = self.book.runs(Order::InSequence);
            self.looks.look(&runs, &self.book.runs(Order::Unordered));
            self.longest = runs.iter().map(Vec::len).fold(self.longest, usize::max);
        }
        self.book.feed(command, seen.outcome.answer);
        Ok(())
    }
}

#[test]
fn what_a_cut_keeps_is_a_beginning_of_each_run() {
    for wrong in [Wrong::No, Wrong::NoSequence] {
        let (mut kept, mut random) = (Kept::default(), Random::new(41));
        let mut bench = Bench::new(wrong, Checks::NONE, Some(&mut kept));
        bench.set_shares(Shares::NONE);
        bench.soak(100_000, 41).expect("nothing is checked");
        for _ in 0..1000 {
            bench.run_tape(&sequence::tape(&mut random)).expect("nothing is checked");
        }
        let Looks { sets, smaller } = kept.looks;
        println!("{sets} kept sets by {}, {smaller} of them smaller than without the one before", words(wrong));
        assert!(sets > 10_000 && smaller > 1000 && kept.longest > 20, "{sets}, {smaller}, {}", kept.longest);
    }
}

#[test]
fn tapes_and_disks_made_for_the_rule_pass_every_check() {
    let mut bench = Bench::new(Wrong::No, Checks::ALL, None);
    sequence::run(&mut bench, 42, 1000).expect("all checks hold");
}

#[test]
fn tapes_made_for_the_rule_tell_each_wrong_card() {
    for (wrong, checks, _) in TAPES {
        let (mut random, mut bench) = (Random::new(44), Bench::new(*wrong, *checks, None));
        let is_caught = (0..100).any(|_| bench.run_tape(&sequence::tape(&mut random)).is_err());
        assert!(is_caught, "not caught by {checks:?}: {}", words(*wrong));
    }
}

#[test]
fn the_valid_set_is_a_beginning_of_each_journal() {
    let (mut looks, mut random) = (Looks::default(), Random::new(43));
    each_disk(50_000, 43, |disk| {
        looks.look_at(disk);
        if random.chance(300) {
            looks.look_at(&foreign::disk(&mut random, disk));
        }
    });
    let Looks { sets, smaller } = looks;
    println!("{sets} valid sets, {smaller} of them smaller than without the one before");
    assert!(sets > 10_000 && smaller > 300);
}

/// What comes after a record that is left is left too, though it names nothing.
#[test]
fn made_disks_are_read_as_they_were_made() {
    let (mut random, mut hidden) = (Random::new(45), 0);
    for _ in 0..2000 {
        let made = sequence::disk(&mut random);
        let (_, journals) = Journals::of_disk(&made.disk).expect("a fit master");
        let due: [Vec<bool>; CORES] =
            std::array::from_fn(|core| (0..made.read[core]).map(|i| i < made.valid[core]).collect());
        assert_eq!(valid_runs(&journals, Order::InSequence), due);
        let words = page(&made.disk).into_iter().skip(1).map(|line| line[41..45] == *b"kept");
        assert!(words.take(journals.records.len()).eq(due.concat()), "the page has other words");
        hidden += (0..CORES).map(|core| (made.read[core] - made.valid[core]).saturating_sub(1)).sum::<usize>();
    }
    assert!(hidden > 10_000, "{hidden} left that name nothing");
}

/// The worst cases for a reading that strikes round by round stay so: each round strikes one.
#[test]
fn chains_are_struck_one_by_one() {
    let (commands, links) = chain_tape();
    let chains = LAYOUTS.map(|layout| [(chain_disk(layout, 0, false), 96), (chain_disk(layout, 1, false), 64)]);
    for (disk, count) in chains.into_iter().flatten().chain([(disk_after(&tape_of(&commands)), links)]) {
        let sizes = round_sizes(&disk, count + 1);
        assert!(sizes.iter().rev().copied().eq(0..=count as u32), "{sizes:?}");
    }
}
