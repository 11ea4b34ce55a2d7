// wide.rs: the library does what the model does over disks whose descriptors name blocks by numbers wider than a byte (paper 02,
// request f), down and up, and is told from cards that narrow them too early.

use card_library::cells::of_card;
use card_library::planner::{check_plan, plan};
use card_library::session::Session;
use card_library::watcher::{Library, Pair};
use card_tests::card::Card;
use card_tests::checks::{Bench, Checks};
use card_tests::command::Command;
use card_tests::endings::RECOVERED;
use card_tests::generator::Generator;
use card_tests::layout::{Layout, MEMORY};
use card_tests::random::Random;
use card_tests::wide::{self, spread, Made, Sharing, NARROWING};
use card_tests::wrong::{words, Wrong};

/// So many commands of generated tapes over made disks: recovery with cuts, what follows it, and cuts again. After how many of them
/// library and card differ, if they do.
fn differs(wrong: Wrong, commands: u64, seed: u64) -> Option<u64> {
    let mut library = Library::default();
    let mut bench = Bench::new(wrong, Checks::NONE, Some(&mut library));
    bench.set_disks(|random| wide::disk(random).disk);
    bench.soak(commands, seed).err().map(|failure| failure.commands)
}

#[test]
fn the_library_does_what_the_model_does_over_wide_numbers() {
    assert_eq!(differs(Wrong::No, 400_000, 91), None);
}

/// Each made disk recovered: a card that narrows too early differs where it makes a difference, and the model's never.
#[test]
fn cards_that_narrow_too_early_are_told_apart() {
    for (wrong, differing) in [&[(Wrong::No, &[][..])], &NARROWING[..]].concat() {
        let (mut random, mut library, mut told) = (Random::new(92), Library::default(), 0);
        for _ in 0..1000 {
            let made = wide::disk(&mut random);
            let mut bench = Bench::new(wrong, Checks::NONE, Some(&mut library));
            let is_told = bench.run_tape_over(made.disk, RECOVERED).is_err();
            assert_eq!(is_told, differing.contains(&made.chosen.entry), "{}: {:?}", words(wrong), made.chosen);
            told += is_told as usize;
        }
        println!("{}: told from the library over {told} of 1000 disks", words(wrong));
    }
    for (wrong, _) in NARROWING {
        let commands = |seed| differs(wrong, 10_000, seed).expect("it is told apart");
        println!("{}: told from the library after {}", words(wrong), spread("commands", commands));
    }
}

/// A card that is up over a made disk and counts every record as committed, beside the library: CHECKPOINT, then RETIRE
/// for each core in turn, both twice, then generated commands. The answers to the first round, and after how many commands the two differ.
fn run_up(wrong: Wrong, made: &Made, generator: &mut Generator) -> (Vec<u8>, Option<usize>) {
    let mut pair = Pair::begin(Card { kind: wrong.into(), ..made.card() }, &made.disk, &[0; MEMORY]);
    let (mut first, cores) = (Vec::new(), made.master.shape.cores);
    generator.begin_with(made.master.shape);
    for i in 0..40 + 4 * cores {
        let core = i % cores;
        let command = match i / cores {
            0 | 2 => Command::Checkpoint { core },
            1 | 3 => Command::Retire { core },
            _ => generator.command(&pair.card),
        };
        let compared = pair.command(command);
        first.extend((i < cores).then_some(pair.answer));
        if compared.is_err() {
            return (first, Some(i as usize + 1));
        }
    }
    (first, None)
}

/// 31 is answered where the oldest record is the one with the wide number, or where there is none. The card reads numbers, as it would
/// have written them; over lists the library does what the model does.
#[test]
fn a_card_that_is_up_meets_wide_numbers() {
    let (mut random, mut generator) = (Random::new(93), Generator::new(93));
    let mut told = [const { Vec::new() }; NARROWING.len()];
    for _ in 0..2000 {
        let made = wide::disk(&mut random);
        let card = made.card();
        check_plan(plan, &of_card(&card, 0, 0), &card, &made.disk, &[0; MEMORY]).expect("the same plan");
        let (first, difference) = run_up(Wrong::No, &made, &mut generator);
        assert_eq!(difference, None, "{:?}", made.chosen);
        if made.master.layout == Layout::Numbers {
            let is_read = (0..made.master.shape.cores).map(|core| made.due(core).0 > 0);
            assert!(first.iter().map(|answer| *answer != 31).eq(is_read), "{first:?}, {:?}", made.chosen);
        }
        for (told, (wrong, differing)) in told.iter_mut().zip(NARROWING) {
            let (_, difference) = run_up(wrong, &made, &mut generator);
            let is_oldest = made.chosen.record == 0 && made.master.layout == Layout::Numbers;
            assert!(difference.is_some() || !is_oldest || !differing.contains(&made.chosen.entry), "{:?}", made.chosen);
            assert!(difference.is_none() || differing.contains(&made.chosen.entry), "{:?}", made.chosen);
            told.extend(difference);
        }
    }
    for (told, (wrong, _)) in told.iter().zip(NARROWING) {
        let (count, least, most) = (told.len(), told.iter().min().expect("some"), told.iter().max().expect("some"));
        let words = words(wrong);
        println!("{words}: told from the library, up over {count} of 2000 disks, after {least} to {most} commands");
    }
}

/// A wide number in any place of another record shares no block with the oldest, and the oldest that has one is none.
#[test]
fn a_checkpoint_shares_no_block_with_a_wide_number() {
    for sharing in Sharing::all() {
        let (disk, card) = sharing.made();
        let answer = |byte, core| {
            let mut session = Session::of_cells(of_card(&card, 0, 0));
            session.command(&[byte, core], 0, &mut disk.clone(), &mut [0; MEMORY]).number
        };
        assert_eq!([5, 8].map(|byte| [0, 1].map(|core| answer(byte, core))), sharing.due(), "{sharing:?}");
    }
}
