// runs.rs: the library does what the model does over disks made for how records that were read are kept and counted: recovery from any
// place with cuts in it, the journal page, and of cards that are up CHECKPOINT and RETIRE of every core and the plan. It is told from
// cards that are wrong in just this.

use card_library::cells::of_card;
use card_library::page::compared;
use card_library::planner::{check_plan, plan};
use card_library::watcher::{Library, Pair};
use card_tests::card::{Card, Phase};
use card_tests::checks::{Bench, Checks, Seen, Watcher};
use card_tests::command::Command;
use card_tests::directed::{chain_tape, full_tape, LARGEST};
use card_tests::endings::RECOVERED;
use card_tests::layout::MEMORY;
use card_tests::random::Random;
use card_tests::runs::{self, each_made, Filling, Made, CUT_OFTEN, FILLINGS};
use card_tests::shrink::tape_of;
use card_tests::wide::spread;
use card_tests::wrong::{words, Wrong, RUNS};

#[test]
fn the_library_recovers_made_disks_as_the_model_does() {
    let mut library = Library::default();
    let mut bench = Bench::new(Wrong::No, Checks::NONE, Some(&mut library));
    each_made(100, 111, |filling, made| {
        for tape in [RECOVERED, CUT_OFTEN] {
            let done = bench.run_tape_over(made.disk.clone(), tape);
            done.unwrap_or_else(|failure| panic!("{filling:?}: {}", failure.detail));
        }
    });
    let done = bench.tally.commands;
    bench.set_disks(runs::any_disk);
    bench.soak(done + 100_000, 112).unwrap_or_else(|failure| panic!("{}", failure.detail));
    let tally = bench.tally;
    println!("{} commands over {} disks, {} recoveries", tally.commands, tally.foreign_disks, tally.recoveries);
    assert!(tally.recoveries > 2 * 1300 && tally.cuts_in_recovery > 1300);
}

/// A card that is down and has come to any block, the last, one past it, or a place that no run has: the next two stores.
#[test]
fn recovery_goes_on_from_any_place_as_the_models() {
    let (mut tried, mut went_home) = (0, 0);
    each_made(16, 113, |filling, made| {
        for place in (0..=made.master.shape.blocks + 1).chain([u8::MAX]) {
            let mut pair = Pair::begin(Card { place, ..Card::down() }, &made.disk, &[0; MEMORY]);
            for _ in 0..2 {
                pair.command(Command::Recover).unwrap_or_else(|found| panic!("{filling:?} from {place}: {found}"));
                went_home += (pair.card.phase == Phase::Down) as usize;
            }
            tried += 1;
        }
    });
    println!("from {tried} places {went_home} blocks are stored home");
    assert!(went_home > 1000);
}

/// Lines of transactions kept and left, and cores by their end.
#[test]
fn the_page_of_made_disks_is_the_models() {
    let (mut lines, mut kept) = (0, 0);
    each_made(100, 114, |_, made| {
        let page = compared(&made.disk);
        let cores = made.master.shape.cores as usize;
        assert_eq!(page.len(), 1 + made.read.iter().sum::<usize>() + cores);
        let words = page[1..page.len() - cores].iter().filter(|line| line[41..45] == *b"kept").count();
        assert!(made.valid.is_none_or(|valid| valid.iter().sum::<usize>() == words));
        (lines, kept) = (lines + page.len() - 1 - cores, kept + words);
    });
    println!("{} pages, {lines} transactions, {kept} of them kept", 100 * FILLINGS.len());
    assert!(kept > 2_000 && lines - kept > 2_000);
}

/// What CHECKPOINT and RETIRE of a core that is there answer.
const ANSWERS: [[u8; 5]; 2] = [[0, 31, 32, 33, 35], [0, 31, 32, 33, 34]];

/// How often they had each answer.
#[derive(Default)]
struct Answers([[usize; 5]; 2]);

impl Answers {
    /// Each command of each core is tried first on a card that is up, and the plan is asked for.
    fn try_cores(&mut self, card: &Card, disk: &[u8], memory: &[u8]) -> Result<(), String> {
        check_plan(plan, &of_card(card, 0, 0), card, disk, memory)?;
        for (command, i) in (0..card.shape.cores).flat_map(tries) {
            let mut pair = Pair::begin(*card, disk, memory);
            pair.command(command)?;
            let place = ANSWERS[i].iter().position(|answer| *answer == pair.answer);
            self.0[i][place.ok_or(format!("{command:?} answers {}", pair.answer))?] += 1;
        }
        Ok(())
    }

    fn require(&self, least: usize) {
        for (i, name) in ["CHECKPOINT", "RETIRE"].iter().enumerate() {
            for (count, answer) in self.0[i].iter().zip(ANSWERS[i]) {
                println!("{name} answers {answer}: {count} times");
                assert!(*count >= least, "{name}: {answer} is met {count} times");
            }
        }
    }
}

/// Both commands of a core, each with its place.
fn tries(core: u8) -> [(Command, usize); 2] {
    [(Command::Checkpoint { core }, 0), (Command::Retire { core }, 1)]
}

/// Cards that count every record of a made disk as committed. They read numbers, as they would have written them; over lists and behind
/// a damaged record it is what the model makes of it.
#[test]
fn a_card_that_is_up_over_made_disks_does_what_the_model_does() {
    let mut answers = Answers::default();
    each_made(60, 115, |filling, made| {
        let tried = answers.try_cores(&made.card(), &made.disk, &[0; MEMORY]);
        tried.unwrap_or_else(|found| panic!("{filling:?}: {found}"));
    });
    answers.require(100);
}

/// Tells a kind of journals.
type IsMet = fn(&Card) -> bool;

/// What the journals of a card are to be met as, on runs. Twelve records take the largest journals, which a directed tape fills.
const STATES: [(&str, IsMet); 5] = [
    ("every journal full", |card| cores(card).all(|core| is_full(card, core))),
    ("a journal full and wrapped", |card| cores(card).any(|core| is_full(card, core) && wraps(card, core))),
    ("a full journal behind one that is not", |card| !is_full(card, 0) && cores(card).any(|core| is_full(card, core))),
    ("three records without blocks or more", |card| {
        card.shape != LARGEST && cores(card).any(|core| without_blocks(card, core) > 2)
    }),
    ("twelve records without blocks", |card| cores(card).any(|core| without_blocks(card, core) == 12)),
];

fn cores(card: &Card) -> std::ops::Range<usize> {
    0..card.shape.cores as usize
}

fn is_full(card: &Card, core: usize) -> bool {
    card.cores[core].length + 1 >= card.shape.journal
}

fn wraps(card: &Card, core: usize) -> bool {
    card.cores[core].tail.position + card.cores[core].length > card.shape.journal
}

/// How many records a core has, where none of them has a block.
fn without_blocks(card: &Card, core: usize) -> u8 {
    let core = &card.cores[core];
    if core.length == 2 * core.committed {
        core.committed
    } else {
        0
    }
}

/// The library beside the model on tapes; after each STORE that commits and each CHECKPOINT and RETIRE done every core is tried.
#[derive(Default)]
struct Tries {
    library: Library,
    answers: Answers,
    met: [usize; STATES.len()],
    states: usize,
}

impl Watcher for Tries {
    fn start(&mut self, is_down: bool, disk: &[u8], memory: &[u8]) {
        self.library.start(is_down, disk, memory);
    }

    fn command(&mut self, tape: &[u8], offset: usize, seen: Seen) -> Result<(), String> {
        let Seen { outcome, card, disk, memory } = seen;
        self.library.command(tape, offset, seen)?;
        let is_new = match tape[offset] {
            4 => card.cores[tape[offset + 1] as usize].closed.is_none(),
            byte => matches!(byte, 5 | 8),
        };
        if outcome.answer != 0 || !is_new {
            return Ok(());
        }
        self.states += 1;
        self.met.iter_mut().zip(STATES).for_each(|(count, (_, is_met))| *count += is_met(card) as usize);
        self.answers.try_cores(card, disk, memory)
    }
}

#[test]
fn checkpoints_of_full_journals_are_the_models() {
    let (mut tries, mut random) = (Tries::default(), Random::new(116));
    let mut bench = Bench::new(Wrong::No, Checks::NONE, Some(&mut tries));
    let made = (0..150).map(|_| runs::tape(&mut random));
    for tape in made.chain([tape_of(&full_tape()), tape_of(&chain_tape().0)]) {
        bench.run_tape(&tape).unwrap_or_else(|failure| panic!("{}", failure.detail));
    }
    let commands = bench.tally.commands;
    println!("{} states of {commands} commands, every core tried", tries.states);
    for (count, (words, _)) in tries.met.iter().zip(STATES) {
        println!("{words}: {count} states");
        assert!(*count > 50, "{words}: {count} states");
    }
    tries.answers.require(300);
}

/// After how many disks a card that recovers them is told from the library, if it is.
fn disks_until_told(wrong: Wrong, most: usize, seed: u64) -> Option<usize> {
    runs::first_of(&FILLINGS, most, seed, |disk| {
        let mut library = Library::default();
        Bench::new(wrong, Checks::NONE, Some(&mut library)).run_tape_over(disk, RECOVERED).is_err()
    })
}

/// Whether a card that is up over a disk is told from the library by the first CHECKPOINT or RETIRE of some core.
fn is_told_up(wrong: Wrong, made: &Made) -> bool {
    let card = Card { kind: wrong.into(), ..made.card() };
    let mut all = (0..card.shape.cores).flat_map(tries);
    all.any(|(command, _)| Pair::begin(card, &made.disk, &[0; MEMORY]).command(command).is_err())
}

/// Down by 60 disks with each seed; up over some of 130, but for the card that is wrong in recovery alone.
#[test]
fn each_wrong_card_is_told_apart() {
    for wrong in RUNS {
        let until = |seed| disks_until_told(wrong, 60, seed).expect("it is told apart") as u64;
        println!("{}: told from the library after {}", words(wrong), spread("disks", until));
        let mut up: Vec<Filling> = Vec::new();
        each_made(10, 117, |filling, made| up.extend(is_told_up(wrong, made).then_some(filling)));
        println!("  up over {} of 130 disks, the first of them {:?}", up.len(), up.first());
        assert_eq!(up.is_empty(), wrong == Wrong::StrictlyAbove, "{}", words(wrong));
    }
    assert_eq!(disks_until_told(Wrong::No, 200, 118), None);
}
