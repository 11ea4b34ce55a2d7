// recovered.rs: what recovery gives is a function of the disk (paper 02, request g): by RECOVERs alone, and with cuts and other commands
// in between until the card is up. CHECKPOINT and RETIRE do not change it.

use card_tests::book::Book;
use card_tests::card::{Card, Kind, Phase};
use card_tests::checks::{Bench, Checks, Seen, Shares, Watcher};
use card_tests::command::{self, Command};
use card_tests::directed::{disk_with, put_record};
use card_tests::disks::{disk_by, each_disk};
use card_tests::emptying::World;
use card_tests::endings;
use card_tests::foreign;
use card_tests::generator::Generator;
use card_tests::layout::{read_master, Layout, Name, Shape, Tail, BLOCK, LAYOUTS, MEMORY};
use card_tests::plans::{each_state, Starts};
use card_tests::program::generated;
use card_tests::random::Random;
use card_tests::recovered::{check_disturbed, check_whole, recovered, recovered_area, Spans};
use card_tests::runs;
use card_tests::sequence;
use card_tests::wide;
use card_tests::wrong::{words, Wrong};

/// Disks by how they were made.
const KINDS: [&str; 7] =
    ["of runs", "foreign", "of older cards", "made endings", "wide numbers", "made records", "in sequence"];

/// Shows about so many disks of each kind, those with an unfit master too.
fn each_kind(count: usize, seed: u64, mut show: impl FnMut(usize, &[u8])) {
    let (mut random, mut generator, mut seen) = (Random::new(seed), Generator::new(seed), 0);
    each_disk(16 * count as u64, seed, |disk| {
        seen += 1;
        if seen % 4 == 0 {
            show(0, disk);
            show(1, &foreign::disk(&mut random, disk));
        }
    });
    for _ in 0..count {
        show(2, &disk_by(Kind::older(Wrong::No), &generated(&mut generator, None, 0)));
        show(3, &endings::disk(&mut random));
        show(4, &wide::disk(&mut random).disk);
        show(5, &runs::any_disk(&mut random));
        show(6, &sequence::disk(&mut random).disk);
    }
}

#[derive(Clone, Copy, Default)]
struct Met {
    disks: usize,
    held: usize,
    with_lists: usize,
    unfit: usize,
}

#[test]
fn recovery_gives_what_the_disk_gives() {
    let (mut met, mut random) = ([Met::default(); KINDS.len()], Random::new(121));
    each_kind(1000, 122, |kind, disk| {
        let Some(master) = read_master(disk) else {
            met[kind].unfit += 1;
            return;
        };
        let due = check_whole(Card::down(), disk).unwrap_or_else(|found| panic!("{}: {found}", KINDS[kind]));
        check_disturbed(Card::down(), disk, &mut random).unwrap_or_else(|found| panic!("{}: {found}", KINDS[kind]));
        met[kind].disks += 1;
        met[kind].held += due.held;
        met[kind].with_lists += (master.layout == Layout::Lists) as usize;
    });
    for (words, Met { disks, held, with_lists, unfit }) in KINDS.iter().zip(met) {
        println!("{words}: {disks} disks, {with_lists} of them with lists, {held} blocks held; {unfit} unfit masters");
        assert!(disks > 700 && held > disks / 2 && (with_lists > 100 || *words == KINDS[0]), "{words}");
    }
}

/// Wrong in what recovery brings back, or in how many commands.
const WRONG_IN_RECOVERY: [Wrong; 13] = [
    Wrong::FlagIgnored,
    Wrong::ValidityOneDeep,
    Wrong::AllCommittedValid,
    Wrong::OtherWordTaken,
    Wrong::ListsAlways,
    Wrong::NumbersAlways,
    Wrong::NewestByOrder,
    Wrong::TieFirst,
    Wrong::TailsCoreByCore,
    Wrong::UpBeforeHome,
    Wrong::BlankAlways,
    Wrong::NoSequence,
    Wrong::CountsOnce,
];

#[test]
fn wrong_recoveries_are_told_apart() {
    for wrong in WRONG_IN_RECOVERY {
        let (card, mut random) = (Card::with(Phase::Down, wrong.into()), Random::new(123));
        let (mut disks, mut told) = (0, 0);
        each_kind(100, 124, |_, disk| {
            disks += 1;
            let is_told = match recovered(disk) {
                Some(_) => check_whole(card, disk).is_err() || check_disturbed(card, disk, &mut random).is_err(),
                None => World::new(&card, disk, &[0; MEMORY]).step(Command::Recover).answer != 8,
            };
            told += is_told as usize;
        });
        println!("{}: told apart over {told} of {disks} disks", words(wrong));
        assert!(told > 0, "{}", words(wrong));
    }
}

/// Lists of CHECKPOINT and RETIRE at so many states from one kind of start, by a card that may be wrong.
fn spans(starts: Starts, commands: u64, by: Wrong) -> Result<Spans, String> {
    let (mut spans, mut random) = (Spans::default(), Random::new(125));
    let seen = each_state(starts, commands, 126, |state| {
        if state.card.phase == Phase::Blank || !random.chance(100) {
            return Ok(());
        }
        let world = World::new(state.card, state.disk, state.memory);
        spans.check(&world, Card { kind: by.into(), ..*state.card }, &mut random)
    });
    seen.map(|()| spans).map_err(|failure| failure.detail)
}

/// 'With no other command in that span, a cut between the two brings back the same home area as one before both.'
#[test]
fn storing_home_and_retiring_leave_what_a_cut_brings_back() {
    for starts in [Starts::Blank, Starts::Formatted] {
        let tried = spans(starts, 40_000, Wrong::No).unwrap_or_else(|detail| panic!("{starts:?}: {detail}"));
        println!("{starts:?}: {tried:?}");
        let Spans { lists, down, home_stores, retired, refused } = tried;
        assert!(lists > 2_000 && down > 100 && home_stores > 500 && retired > 500 && refused > 1_000);
    }
}

#[test]
fn cards_that_change_what_a_cut_brings_back_are_told_apart() {
    for wrong in [
        Wrong::No32,
        Wrong::No33,
        Wrong::RetireNo32,
        Wrong::RetireNo34,
        Wrong::RetiresAtOnce,
        Wrong::CheckpointFromMemory,
        Wrong::HolderKept,
    ] {
        let is_told = spans(Starts::Blank, 40_000, wrong).is_err();
        assert_eq!(is_told, wrong != Wrong::HolderKept, "{}", words(wrong));
    }
}

/// Keeps a book beside a card, and looks at the disk at each cut of a card that is up.
#[derive(Default)]
struct Cuts {
    book: Book,
    count: usize,
}

impl Watcher for Cuts {
    fn start(&mut self, _: bool, _: &[u8], _: &[u8]) {
        self.book = Book::default();
    }

    fn command(&mut self, tape: &[u8], offset: usize, seen: Seen) -> Result<(), String> {
        let Ok((command, _)) = command::read(tape, offset) else { return Ok(()) };
        self.book.feed(command, seen.outcome.answer);
        if command != Command::Cut || seen.outcome.answer != 0 {
            return Ok(());
        }
        self.count += 1;
        match recovered_area(seen.disk) {
            Some(area) if area == self.book.area() => Ok(()),
            _ => Err("the disk does not give the book's area".into()),
        }
    }
}

#[test]
fn at_a_cut_the_disk_gives_the_books_area() {
    let mut cuts = Cuts::default();
    let mut bench = Bench::new(Wrong::No, Checks::NONE, Some(&mut cuts));
    bench.set_shares(Shares::NONE);
    bench.soak(200_000, 127).unwrap_or_else(|failure| panic!("{}", failure.detail));
    println!("{} cuts", cuts.count);
    assert!(cuts.count > 3_000);
}

/// A record of number 2 stands at position 0, where the tail tells number 1: it is not read, and the journal is emptied with tail number
/// 2. So on a disk from elsewhere a cut after the card is up brings back another area.
#[test]
fn once_up_over_a_foreign_disk_a_cut_may_bring_back_another_area() {
    for layout in LAYOUTS {
        let shape = Shape { cores: 1, blocks: 2, journal: 10 };
        let mut disk = disk_with(layout, shape, &[Tail { number: 1, position: 0 }]);
        put_record(&mut disk, Name { core: 0, number: 2 }, 0, &[1], &[]);
        let blank = vec![0; 2 * BLOCK];
        assert_eq!(check_whole(Card::down(), &disk).map(|due| due.area), Ok(blank.clone()));
        let mut world = World::new(&Card::down(), &disk, &[0; MEMORY]);
        let answers = [Command::Recover, Command::Cut, Command::Recover, Command::Recover];
        assert_eq!(answers.map(|command| world.step(command).answer), [0; 4]);
        assert_eq!(world.card.phase, Phase::Up);
        assert!(world.disk[BLOCK..2 * BLOCK] == blank[..BLOCK]);
        assert_eq!(world.disk[2 * BLOCK..][..8], [0xC0, 0x3B, 0x39, 0x98, 7, 8, 9, 10]);
    }
}
