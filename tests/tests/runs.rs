// runs.rs: over disks made for how records that were read are kept and counted: what is read and valid is as made, the valid set is a
// beginning of each core's records and the same by counts, every check holds, and cards that are wrong in just this are caught.

use card_tests::checks::{Bench, Checks};
use card_tests::directed::LARGEST;
use card_tests::disks::reads_as;
use card_tests::endings::RECOVERED;
use card_tests::journal::{Journals, Record};
use card_tests::layout::{Layout, CORES};
use card_tests::order::Order;
use card_tests::random::Random;
use card_tests::runs::{self, each_made, Filling, Made, CUT_OFTEN, FILLINGS, WAYS};
use card_tests::sequence::{round_sizes, Looks};
use card_tests::wide::spread;
use card_tests::wrong::{words, Wrong, RUNS};

#[test]
fn made_disks_are_read_as_they_were_made() {
    let (mut disks, mut known, mut left) = (0, 0, 0);
    each_made(400, 101, |filling, made| {
        reads_as(&made.disk, &made.due());
        let (_, journals) = Journals::of_disk(&made.disk).expect("a fit master");
        let counts = journals.valid_counts(Wrong::No);
        assert!(made.valid.is_none_or(|valid| valid == counts), "{filling:?}: {counts:?}, not {:?}", made.valid);
        disks += 1;
        known += made.valid.is_some() as usize;
        left += made.read.iter().sum::<usize>() - counts.iter().sum::<usize>();
    });
    println!("{disks} disks, of {known} it is known what is valid; {left} records are left");
    assert!(known > 2000 && left > 10_000);
}

/// Tells a kind of made disk, with what is read of it.
type IsMet = fn(&Made, &Journals) -> bool;

/// What is to be met.
const KINDS: [(&str, IsMet); 20] = [
    ("lists", |made, _| made.master.layout == Layout::Lists),
    ("numbers", |made, _| made.master.layout == Layout::Numbers),
    ("every journal full, some with no block left", |made, read| is_full(made, read, 0)),
    ("every journal full, some with one block left", |made, read| is_full(made, read, 1)),
    ("a descriptor at the end of J, its data or commit at the start", |made, read| {
        wraps(made, &read.records, |at, _| at == 1)
    }),
    ("data round the end of J", |made, read| wraps(made, &read.records, |at, length| 1 < at && at + 1 < length)),
    ("a commit alone at the start of J", |made, read| {
        wraps(made, &read.records, |at, length| 1 < at && at + 1 == length)
    }),
    ("96 records", |_, read| read.records.len() == 96),
    ("one record, of core 0", |_, read| read.records.len() == 1 && read.records[0].core == 0),
    ("one record, of core 7", |_, read| read.records.len() == 1 && read.records[0].core == 7),
    ("cut short with 1", |made, _| is_cut_short(made, 1)),
    ("cut short with 2", |made, _| is_cut_short(made, 2)),
    ("cut short with 3", |made, _| is_cut_short(made, 3)),
    ("cut short with 4", |made, _| is_cut_short(made, 4)),
    ("none valid of more than 20", |made, read| made.valid == Some([0; CORES]) && read.records.len() > 20),
    ("all valid of more than 20", |made, read| made.valid == Some(made.read) && read.records.len() > 20),
    ("equal stamps", |_, read| read.records.iter().filter(|record| record.stamp == 1).count() > 10),
    ("one block in more than ten records", |_, read| (0..64).any(|block| holders(read, block) > 10)),
    ("block 0 in two records", |_, read| holders(read, 0) > 1),
    ("block B - 1 in two records", |made, read| holders(read, made.master.shape.blocks - 1) > 1),
];

/// Whether no journal has room for another record, and one has so many blocks left.
fn is_full(made: &Made, read: &Journals, left: usize) -> bool {
    let all: Vec<usize> = (0..made.master.shape.cores).map(|core| blocks_left(made, read.of_core(core))).collect();
    all.iter().all(|left| *left < 2) && all.contains(&left)
}

fn blocks_left(made: &Made, records: &[Record]) -> usize {
    made.master.shape.journal as usize - records.iter().map(Record::length).sum::<usize>()
}

/// Whether a record goes round the end of its journal so many blocks behind its first.
fn wraps(made: &Made, records: &[Record], is_met: fn(usize, usize) -> bool) -> bool {
    let before_end = |record: &Record| made.master.shape.journal as usize - record.position as usize;
    records.iter().any(|record| before_end(record) < record.length() && is_met(before_end(record), record.length()))
}

/// Whether a journal's reading ends so before records that are whole.
fn is_before_whole(made: &Made, core: usize, end: u8) -> bool {
    made.ends[core] == end && made.read[core] + 1 < made.counts[core].len()
}

/// The same where a later core's records are read.
fn is_cut_short(made: &Made, end: u8) -> bool {
    let later = |core: usize| made.read[core + 1..].iter().sum::<usize>();
    (0..CORES).any(|core| is_before_whole(made, core, end) && later(core) > 0)
}

fn holders(read: &Journals, block: u8) -> usize {
    read.records.iter().filter(|record| record.took(block)).count()
}

/// Whether a disk is what it was made for.
fn is_as_told(filling: Filling, made: &Made, read: &Journals) -> bool {
    let (shape, count) = (made.master.shape, read.records.len());
    let has_blocks = |record: &Record| !record.blocks.is_empty();
    match filling {
        Filling::Full => {
            let is_filled = is_full(made, read, 0) || is_full(made, read, 1);
            is_filled && (shape.blocks == 1 || read.records.iter().all(has_blocks))
        }
        Filling::Wrapped => (0..shape.cores).all(|core| wraps(made, read.of_core(core), |_, _| true)),
        Filling::NoBlocks => count == 96 && !read.records.iter().any(has_blocks),
        Filling::One => count == 1,
        Filling::Damaged(end) => (0..CORES).any(|core| is_before_whole(made, core, end)),
        Filling::Chain(_) => made.valid == Some([0; CORES]) && (shape != LARGEST || [64, 96].contains(&count)),
        Filling::LeftFrom => made.valid.is_some(),
        Filling::Shared => read.records.iter().all(|record| {
            let is_at_an_end = record.took(0) || record.took(shape.blocks - 1);
            record.stamp < 3 && (is_at_an_end || !has_blocks(record))
        }),
    }
}

#[test]
fn all_that_is_asked_for_is_met() {
    let mut met = [0; KINDS.len()];
    each_made(400, 102, |filling, made| {
        let (_, journals) = Journals::of_disk(&made.disk).expect("a fit master");
        assert!(is_as_told(filling, made, &journals), "{filling:?}");
        met.iter_mut().zip(KINDS).for_each(|(count, (_, is_met))| *count += is_met(made, &journals) as usize);
    });
    for (count, (words, _)) in met.iter().zip(KINDS) {
        println!("{words}: {count} disks");
        assert!(*count > 40, "{words}: {count} disks");
    }
}

#[test]
fn the_valid_set_is_a_beginning_and_the_same_by_counts() {
    let mut looks = Looks::default();
    each_made(400, 103, |filling, made| {
        looks.look_at(&made.disk);
        let (_, journals) = Journals::of_disk(&made.disk).expect("a fit master");
        let valid = journals.valid(journals.everything(), Order::InSequence);
        assert_eq!(journals.counted(&journals.valid_counts(Wrong::No)), valid, "{filling:?}");
    });
    let Looks { sets, smaller } = looks;
    println!("{sets} valid sets, {smaller} of them smaller than without the one before");
    assert!(sets == 400 * FILLINGS.len() && smaller > 400);
}

/// As many rounds as there are records, in each order of cores: by sets and by counts.
#[test]
fn chains_are_struck_one_by_one_in_each_way() {
    let (mut random, mut most) = (Random::new(104), 0);
    for way in WAYS.into_iter().cycle().take(300) {
        let made = runs::disk(&mut random, Filling::Chain(way), 0);
        let (_, journals) = Journals::of_disk(&made.disk).expect("a fit master");
        let count = journals.records.len();
        let sizes = round_sizes(&made.disk, count + 1);
        assert!(sizes.iter().rev().copied().eq(0..=count as u32), "{way:?}: {sizes:?}");
        let rounds = std::iter::successors(Some(made.read), |counts| Some(journals.lowered(counts, Wrong::No)));
        assert!(rounds.take(count + 1).map(|counts| counts.iter().sum::<usize>()).eq((0..=count).rev()), "{way:?}");
        most = most.max(count);
    }
    assert_eq!(most, 96);
}

/// Recovery with cuts in it, then generated tapes over such disks: what is done is as due by the second reader's reading.
#[test]
fn commands_over_made_disks_pass_every_check() {
    let mut bench = Bench::new(Wrong::No, Checks::ALL, None);
    each_made(40, 105, |filling, made| {
        for tape in [RECOVERED, CUT_OFTEN] {
            let done = bench.run_tape_over(made.disk.clone(), tape);
            done.unwrap_or_else(|failure| panic!("{filling:?}: {failure:?}"));
        }
    });
    let done = bench.tally.commands;
    bench.set_disks(runs::any_disk);
    bench.soak(done + 50_000, 106).expect("all checks hold");
    let mut random = Random::new(107);
    (0..100).for_each(|_| bench.run_tape(&runs::tape(&mut random)).expect("all checks hold"));
    let tally = bench.tally;
    println!("{} commands over {} disks, {} recoveries", tally.commands, tally.foreign_disks, tally.recoveries);
    let answers = [31, 32, 33].map(|answer| tally.answers[answer]);
    println!("refusals 31, 32, 33: {answers:?} times");
    assert!(tally.recoveries > 2 * 520 && answers.iter().all(|count| *count > 100));
}

/// After how many disks a card is caught, if it is.
fn disks_until_caught(wrong: Wrong, fillings: &[Filling], most: usize, seed: u64) -> Option<usize> {
    runs::first_of(fillings, most, seed, |disk| {
        Bench::new(wrong, Checks::ALL, None).run_tape_over(disk, RECOVERED).is_err()
    })
}

/// Of all fillings in turn 60 disks are enough by each seed. Of each filling it is printed how many it takes, if any does.
#[test]
fn each_wrong_card_is_caught() {
    for wrong in RUNS {
        let until = |seed| disks_until_caught(wrong, &FILLINGS, 60, seed).expect("it is caught") as u64;
        println!("{}: caught after {}", words(wrong), spread("disks", until));
        for filling in FILLINGS {
            let disks = disks_until_caught(wrong, &[filling], 100, 108);
            println!("  {filling:?}: {}", disks.map_or("-".into(), |disks| disks.to_string()));
        }
    }
    assert_eq!(disks_until_caught(Wrong::No, &FILLINGS, 400, 108), None);
}
