// soak.rs: generated tapes on the right card with every check, and tapes of random bytes.

use card_tests::checks::{Bench, Checks};
use card_tests::endings;
use card_tests::random::Random;
use card_tests::wrong::Wrong;

#[test]
fn the_right_card_passes_every_check() {
    let mut bench = Bench::new(Wrong::No, Checks::ALL, None);
    if let Err(failure) = bench.soak(1_200_000, 7) {
        panic!("{}: {}\ntape {}", failure.check, failure.detail, card_tests::command::hex(&failure.tape));
    }
    let tally = bench.tally;
    assert!(tally.recoveries > 1000 && tally.foreign_disks > 100 && tally.handed_over > 100);
    assert!(tally.longest_list > 24 && tally.answers[24] == 0, "a list of {} names", tally.longest_list);
    let [_, clean, _, _, torn] = tally.ends;
    println!("ends of journals on runs from FORMAT: {clean} times 1, {torn} times 4");
    assert!(clean > 100_000 && torn > 10_000);
}

#[test]
fn tapes_of_random_bytes_pass_every_check() {
    let (mut random, mut bench) = (Random::new(11), Bench::new(Wrong::No, Checks::ALL, None));
    for _ in 0..2000 {
        let mut tape = vec![1, random.between(1, 8) as u8, random.between(1, 64) as u8, random.between(4, 24) as u8];
        for _ in 0..random.below(200) {
            // Small bytes are often commands, and operands in range.
            tape.push(random.below(10) as u8);
        }
        bench.run_tape(&tape).expect("all checks hold");
    }
}

/// Recovery reads the journals up to their ends, whichever these are.
#[test]
fn recovery_over_made_endings_passes_every_check() {
    let (mut random, mut bench) = (Random::new(13), Bench::new(Wrong::No, Checks::ALL, None));
    for _ in 0..4000 {
        bench.run_tape_over(endings::disk(&mut random), endings::RECOVERED).expect("all checks hold");
    }
    // before its cut each disk is recovered or not yet, and after it
    let (recoveries, cuts) = (bench.tally.recoveries, bench.tally.cuts_in_recovery);
    assert!(recoveries + cuts == 8000 && recoveries > 4000 && cuts > 0, "{recoveries} recoveries, {cuts} cuts in one");
}
