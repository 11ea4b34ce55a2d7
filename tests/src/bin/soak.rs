// soak: runs generated tapes on the model card, with all checks, and says what was met.

use card_tests::checks::{Bench, Checks, Failure, Tally};
use card_tests::command::hex;
use card_tests::wrong::Wrong;
use std::time::Instant;

fn main() {
    let mut arguments = std::env::args().skip(1).map(|text| text.parse::<u64>().expect("a number"));
    let commands = arguments.next().unwrap_or(10_000_000);
    let seed = arguments.next().unwrap_or(1);
    let mut bench = Bench::new(Wrong::No, Checks::ALL, None);
    let start = Instant::now();
    let result = bench.soak(commands, seed);
    report(&bench.tally, start.elapsed().as_secs_f64());
    if let Err(failure) = result {
        report_failure(&failure);
        std::process::exit(1);
    }
    println!("no check failed");
}

fn report(tally: &Tally, seconds: f64) {
    println!("{} commands in {} tapes, {seconds:.1} s", tally.commands, tally.tapes);
    println!("{:.0} commands per second", tally.commands as f64 / seconds);
    println!("{} recoveries, {} cuts inside one", tally.recoveries, tally.cuts_in_recovery);
    println!("{} foreign disks", tally.foreign_disks);
    let older = tally.answers_before;
    println!(
        "{} disks of older cards after {} commands, {} of them 24",
        tally.handed_over,
        older.iter().sum::<u64>(),
        older[24]
    );
    println!("{:?}\n{:?}", tally.retiring, tally.reporting);
    println!("longest list {}, most records at once {}", tally.longest_list, tally.most_records);
    for (end, count) in tally.ends.iter().enumerate().filter(|(_, count)| **count > 0) {
        println!("end {end} on runs from FORMAT: {count}");
    }
    for (answer, count) in tally.answers.iter().enumerate().filter(|(_, count)| **count > 0) {
        println!("answer {answer:>2}: {count}");
    }
}

fn report_failure(failure: &Failure) {
    let start = match failure.is_foreign {
        _ if !failure.before.is_empty() => "the disk of an older card",
        true => "a foreign disk",
        false => "a blank card",
    };
    println!("FAILED: {}: {}", failure.check, failure.detail);
    println!("after {} commands, on {start}, at offset {}", failure.commands, failure.offset);
    println!("older tape {}\ntape {}", hex(&failure.before), hex(&failure.tape));
}
