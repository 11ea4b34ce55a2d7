// long: library and model compared for long, in parts with a seed each: `long [FIRST] [LAST]` runs the parts from FIRST to LAST,
// 1 to 200 where none are given. All 200 have 200 million commands, a million foreign disks, some thousands that older cards left, and
// a million calls over made-up cells.
// A run that was stopped goes on from the part after the last one printed; parts can be split among processes.

use card_library::made_up::MadeUp;
use card_library::watcher::{give_up, Library};
use card_tests::checks::{Bench, Checks, Shares, Tally, Watcher};
use card_tests::wrong::Wrong;

const COMMANDS: u64 = 1_000_000;
const DISKS: u64 = 5_000;
const MADE_UP: u64 = 5_000;

/// Most starts of a part's first half are over foreign disks.
const FOREIGN: Shares = Shares { foreign: 950, older: 30 };

/// What the parts had, in sum.
#[derive(Default)]
struct Sum {
    commands: u64,
    disks: u64,
    handed_over: u64,
    recoveries: u64,
    refused: u64,
    made_up: u64,
}

impl Sum {
    fn add(&mut self, tally: &Tally) {
        self.commands += tally.commands;
        self.disks += tally.foreign_disks;
        self.handed_over += tally.handed_over;
        self.recoveries += tally.recoveries;
        self.refused += tally.commands - tally.answers[0];
    }

    fn text(&self) -> String {
        let Sum { commands, disks, handed_over, recoveries, refused, made_up } = self;
        format!(
            "{commands} commands ({refused} refused), {disks} foreign disks, {handed_over} of older cards, {recoveries} recoveries, \
             {made_up} calls over made-up cells: no difference"
        )
    }
}

/// One soak with a seed of its own.
fn run(watcher: &mut dyn Watcher, seed: u64, shares: Shares, is_enough: impl Fn(&Tally) -> bool) -> Tally {
    let mut bench = Bench::new(Wrong::No, Checks::NONE, Some(watcher));
    bench.set_shares(shares);
    bench.soak_until(seed, is_enough).unwrap_or_else(|failure| give_up(&failure));
    bench.tally
}

fn main() {
    let mut args = std::env::args().skip(1).map(|arg| arg.parse().expect("a number"));
    let (first, last) = (args.next().unwrap_or(1), args.next().unwrap_or(200));
    let start = std::time::Instant::now();
    let mut sum = Sum::default();
    for part in first..=last {
        let mut library = Library::default();
        let foreign = run(&mut library, 2 * part, FOREIGN, |tally| tally.foreign_disks >= DISKS);
        let rest = COMMANDS.saturating_sub(foreign.commands);
        let other = run(&mut library, 2 * part + 1, Shares::USUAL, |tally| tally.commands >= rest);
        sum.add(&foreign);
        sum.add(&other);
        sum.made_up += run(&mut MadeUp::new(part), 2 * part, Shares::USUAL, |tally| tally.commands >= MADE_UP).commands;
        println!("part {part} of {first} to {last}, {:.0} s: {}", start.elapsed().as_secs_f64(), sum.text());
    }
    println!("parts {first} to {last}: {}", sum.text());
}
