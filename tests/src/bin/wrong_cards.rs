// wrong_cards: tries every wrong card and says after how many commands it is caught, and by which check.

use card_tests::checks::{Bench, Checks, Failure, Watcher};
use card_tests::twin::Twin;
use card_tests::wrong::{Wrong, ALL};

fn main() {
    let mut arguments = std::env::args().skip(1).map(|text| text.parse::<u64>().expect("a number"));
    let commands = arguments.next().unwrap_or(1_000_000);
    let seed = arguments.next().unwrap_or(1);
    println!("commands until a wrong card is caught, at most {commands}; '-' is not caught");
    let heads = ["all checks", "demand 1", "demand 2", "demand 3", "differs"];
    println!("{:<56} {:>17} {:>9} {:>9} {:>9} {:>9}", "wrong card", heads[0], heads[1], heads[2], heads[3], heads[4]);
    for (wrong, words) in ALL {
        let all = run(*wrong, Checks::ALL, None, commands, seed);
        let by = all.as_ref().map_or("-".into(), |failure| format!("{} {}", failure.check, failure.commands));
        let demands = [Checks::ANSWER, Checks::DEMAND_2, Checks::AREA];
        let alone = demands.map(|checks| column(run(*wrong, checks, None, commands, seed)));
        let mut twin = Twin::default();
        let differs = column(run(*wrong, Checks::NONE, Some(&mut twin), commands, seed));
        println!("{words:<56} {by:>17} {:>9} {:>9} {:>9} {differs:>9}", alone[0], alone[1], alone[2]);
    }
}

fn run(wrong: Wrong, checks: Checks, watcher: Option<&mut dyn Watcher>, commands: u64, seed: u64) -> Option<Failure> {
    Bench::new(wrong, checks, watcher).soak(commands, seed).err()
}

fn column(failure: Option<Failure>) -> String {
    failure.map_or("-".into(), |failure| failure.commands.to_string())
}
