// plans: the library's plan against the model's after so many generated commands, from all starts, every tenth plan carried out by the
// library; and over so many made-up cards: `plans [COMMANDS] [MADE_UP] [SEED]`.

use card_library::made_up_plans::compare_made_up;
use card_library::planner::{plan, Plans};
use card_library::watcher::give_up;
use card_tests::checks::{Bench, Checks};
use card_tests::plans::{soak, Starts, STARTS};
use card_tests::wrong::Wrong;

fn main() {
    let mut args = std::env::args().skip(1).map(|arg| arg.parse().expect("a number"));
    let (commands, made_up): (u64, u64) = (args.next().unwrap_or(4_000_000), args.next().unwrap_or(1_000_000));
    let seed = args.next().unwrap_or(1);
    let start = std::time::Instant::now();
    for starts in STARTS {
        let mut plans = Plans::new(plan, 100, starts != Starts::Foreign);
        let mut bench = Bench::new(Wrong::No, Checks::NONE, Some(&mut plans));
        soak(&mut bench, starts, commands / STARTS.len() as u64, seed).unwrap_or_else(|failure| give_up(&failure));
        println!("{starts:?}, {:.0} s: {:?}", start.elapsed().as_secs_f64(), plans.tally);
    }
    match compare_made_up(plan, made_up, seed) {
        Ok(compared) => println!("made up, {:.0} s: {compared:?}\nno difference", start.elapsed().as_secs_f64()),
        Err(detail) => {
            println!("{detail}");
            std::process::exit(1);
        }
    }
}
