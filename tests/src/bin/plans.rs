// plans: the plan of a card held against the run that does it on at least so many states, and against a breadth-first search on so many
// small ones: `plans [STATES] [SEARCHES] [SEED]`.

use card_tests::command::hex;
use card_tests::least::search_states;
use card_tests::plans::{each_state, Comparison, STARTS};
use std::time::Instant;

/// Ways that a searched state may have.
const WAYS: u64 = 20_000;

fn main() {
    let mut arguments = std::env::args().skip(1).map(|text| text.parse::<u64>().expect("a number"));
    let (states, searches) = (arguments.next().unwrap_or(300_000), arguments.next().unwrap_or(2_000));
    let seed = arguments.next().unwrap_or(1);
    let start = Instant::now();
    for starts in STARTS {
        let mut comparison = Comparison::new(starts);
        // a part at a time, each with tapes of its own, until there are enough states
        for part in 0.. {
            let seen = each_state(starts, 20_000, seed + 1000 * part, |state| comparison.see(state));
            if let Err(failure) = seen {
                println!("{}\ntape {}", failure.detail, hex(&failure.tape));
                std::process::exit(1);
            }
            if comparison.tally.states >= states / STARTS.len() as u64 {
                break;
            }
        }
        println!("{starts:?}, {:.0} s: {:?}", start.elapsed().as_secs_f64(), comparison.tally);
    }
    match search_states(searches, WAYS, seed) {
        Ok(searched) => println!("least, {:.0} s: {searched:?}", start.elapsed().as_secs_f64()),
        Err(detail) => {
            println!("{detail}");
            std::process::exit(1);
        }
    }
    println!("no difference");
}
