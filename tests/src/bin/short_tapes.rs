// short_tapes: for each wrong card and each demand, the shortest tape found on which the demand alone catches it; and for the old rule's
// card and the right one by the old rule's books.

use card_tests::checks::Checks;
use card_tests::command::hex;
use card_tests::order::Order;
use card_tests::shrink::{tape_of, Shrinker};
use card_tests::wrong::{words, Wrong, ALL};

fn main() {
    let mut arguments = std::env::args().skip(1).map(|text| text.parse::<u64>().expect("a number"));
    let commands = arguments.next().unwrap_or(200_000);
    let seeds = arguments.next().unwrap_or(4);
    for (wrong, words) in ALL {
        println!("{wrong:?}: {words}");
        print_shortest(Order::InSequence, *wrong, commands, seeds);
    }
    for wrong in [Wrong::NoSequence, Wrong::No] {
        println!("{} by the old rule's books", words(wrong));
        print_shortest(Order::Unordered, wrong, commands, seeds);
    }
}

fn print_shortest(books: Order, wrong: Wrong, commands: u64, seeds: u64) {
    for (name, checks) in [("1", Checks::ANSWER), ("2", Checks::DEMAND_2), ("3", Checks::AREA)] {
        let shrinker = Shrinker { books, wrong, checks };
        match shrinker.shortest(commands, seeds) {
            Some(short) => println!("  demand {name}, {} commands: {}", short.len(), hex(&tape_of(&short))),
            None => println!("  demand {name}: no tape found"),
        }
    }
}
