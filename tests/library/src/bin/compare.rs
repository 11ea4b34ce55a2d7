// compare: so many commands of generated tapes and foreign disks by library and model.

use card_library::watcher::{give_up, Library};
use card_tests::checks::{Bench, Checks};
use card_tests::wrong::Wrong;

fn main() {
    let mut args = std::env::args().skip(1).map(|arg| arg.parse().expect("a number"));
    let (commands, seed) = (args.next().unwrap_or(10_000_000), args.next().unwrap_or(1));
    let mut library = Library::default();
    let mut bench = Bench::new(Wrong::No, Checks::NONE, Some(&mut library));
    let start = std::time::Instant::now();
    match bench.soak(commands, seed) {
        Ok(()) => println!("{:?}\nno difference, {:?}", bench.tally, start.elapsed()),
        Err(failure) => give_up(&failure),
    }
}
