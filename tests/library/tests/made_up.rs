// made_up.rs: cells that no run made are answered; all numbers but 24 were among the answers.

use card_library::made_up::MadeUp;
use card_tests::checks::{Bench, Checks};
use card_tests::wrong::Wrong;

#[test]
fn made_up_cells_are_answered() {
    let mut made_up = MadeUp::new(41);
    let mut bench = Bench::new(Wrong::No, Checks::NONE, Some(&mut made_up));
    if let Err(failure) = bench.soak(100_000, 41) {
        panic!("{}", failure.detail);
    }
    let all = (0..=8).chain(20..=36);
    let missing: Vec<usize> = all.filter(|number| made_up.answers[*number] == 0).collect();
    assert_eq!(missing, [24], "{:?}", made_up.answers);
}
