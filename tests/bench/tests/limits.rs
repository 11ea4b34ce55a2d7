// limits.rs: a count above its limit is named, with how it was run; one at its limit is not.

use card_bench::limits::{Counted, Limit};

fn counted(name: &str, counts: [f64; 3]) -> Counted {
    Counted { name: name.into(), counts }
}

#[test]
fn a_count_above_plain_is_named() {
    let all = [
        counted("at", [105.0, 105.0, 100.0]),
        counted("one", [106.0, 100.0, 100.0]),
        counted("two", [100.0, 107.0, 100.0]),
    ];
    let lines = [
        "above its limit: one, by command: 1.060 of plain, at most 1.05",
        "above its limit: two, by whole tape: 1.070 of plain, at most 1.05",
    ];
    assert_eq!(Limit::OfPlain(1.05).above(&all), lines);
    assert_eq!(Limit::OfPlain(1.05).highest("tapes", &all), "tapes: 1.070 of plain, at most 1.05");
}

#[test]
fn too_many_instructions_are_named() {
    let all = [counted("at", [45_000.0, 45_000.0, 1.0]), counted("past", [45_001.0, 44_999.0, 90_000.0])];
    let lines = ["above its limit: past, by command: 45,001 instructions, at most 45,000"];
    assert_eq!(Limit::Instructions(45_000.0).above(&all), lines);
}
