// planner.rs: the library's plan is the model's, the library's commands meet it, and the comparison tells wrong planners apart.

use card_library::cells::{CELLS, PHASE};
use card_library::made_up_plans::{compare_made_up, fullest};
use card_library::planner::{plan, plan_in_cells, Planned, Planner, Plans, Tally, PLAN};
use card_library::session::Session;
use card_tests::checks::{Bench, Checks, Failure};
use card_tests::layout::{DISK, MEMORY};
use card_tests::plans::{soak, Starts, STARTS};
use card_tests::wrong::{told_by_runs, Wrong, WrongPlanner, PLANNERS};
use std::hint::black_box;

/// A planner beside the model after so many commands; a share of its plans is carried out.
fn planned(planner: Planner, starts: Starts, commands: u64, share: usize) -> Result<Tally, Failure> {
    let mut plans = Plans::new(planner, share, starts != Starts::Foreign);
    soak(&mut Bench::new(Wrong::No, Checks::NONE, Some(&mut plans)), starts, commands, 61)?;
    Ok(plans.tally)
}

#[test]
fn the_librarys_plan_is_the_models_and_is_met() {
    for starts in STARTS {
        let tally = planned(plan, starts, 60_000, 100).unwrap_or_else(|failure| panic!("{failure:?}"));
        println!("{starts:?}: {tally:?}");
        let [up, short, blank, down] = tally.compared.plans;
        assert!(up > 20_000 && short > 500 && down > 2_000 && (starts != Starts::Blank || blank > 100));
        assert!(tally.runs > 2_000 && tally.compared.largest > 60 && tally.compared.most_names > 20);
    }
}

#[test]
fn the_librarys_plan_of_made_up_cards_is_the_models() {
    let compared = compare_made_up(plan, 100_000, 62).unwrap_or_else(|detail| panic!("{detail}"));
    println!("{compared:?}");
    assert!(compared.plans.iter().all(|plans| *plans > 100));
    assert!(compared.most_names > 90 && compared.names > 1_000_000);
}

/// Twelve records of each core, one closed and one running: as many names as there are places.
#[test]
fn a_plan_of_as_many_names_as_there_are_places() {
    let (cells, disk) = fullest();
    let found = plan(&cells, &disk, &[0; MEMORY]);
    // 12 x 1, then 2 + 1, then 1 + 2 + 1 of each core
    assert_eq!(found[..4], [0, 8 * (12 + 3 + 4), 8 * (12 + 3 + 3), 112]);
    assert_eq!(found, plan_in_cells(WrongPlanner::No, &cells, &disk, &[0; MEMORY]));
    assert!(found[PLAN - 8..] == [0, 1, 2, 3, 4, 5, 6, 7].map(|core| 8 * 14 + core), "the running ones come last");
}

fn refused(number: u64) -> Planned {
    let mut found = [0; PLAN];
    found[0] = number;
    found
}

/// 1 before 20 and 22; a refusal has its number alone.
#[test]
fn a_plan_is_refused_with_1_20_and_22() {
    let (disk, memory) = (vec![7; DISK + 1], vec![7; MEMORY + 1]);
    let mut up = [u64::MAX; CELLS];
    up[PHASE] = 1;
    for (cells, number) in
        [(*Session::blank().cells(), 20), (*Session::down().cells(), 22), ([u64::MAX; CELLS], 22), (up, 0)]
    {
        let found = plan(&cells, &disk[1..], &memory[1..]);
        assert!(found[0] == number && (number == 0 || found == refused(number)));
        for (d, m) in [
            (DISK + 1, MEMORY),
            (DISK - 1, MEMORY),
            (DISK, MEMORY + 1),
            (DISK, MEMORY - 1),
            (0, 0),
            (0, MEMORY),
            (DISK, 0),
        ] {
            assert!(plan(&cells, &disk[..d], &memory[..m]) == refused(1), "{d} and {m} bytes");
        }
    }
}

/// Stand-ins for the library: the model's planner, right and wrong, over the card that cells mean.
const STAND_INS: [(WrongPlanner, Planner); 7] = [
    (WrongPlanner::No, |w, d, m| plan_in_cells(WrongPlanner::No, w, d, m)),
    (WrongPlanner::ByCoreAndNumber, |w, d, m| plan_in_cells(WrongPlanner::ByCoreAndNumber, w, d, m)),
    (WrongPlanner::Bound, |w, d, m| plan_in_cells(WrongPlanner::Bound, w, d, m)),
    (WrongPlanner::DoneNotTakenOff, |w, d, m| plan_in_cells(WrongPlanner::DoneNotTakenOff, w, d, m)),
    (WrongPlanner::RunningLeftOut, |w, d, m| plan_in_cells(WrongPlanner::RunningLeftOut, w, d, m)),
    (WrongPlanner::ValidAlone, |w, d, m| plan_in_cells(WrongPlanner::ValidAlone, w, d, m)),
    (WrongPlanner::TiesReversed, |w, d, m| plan_in_cells(WrongPlanner::TiesReversed, w, d, m)),
];

/// Wrong in what the model's planner has no switch for: a place left as it was, a cell read too widely.
const OTHERS: [Planner; 2] = [
    |w, d, m| {
        let mut found = plan(w, d, m);
        found[PLAN - 1] = found[PLAN - 1].max(1);
        found
    },
    |w, d, m| {
        let mut found = plan(w, d, m);
        found[0] = if w[PHASE] > 2 { 0 } else { found[0] };
        found
    },
];

#[test]
fn wrong_planners_are_told_apart() {
    assert_eq!(STAND_INS.len(), PLANNERS.len() + 1);
    for (wrong, planner) in STAND_INS {
        let found = planned(planner, Starts::Blank, 20_000, 0).err();
        let is_told = told_by_runs().any(|(each, _)| *each == wrong);
        assert_eq!(found.is_some(), is_told, "{wrong:?}: {:?}", found.map(|failure| failure.detail));
        // made-up cards are held against the right one itself
        assert!(wrong == WrongPlanner::No || compare_made_up(planner, 2_000, 63).is_err(), "{wrong:?}");
    }
    for (i, planner) in OTHERS.into_iter().enumerate() {
        assert!(compare_made_up(planner, 20_000, 64).is_err(), "wrong planner {i}");
    }
}

/// The plan is worked out without doing anything: cells, disk and memory have all their bytes afterwards.
#[test]
fn a_plan_changes_nothing() {
    let (full, disk) = fullest();
    for (cells, length) in [(full, DISK), (full, DISK - 1), (*Session::blank().cells(), DISK)] {
        let (disk, memory) = (disk[..length].to_vec(), vec![7; MEMORY]);
        let before = (cells, disk.clone(), memory.clone());
        let found = plan(&cells, &disk, &memory);
        // hidden from the compiler, which may take what is lent to be read as unchanged
        let after = black_box((&cells, &disk, &memory));
        assert!(after == (&before.0, &before.1, &before.2), "{length} bytes");
        assert_eq!(found, plan_in_cells(WrongPlanner::No, &before.0, &before.1, &before.2));
    }
}
