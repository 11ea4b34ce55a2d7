// planner.rs: the plan of a card is met by doing it, nothing shorter empties the journals, and wrong planners are told apart.

use card_tests::command::{from_hex, Command};
use card_tests::directed::{chain_tape, full_tape};
use card_tests::disks::P1_UNCUT;
use card_tests::emptying::World;
use card_tests::layout::Name;
use card_tests::least::{fewest, search_states, Searched};
use card_tests::planner::{bound, plan, unretired, Plan};
use card_tests::plans::{each_state, plan_in, told, Comparison, Starts, State, Tally, STARTS};
use card_tests::shrink::commands_of;
use card_tests::wrong::{told_by_runs, WrongPlanner};

/// Compares the states of so many generated commands.
fn compared(starts: Starts, commands: u64, seed: u64) -> Tally {
    let mut comparison = Comparison::new(starts);
    each_state(starts, commands, seed, |state| comparison.see(state)).unwrap_or_else(|failure| panic!("{failure:?}"));
    comparison.tally
}

#[test]
fn the_plan_is_met_by_doing_it() {
    let mut states = 0;
    for starts in STARTS {
        let tally = compared(starts, 25_000, 51);
        println!("{starts:?}: {tally:?}");
        states += tally.states;
        let [short, blank, down] = tally.numbers;
        assert!(short > 500 && down > 500 && (starts != Starts::Blank || blank > 10));
        assert!(tally.with_work > 5_000 && tally.all_run > 500 && tally.largest > 50 && tally.most_transactions > 20);
        assert!(tally.tried.iter().all(|tried| *tried > 1_000) && tally.refused.iter().all(|refused| *refused > 20));
    }
    println!("{states} states compared");
    assert!(states > 25_000);
}

#[test]
fn no_shorter_run_empties_the_journals() {
    let searched = search_states(100, 4_000, 54).unwrap_or_else(|detail| panic!("{detail}"));
    println!("{searched:?}");
    assert!(searched.starts == 100 && searched.refusing > 30 && searched.worlds > 10_000 && searched.largest > 15);
}

fn after(tape: &str) -> World {
    let mut world = World::blank();
    commands_of(&from_hex(tape)).into_iter().for_each(|command| assert_eq!(world.step(command).answer, 0));
    world
}

fn names(pairs: &[(u8, u32)]) -> Vec<Name> {
    pairs.iter().map(|(core, number)| Name { core: *core, number: *number }).collect()
}

/// Core 0's first has one block, is committed and stored home: the master is left. Core 1's has two blocks, and two of its four
/// stores are done. Core 2's is committed with one block, and waits for core 0's second, which runs without a block: 32 refuses it.
const ALL_STAGES: &str = "01 03 04 0C | 02 00 0000 00 01010101 | 03 00 | 04 00 | 04 00 | 04 00 | 05 00 \
    | 02 01 0001 00 02020202 | 02 01 0002 00 03030303 | 03 01 | 04 01 | 04 01 \
    | 02 02 0003 00 04040404 | 02 00 0003 04 05050505 | 03 02 | 04 02 | 04 02 | 04 02";

#[test]
fn a_plan_worked_by_hand() {
    let mut world = after(ALL_STAGES);
    assert_eq!(world.clone().step(Command::Checkpoint { core: 2 }).answer, 32);
    let order = names(&[(0, 1), (1, 1), (2, 1), (0, 2)]);
    let found = Plan { number: 0, commands: 1 + (2 + 3) + 2 + (1 + 2 + 1), stores: 11, order: order.clone() };
    assert_eq!(plan_in(&world), found);
    assert_eq!(bound(&unretired(&world.card, &world.disk)), 6 + 8 + 6 + 4);
    assert_eq!(fewest(&world, &mut Searched::default(), |_, _| Ok(())), Ok(12));
    let run = world.empty(|_, _| Ok(())).expect("a run with an end");
    assert_eq!((run.commands, run.stores, run.refused), (12, 11, None));
    assert_eq!(run.retired, order.into_iter().zip([1, 2, 3, 4]).collect::<Vec<_>>());
    assert!(world.is_emptied() && plan_in(&world) == Plan::default());
}

/// The first case of paper 01 before its cut: core 0's one block, which 32 refused and now is valid, and core 1's without a block.
#[test]
fn the_plan_of_the_first_case() {
    let tape = from_hex(P1_UNCUT);
    let mut world = World::blank();
    commands_of(&tape).into_iter().for_each(|command| _ = world.step(command));
    let order = names(&[(0, 1), (1, 1)]);
    assert_eq!(plan_in(&world), Plan { number: 0, commands: 3, stores: 3, order });
}

/// Journals full of records without blocks, one RETIRE each, and a chain of names in which every other one has a block, CHECKPOINT and
/// RETIRE. What still runs holds all of them up: CLOSE, three STOREs, CHECKPOINT, RETIRE.
#[test]
fn the_plans_of_full_journals() {
    let (chain, committed) = chain_tape();
    for (commands, committed, retiring) in [(full_tape(), 94, 94), (chain, committed, committed / 2 * 3)] {
        let mut world = World::blank();
        commands.into_iter().for_each(|command| assert_eq!(world.step(command).answer, 0));
        let found = plan_in(&world);
        let run = world.empty(|_, _| Ok(())).expect("a run with an end");
        let retired: Vec<Name> = run.retired.iter().map(|(name, _)| *name).collect();
        assert_eq!((run.commands, run.stores, &retired), (found.commands, found.stores, &found.order));
        assert!(world.is_emptied() && run.refused.is_none());
        assert_eq!((found.order.len(), found.commands), (committed + 1, retiring as u64 + 6));
    }
}

/// Tapes after which a wrong planner is told apart.
const TAPES: &[(WrongPlanner, &str)] = &[
    // core 0 takes the block from core 1's, which is closed
    (WrongPlanner::ByCoreAndNumber, "01 02 01 04 | 02 01 0000 00 01010101 | 03 01 | 02 00 0000 04 02020202"),
    (WrongPlanner::Bound, "01 01 01 04 | 02 00 0000 00 01010101 | 03 00"),
    (WrongPlanner::DoneNotTakenOff, "01 01 01 04 | 02 00 0000 00 01010101 | 03 00 | 04 00"),
    (WrongPlanner::DoneNotTakenOff, "01 01 01 04 | 02 00 0000 00 01010101 | 03 00 | 04 00 | 04 00 | 04 00 | 05 00"),
    (WrongPlanner::RunningLeftOut, "01 01 01 04 | 02 00 0000 00 01010101"),
    // core 1's is committed and waits for core 0's
    (WrongPlanner::ValidAlone, "01 02 01 04 | 02 00 0000 00 01010101 | 02 01 0000 04 02020202 | 03 01 | 04 01 | 04 01"),
];

#[test]
fn each_short_tape_tells_a_wrong_planner_apart() {
    for (wrong, tape) in TAPES {
        let World { card, disk, memory } = &after(tape);
        let state = State { command: None, card, disk, memory };
        assert!(told(*wrong, &state).by_run && !told(WrongPlanner::No, &state).by_run, "{wrong:?}");
        let is_order = *wrong == WrongPlanner::ByCoreAndNumber;
        assert_eq!(told(*wrong, &state).by_order, is_order.then_some(33), "{wrong:?}");
    }
    for (wrong, words) in told_by_runs() {
        assert!(TAPES.iter().any(|(each, _)| each == wrong), "no tape for: {words}");
    }
}

/// On generated tapes: after how many states each is first told apart, and on how many of all.
#[test]
fn wrong_planners_are_told_apart_by_the_run() {
    let planners: Vec<_> = told_by_runs().collect();
    let (mut states, mut first, mut count) = (0, vec![0; planners.len()], vec![0; planners.len()]);
    let mut refused = [0; 42];
    let seen = each_state(Starts::Blank, 6_000, 53, |state| {
        let is_done = state.command.is_some_and(|(_, answer)| answer == 0);
        if plan(state.card, state.disk, state.memory).number != 0 || !is_done {
            return Ok(());
        }
        states += 1;
        for (i, (wrong, _)) in planners.iter().enumerate() {
            let told = told(*wrong, &state);
            count[i] += told.by_run as usize;
            if told.by_run && first[i] == 0 {
                first[i] = states;
            }
            if *wrong == WrongPlanner::ByCoreAndNumber {
                refused[told.by_order.unwrap_or(0) as usize] += 1;
            }
        }
        Ok(())
    });
    seen.expect("nothing is asked");
    for (i, (_, words)) in planners.iter().enumerate() {
        println!("{words}: first in state {}, in {} of {states}", first[i], count[i]);
        assert!((1..1_000).contains(&first[i]) && count[i] > 50, "not told apart: {words}");
    }
    println!("{}: refused with 32 in {} states, with 33 in {}", planners[0].1, refused[32], refused[33]);
    assert!(refused[33] > 50);
}
