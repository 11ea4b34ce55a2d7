// reports.rs: the report task's WRITE, byte 9 (paper 02, request h): its limit, and that it does what command 2 does otherwise.

use card_tests::card::{Card, Kind, Phase};
use card_tests::checks::{Bench, Checks};
use card_tests::command::{from_hex, Command, Task, Write};
use card_tests::directed::REPORTS;
use card_tests::disks::{disk_after, P1_UNCUT};
use card_tests::emptying::World;
use card_tests::generator::Generator;
use card_tests::layout::{DISK, MEMORY};
use card_tests::program::generated;
use card_tests::shrink::commands_of;
use card_tests::wrong::Wrong;

fn blank(kind: Kind) -> World {
    World::new(&Card::with(Phase::Blank, kind), &[0; DISK], &[0; MEMORY])
}

/// What a tape is answered, each command of it, one cut short too.
fn answers(kind: Kind, tape: &[u8]) -> Vec<u8> {
    let (mut world, mut offset, mut answers) = (blank(kind), 0, Vec::new());
    while offset < tape.len() {
        let outcome = world.card.command(&mut world.disk, &mut world.memory, tape, offset);
        answers.push(outcome.answer);
        offset = outcome.next;
    }
    answers
}

/// By a card of today and by one of request (c), which has byte 9 too.
#[test]
fn each_directed_tape_is_answered_as_it_says() {
    for (tape, right) in REPORTS {
        let tape = from_hex(tape);
        assert_eq!(answers(Kind::default(), &tape), right);
        assert_eq!(answers(Kind::older(Wrong::No), &tape), right);
        Bench::new(Wrong::No, Checks::ALL, None).run_tape(&tape).expect("all checks hold");
    }
}

fn is_report(command: &Command) -> bool {
    matches!(command, Command::Write(Write { task: Task::Report, .. }))
}

#[test]
fn the_first_case_by_byte_9_leaves_the_same_disk() {
    let by_reports = from_hex(&P1_UNCUT.replace("02 00 0003", "09 00 0003").replace("02 01 0003", "09 01 0003"));
    assert_eq!(commands_of(&by_reports).iter().filter(|command| is_report(command)).count(), 2);
    assert!(disk_after(&by_reports) == disk_after(&from_hex(P1_UNCUT)));
}

/// Runs a tape, and beside it the one with command 2 in place of each byte 9 and without those refused with 36. Tells how many are.
fn refused_with_36(commands: &[Command]) -> usize {
    let (mut world, mut beside, mut refused) = (blank(Kind::default()), blank(Kind::default()), 0);
    for command in commands {
        let outcome = world.step(*command);
        if outcome.answer == 36 {
            refused += 1;
            continue;
        }
        let by_lamp = match *command {
            Command::Write(write) => Command::Write(Write { task: Task::Lamp, ..write }),
            other => other,
        };
        assert_eq!(outcome, beside.step(by_lamp), "{command:?}");
    }
    assert!(world == beside, "another card, disk or memory");
    refused
}

#[test]
fn but_for_36_byte_9_does_what_command_2_does() {
    let (mut generator, mut reports, mut refused) = (Generator::new(17), 0, 0);
    for _ in 0..500 {
        let commands = commands_of(&generated(&mut generator, None, 0));
        reports += commands.iter().filter(|command| is_report(command)).count();
        refused += refused_with_36(&commands);
    }
    println!("{reports} times byte 9, {refused} of them refused with 36");
    assert!(reports > 5000 && refused > 500, "{reports} times byte 9, {refused} times 36");
}
