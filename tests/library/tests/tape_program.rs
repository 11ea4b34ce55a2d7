// tape_program.rs: the program prints what the model prints, on tapes that reach every answer of a tape from a blank card and many
// home blocks, and that tell programs with a flaw of their own apart. What is printed is out before more input is awaited; a
// read or a write that fails is said.

use card_library::program::{begin, ended, printed, program, ROOT};
use card_tests::command::{from_hex, operand_width};
use card_tests::directed::LARGEST;
use card_tests::generator::Generator;
use card_tests::program::{generated, print_tape, print_with, FLAWS, PIECE};
use card_tests::random::Random;
use card_tests::sequence::{self, CHANGED_AT_THE_CUT, CHANGED_AT_THE_CUT_LINES};
use std::fs::File;
use std::io::{BufRead, BufReader, Write};
use std::process::Stdio;
use std::sync::mpsc::channel;
use std::time::Duration;

#[test]
fn the_nine_tapes_print_what_the_model_prints() {
    for case in 1..=9 {
        let text = std::fs::read_to_string(format!("{ROOT}/tapes/p{case}.hex")).expect("the tape is there");
        let tape = from_hex(&text);
        assert_eq!(printed(begin("tape"), &tape), print_tape(&tape), "P{case}");
    }
}

#[test]
fn random_bytes_print_what_the_model_prints() {
    let mut random = Random::new(3);
    for _ in 0..50 {
        let mut tape = vec![1, 2, 4, 12];
        tape.extend((0..random.below(3000)).map(|_| random.below(10) as u8));
        assert_eq!(printed(begin("tape"), &tape), print_tape(&tape));
        let any: Vec<u8> = (0..random.below(40)).map(|_| random.byte()).collect();
        assert_eq!(printed(begin("tape"), &any), print_tape(&any));
    }
}

/// Six hundred of any shape, a hundred of the largest, six that are longer than the program's pieces, and a hundred on which the one
/// before on a core makes a difference.
fn tapes() -> Vec<Vec<u8>> {
    let (mut generator, mut random) = (Generator::new(12), Random::new(14));
    let any = (0..600).map(|_| (None, 0));
    let largest = (0..100).map(|_| (Some(LARGEST), 300));
    let long = (0..6).map(|i| ([None, Some(LARGEST)][i % 2], 40_000));
    let generated = any.chain(largest).chain(long).map(|(shape, least)| generated(&mut generator, shape, least));
    generated.chain((0..100).map(|_| sequence::tape(&mut random))).collect()
}

/// Its CHECKPOINT hangs on a transaction whose predecessor is not valid, and nothing comes back.
#[test]
fn a_tape_on_which_the_rule_makes_a_difference_prints_32_and_no_block() {
    let text = printed(begin("tape"), &from_hex(CHANGED_AT_THE_CUT));
    let last: Vec<&str> = text.lines().skip(18).collect();
    assert_eq!(last, CHANGED_AT_THE_CUT_LINES);
}

/// How often each answer and a block line was printed.
struct Tally {
    answers: [usize; 37],
    blocks: usize,
    high_blocks: usize,
}

impl Tally {
    fn count(&mut self, text: &str) {
        for line in text.lines() {
            let numbers: Vec<&str> = line.split(' ').collect();
            if numbers[0] == "block" {
                self.blocks += 1;
                self.high_blocks += (numbers[1].len() > 1) as usize;
            } else {
                self.answers[numbers[2].parse::<usize>().expect("an answer")] += 1;
            }
        }
    }
}

#[test]
fn generated_tapes_print_what_the_model_prints() {
    let tapes = tapes();
    let mut tally = Tally { answers: [0; 37], blocks: 0, high_blocks: 0 };
    let mut told = vec![0; FLAWS.len()];
    for tape in &tapes {
        let right = print_tape(tape);
        assert_eq!(printed(begin("tape"), tape), right);
        tally.count(&right);
        for (count, (flaw, _)) in told.iter_mut().zip(FLAWS) {
            *count += (print_with(tape, *flaw) != right) as usize;
        }
    }
    // 1, 8 and 27 need other slices or another disk; 24 is gone
    let numbers = [0, 2, 3, 4, 5, 6, 7].into_iter().chain(20..=23).chain(25..=26).chain(28..=36);
    let few: Vec<usize> = numbers.filter(|number| tally.answers[*number] < 5).collect();
    assert_eq!(few, [], "{:?}", tally.answers);
    assert_eq!(tally.answers[24], 0);
    assert!(tally.blocks > 2000 && tally.high_blocks > 500, "{} {}", tally.blocks, tally.high_blocks);
    assert!(tapes.iter().filter(|tape| tape.len() > PIECE).count() >= 3);
    for (count, (_, words)) in told.iter().zip(FLAWS) {
        assert!(*count >= 3, "told apart by {count}: {words}");
    }
}

/// Bytes come one at a time, and the next command only when the line of the last one was read.
#[test]
fn a_line_is_out_before_more_input_is_awaited() {
    let tape = from_hex("0102040C 020000030041424344 020100030445464748 0300 0400 0400 0400 06 07 07");
    let mut child = begin("tape");
    let (sender, receiver) = channel();
    let lines = BufReader::new(child.stdout.take().expect("standard output")).lines();
    std::thread::spawn(move || lines.for_each(|line| sender.send(line.expect("a line")).expect("it is awaited")));
    let mut input = child.stdin.take().expect("standard input");
    let text = print_tape(&tape);
    let awaited = |line: &str| assert_eq!(receiver.recv_timeout(Duration::from_secs(20)).expect("in time"), line);
    let mut next = 0;
    for line in text.lines().filter(|line| !line.starts_with("block")) {
        let offset: usize = line.split(' ').next().and_then(|number| number.parse().ok()).expect("an offset");
        let width = operand_width(tape[offset]).expect("a command");
        for byte in &tape[next..offset + 1 + width] {
            input.write_all(&[*byte]).expect("it is read");
        }
        next = offset + 1 + width;
        awaited(line);
    }
    drop(input);
    text.lines().filter(|line| line.starts_with("block")).for_each(awaited);
    assert!(child.wait().expect("it ends").success());
}

/// The program has no status; it says that it failed.
#[test]
fn a_failed_write_or_read_is_said() {
    let full = File::options().write(true).open("/dev/full").expect("a full device");
    let full = program("tape")
        .stdin(Stdio::piped())
        .stdout(full)
        .stderr(Stdio::piped())
        .spawn()
        .expect("the program is built");
    let said = ended(full, &[1, 2, 4, 12]).stderr;
    assert_eq!(said, b"tape: standard output cannot be written\n");
    let folder = File::open(ROOT).expect("a folder");
    let out = program("tape").stdin(folder).output().expect("it ends");
    assert_eq!(
        (out.stdout.as_slice(), out.stderr.as_slice()),
        (&b""[..], &b"tape: standard input cannot be read\n"[..])
    );
}
