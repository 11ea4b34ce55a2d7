// cases.rs: the nine cases of the paper, as the tape program prints them, the same by a card that writes lists; and the ways in which
// a tape ends.

use card_tests::card::Kind;
use card_tests::command::from_hex;
use card_tests::disks::{disk_after, disk_by, P1_UNCUT};
use card_tests::program::{print_by, Flaw};
use card_tests::wrong::Wrong;

fn first() -> String {
    format!("{P1_UNCUT} | 06 | 07 | 07")
}

/// What is printed up to the first store of core 1.
const FIRST_LINES: [&str; 10] = [
    "0 1 0 0",
    "4 2 0 0",
    "13 2 0 0",
    "22 3 0 0",
    "24 4 0 1",
    "26 4 0 2",
    "28 4 0 3",
    "30 5 32 3",
    "32 3 0 3",
    "34 4 0 4",
];

/// What is printed until the first transaction, of one block, is committed.
const ONE_COMMITTED: [&str; 6] = ["0 1 0 0", "4 2 0 0", "13 3 0 0", "15 4 0 1", "17 4 0 2", "19 4 0 3"];

fn prints(tape: &str, lines: &[&str]) {
    for kind in [Kind::default(), Kind::older(Wrong::No)] {
        let printed = print_by(kind, &from_hex(tape), Flaw::No);
        assert_eq!(printed.lines().collect::<Vec<_>>(), lines, "tape {tape} by {kind:?}");
    }
}

#[test]
fn p1_both_commit_and_come_back() {
    let end = ["36 4 0 5", "38 6 0 5", "39 7 0 6", "40 7 0 7", "block 3 4142434445464748"];
    prints(&first(), &[&FIRST_LINES[..], &end].concat());
}

#[test]
fn p2_a_commit_missing_brings_nothing_back() {
    let tape = first().replacen("04 01 | 04 01", "04 01", 1);
    prints(&tape, &[&FIRST_LINES[..], &["36 6 0 4", "37 7 0 5", "38 7 23 5"]].concat());
}

#[test]
fn p3_the_last_offset() {
    let tape = "01 01 01 04 | 02 00 0000 7C 01020304 | 02 00 0000 7D 01020304";
    prints(tape, &["0 1 0 0", "4 2 0 0", "13 2 7 0"]);
}

#[test]
fn p4_a_full_journal() {
    let tape = "01 01 03 04 | 02 00 0000 00 00000001 | 02 00 0001 00 00000001 | 02 00 0002 00 00000001";
    prints(tape, &["0 1 0 0", "4 2 0 0", "13 2 0 0", "22 2 26 0"]);
}

#[test]
fn p5_a_ninth_block() {
    let mut tape = "01 01 09 18".to_string();
    let mut lines = vec!["0 1 0 0".to_string()];
    for block in 0..9 {
        tape += &format!("| 02 00 {block:04x} 00 00000001");
        lines.push(format!("{} 2 {} 0", 4 + 9 * block, if block < 8 { 0 } else { 25 }));
    }
    prints(&tape, &lines.iter().map(String::as_str).collect::<Vec<_>>());
}

#[test]
fn p6_the_number_after_a_cut() {
    let tape = "01 01 02 0C | 02 00 0000 00 11111111 | 03 00 | 04 00 | 04 00 | 04 00 | 02 00 0001 00 22222222 \
        | 06 | 07 | 07 | 02 00 0001 00 33333333 | 03 00 | 04 00";
    let end = [
        "21 2 0 3",
        "30 6 0 3",
        "31 7 0 4",
        "32 7 0 5",
        "33 2 0 5",
        "42 3 0 5",
        "44 4 0 6",
        "block 0 1111111100000000",
    ];
    prints(tape, &[&ONE_COMMITTED[..], &end].concat());
    let disk = disk_after(&from_hex(tape));
    assert_eq!(disk[24..32], [0, 0, 0, 3, 0, 0, 0, 0], "tail number and position in the master");
    assert_eq!(disk[3 * 128 + 8..3 * 128 + 12], [0, 0, 0, 3], "number of the descriptor at position 0");
}

#[test]
fn p7_the_older_image_goes_home_first() {
    let tape = "01 02 01 0C | 02 00 0000 00 01010101 | 03 00 | 02 01 0000 04 02020202 | 03 01 | 04 00 | 04 00 | 04 00 \
        | 04 01 | 04 01 | 04 01 | 05 01 | 05 00";
    let lines = [
        "0 1 0 0",
        "4 2 0 0",
        "13 3 0 0",
        "15 2 0 0",
        "24 3 0 0",
        "26 4 0 1",
        "28 4 0 2",
        "30 4 0 3",
        "32 4 0 4",
        "34 4 0 5",
        "36 4 0 6",
        "38 5 33 6",
        "40 5 0 7",
        "block 0 0101010100000000",
    ];
    prints(tape, &lines);
}

#[test]
fn p8_the_mark_comes_back_whole() {
    let written = "01 01 01 0C | 02 00 0000 00 C03B3998 | 02 00 0000 04 01020304 | 03 00 | 04 00 | 04 00 | 04 00";
    let start = ["0 1 0 0", "4 2 0 0", "13 2 0 0", "22 3 0 0", "24 4 0 1", "26 4 0 2", "28 4 0 3"];
    let block = "block 0 c03b399801020304";
    let recovered = [&start[..], &["30 6 0 3", "31 7 0 4", "32 7 0 5", block]].concat();
    prints(&format!("{written} | 06 | 07 | 07"), &recovered);
    let checkpointed = [&start[..], &["30 5 0 4", "32 8 0 5", block]].concat();
    prints(&format!("{written} | 05 00 | 08 00"), &checkpointed);
}

#[test]
fn p9_an_empty_tape() {
    prints("", &[]);
}

#[test]
fn a_comment_is_no_part_of_a_tape() {
    assert_eq!(from_hex("# P1\n01 02 | 040C # 5\n06"), [1, 2, 4, 12, 6]);
}

#[test]
fn a_tape_ends_after_2_or_3() {
    prints("01 01 01 0A | 0A | 06", &["0 1 0 0", "4 10 2 0"]);
    prints("01 01 01 0A | 09 00 0000 00 010203", &["0 1 0 0", "4 9 3 0"]);
    prints("01 01 01 0A | 08 00 | 08", &["0 1 0 0", "4 8 31 0", "6 8 3 0"]);
    prints("00 | 01 01 01 04", &["0 0 2 0"]);
    prints("01 01 01 04 | 02 00 0000 00 010203", &["0 1 0 0", "4 2 3 0"]);
    prints("01 01", &["0 1 3 0"]);
}

#[test]
fn a_card_that_is_down_still_prints_its_blocks() {
    let tape = "01 01 01 04 | 02 00 0000 00 0A0B0C0D | 03 00 | 04 00 | 04 00 | 04 00 | 05 00 | 06";
    let end = ["21 5 0 4", "23 6 0 4", "block 0 0a0b0c0d00000000"];
    prints(tape, &[&ONE_COMMITTED[..], &end].concat());
}

/// A disk block has these bytes, and zeros behind them.
fn holds(disk: &[u8], index: usize, digits: &str) {
    let mut bytes = from_hex(digits);
    bytes.resize(128, 0);
    assert_eq!(disk[index * 128..(index + 1) * 128], bytes, "disk block {index}");
}

#[test]
fn the_bytes_of_the_first_case() {
    assert_eq!(from_hex(&first()).len(), 41);
    let disk = disk_after(&from_hex(P1_UNCUT));
    let block = |index: usize, digits: &str| holds(&disk, index, digits);
    block(0, "C03B3998 00000004 00000001 00000002 00000004 0000000C 00000001 00000000 00000001 00000000");
    (1..5).for_each(|home| block(home, ""));
    block(5, "C03B3998 00000001 00000001 00000001 00000003 00000000");
    block(6, "41424344 45464748");
    block(7, "C03B3998 00000002 00000001 0000000000000001 00000000 00000000 00000001");
    block(8, "");
    block(17, "C03B3998 00000001 00000001 00000000");
    block(18, "C03B3998 00000002 00000001 0000000000000002 00000000 00000001");
    (19..257).for_each(|index| block(index, ""));
}

/// The same with lists, which differ in the master and in what a commit holds.
#[test]
fn the_bytes_of_the_first_case_with_lists() {
    let tape = from_hex(P1_UNCUT);
    let (new, old) = (disk_after(&tape), disk_by(Kind::older(Wrong::No), &tape));
    holds(&old, 0, "C03B3998 00000004 00000000 00000002 00000004 0000000C 00000001 00000000 00000001 00000000");
    holds(&old, 7, "C03B3998 00000002 00000001 0000000000000001 00000001 00000001 00000001");
    holds(&old, 18, "C03B3998 00000002 00000001 0000000000000002 00000001 00000000 00000001");
    let differing = (0..257).filter(|index| new[index * 128..][..128] != old[index * 128..][..128]);
    assert!(differing.eq([0, 7, 18]));
}
