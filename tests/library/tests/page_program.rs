// page_program.rs: the page program prints the model's page of a disk. It reads on until it has a byte more than a disk, or no more
// come; a read or a write that fails is said.

use card_library::program::{begin, ended, printed, program, ROOT};
use card_tests::command::from_hex;
use card_tests::directed::{chain_disk, highest_disk};
use card_tests::disks::{disk_after, each_disk, P1_UNCUT};
use card_tests::endings;
use card_tests::foreign::{self, put};
use card_tests::layout::{descriptor, put_word, Layout, Shape, BLOCK, DISK};
use card_tests::page::print_page;
use card_tests::random::Random;
use card_tests::sequence;
use std::fs::File;
use std::io::Write;
use std::process::Stdio;
use std::sync::mpsc::channel;
use std::time::Duration;

/// The made ones, then some that generated tapes leave, and as many foreign ones, ones with made endings and ones with records that
/// name nothing and are left.
fn disks() -> Vec<Vec<u8>> {
    let p1 = disk_after(&from_hex(P1_UNCUT));
    let chains = [chain_disk(Layout::Numbers, 0, true), chain_disk(Layout::Lists, 1, false)];
    let mut disks = [&[p1, highest_disk(Layout::Lists), vec![0; DISK]][..], &chains].concat();
    let (mut random, mut other, mut seen) = (Random::new(61), Random::new(62), 0);
    each_disk(30_000, 61, |disk| {
        seen += 1;
        if seen % 200 == 0 {
            disks.extend([disk.to_vec(), foreign::disk(&mut random, disk), endings::disk(&mut random)]);
            disks.push(sequence::disk(&mut other).disk);
        }
    });
    disks
}

/// Two tied transactions as in P1, a third whose partner is not committed, and that partner torn.
const GATE_TAPE: &str =
    "01 04 08 0C | 02 00 0003 00 41424344 | 02 01 0003 04 45464748 | 03 00 | 04 00 | 04 00 | 04 00 | 03 01 | 04 01 | 04 01 \
    | 02 02 0002 00 494A4B4C | 02 03 0002 04 4D4E4F50 | 02 03 0005 00 51525354 | 03 02 | 04 02 | 04 02 | 04 02 \
    | 03 03 | 04 03 | 04 03";

/// What the tape leaves, and behind the record of core 1 a descriptor of a block that is none, behind that of core 2 one with more
/// blocks than are left: no tape stores these two.
fn gate_disk() -> Vec<u8> {
    let (mut disk, shape) = (disk_after(&from_hex(GATE_TAPE)), Shape { cores: 4, blocks: 8, journal: 12 });
    let mut wide = descriptor(2, &[3], &[false]);
    put_word(&mut wide, 16, 259);
    put(&mut disk, shape.place(1, 2), &wide);
    put(&mut disk, shape.place(2, 3), &descriptor(2, &[0, 1, 2, 3, 4, 5, 6, 7], &[false; 8]));
    disk
}

/// The gate runs the program on this file, and compares what it prints with the other. Core by core the journals end 1, 2, 3, 4.
#[test]
fn the_gates_disk_and_page_are_those_made_here() {
    let file = |name: &str| std::fs::read(format!("{ROOT}/crates/page/{name}")).expect("it is there");
    let disk = gate_disk();
    assert!(file("stdin") == disk);
    let text = print_page(&disk);
    assert_eq!(String::from_utf8(file("stdout")).expect("text"), text);
    let ends: Vec<&str> = text.lines().skip(4).map(str::trim_end).collect();
    assert_eq!(ends, [" 0  1", " 1  2", " 2  3", " 3  4"]);
}

#[test]
fn the_page_printed_is_the_models() {
    let mut pages = Vec::new();
    for disk in disks() {
        let right = print_page(&disk);
        assert_eq!(printed(begin("page"), &disk), right);
        pages.push(right);
    }
    let with = |word: &str| pages.iter().filter(|page| page.contains(word)).count();
    let refused = pages.iter().filter(|page| page.trim() == "8").count();
    let lines = || pages.iter().flat_map(|page| page.lines());
    let ends = [1, 2, 3, 4].map(|end| lines().filter(|line| line[2..].trim_end() == format!("  {end}")).count());
    let counts = [[pages.len(), with("kept"), with("left"), refused], ends].concat();
    assert!(counts[0] >= 90 && counts[1..].iter().all(|count| *count >= 5), "{counts:?}");
}

#[test]
fn a_disk_of_zero_bytes_is_refused_for_its_master() {
    assert_eq!(printed(begin("page"), &[0; DISK]), format!("{:64}\n", " 8"));
}

/// The input begins with a disk that has a page, or that is refused for its master too.
#[test]
fn an_input_of_another_length_is_refused() {
    let refusal = format!("{:64}\n", " 1");
    for disk in [highest_disk(Layout::Numbers), vec![0; DISK]] {
        let long = disk.repeat(32);
        let near = (DISK - 16..=DISK + 16).filter(|length| *length != DISK);
        for length in near.chain([0, 1, BLOCK, 2 * DISK, 1_000_000]) {
            assert_eq!(printed(begin("page"), &long[..length]), refusal, "{length} bytes");
        }
    }
}

#[test]
fn a_disk_that_comes_in_pieces_is_read_whole() {
    let disk = chain_disk(Layout::Numbers, 1, true);
    let mut child = begin("page");
    let mut input = child.stdin.take().expect("standard input");
    for piece in disk.chunks(3000) {
        input.write_all(piece).expect("it is read");
        std::thread::sleep(Duration::from_millis(10));
    }
    drop(input);
    let out = child.wait_with_output().expect("it ends");
    assert_eq!(String::from_utf8(out.stdout).expect("text"), print_page(&disk));
}

/// A byte more than a disk has tells enough.
#[test]
fn it_ends_while_a_longer_input_is_still_open() {
    let mut child = begin("page");
    let mut input = child.stdin.take().expect("standard input");
    input.write_all(&[0; DISK + 1]).expect("it is read");
    let (sender, receiver) = channel();
    std::thread::spawn(move || sender.send(child.wait_with_output().expect("it ends")));
    let out = receiver.recv_timeout(Duration::from_secs(20)).expect("in time");
    assert_eq!(String::from_utf8(out.stdout).expect("text"), print_page(&[0; DISK + 1]));
    drop(input);
}

/// The program has no status; it says that it failed.
#[test]
fn a_failed_write_or_read_is_said() {
    let full = File::options().write(true).open("/dev/full").expect("a full device");
    let full = program("page").stdin(Stdio::piped()).stdout(full).stderr(Stdio::piped()).spawn();
    let said = ended(full.expect("the program is built"), &highest_disk(Layout::Numbers)).stderr;
    assert_eq!(said, b"page: standard output cannot be written\n");
    let folder = File::open(ROOT).expect("a folder");
    let out = program("page").stdin(folder).output().expect("it ends");
    assert!(out.stdout.is_empty());
    assert_eq!(out.stderr, b"page: standard input cannot be read\n");
}
