// page.rs: the journal page of made disks in both layouts, column by column, and of generated and foreign ones against the ledger's
// reading.

use card_tests::card::{Card, Kind};
use card_tests::command::from_hex;
use card_tests::directed::{chain_disk, disk_with, highest_disk, put_record, LARGEST};
use card_tests::disks::{disk_after, disk_by, each_disk, P1_UNCUT};
use card_tests::endings;
use card_tests::foreign::SPOILS;
use card_tests::layout::{
    commit, descriptor, put_word, read_master, Block, Layout, Name, Shape, Tail, BLOCK, DISK, LAST_NUMBER, LAST_TAIL,
    LAYOUTS, MEMORY,
};
use card_tests::ledger::{Entry, Ledger, Rules};
use card_tests::page::{line_at, page, page_by, print_page, Line};
use card_tests::random::Random;
use card_tests::second_reader::{journal_stop, Stop};
use card_tests::wrong::{Wrong, WrongPage, WrongReader, READERS};
use std::collections::BTreeSet;

const SMALL: Shape = Shape { cores: 2, blocks: 4, journal: 12 };

const P1_PAGE: [&str; 3] =
    [".2..4.12", ".0..........1....................1..1..1.kept", ".1..........1....................2..0..1.kept"];

/// A line from its text, with dots for blanks and the fill cut off.
fn line(text: &str) -> Line {
    let mut line = [b' '; 65];
    for (column, byte) in line.iter_mut().zip(text.bytes()) {
        *column = if byte == b'.' { b' ' } else { byte };
    }
    line[64] = b'\n';
    line
}

fn text(page: &[Line]) -> String {
    String::from_utf8(page.concat()).expect("text")
}

/// The page has these lines, then one for each core with its end, which are given as digits.
fn shows(disk: &[u8], texts: &[&str], ends: &str) {
    let ends = ends.chars().enumerate().map(|(core, end)| format!(".{core}..{end}"));
    let texts: Vec<String> = texts.iter().map(|text| text.to_string()).chain(ends).collect();
    let lines: Vec<Line> = texts.iter().map(|text| line(text)).collect();
    let page = page(disk);
    assert!(page == lines, "the page is\n{}and not\n{}", text(&page), texts.join("\n"));
}

/// A disk of two cores whose tails have these numbers.
fn disk_of_two(layout: Layout, first: u32, second: u32) -> Vec<u8> {
    disk_with(layout, SMALL, &[Tail { number: first, position: 0 }, Tail { number: second, position: 11 }])
}

#[test]
fn p1_shows_both_until_the_journals_are_emptied() {
    shows(&disk_after(&from_hex(P1_UNCUT)), &P1_PAGE, "11");
    shows(&disk_after(&from_hex(&format!("{P1_UNCUT} | 06"))), &P1_PAGE, "11");
    shows(&disk_after(&from_hex(&format!("{P1_UNCUT} | 06 | 07"))), &P1_PAGE, "11");
    shows(&disk_after(&from_hex(&format!("{P1_UNCUT} | 06 | 07 | 07"))), &P1_PAGE[..1], "11");
    shows(&disk_by(Kind::older(Wrong::No), &from_hex(P1_UNCUT)), &P1_PAGE, "11");
}

#[test]
fn the_page_ends_with_a_line_for_each_core() {
    let right: String =
        [&P1_PAGE[..], &[".0..1", ".1..1"]].concat().iter().map(|text| format!("{text:.<64}\n")).collect();
    assert_eq!(print_page(&disk_after(&from_hex(P1_UNCUT))), right.replace('.', " "));
}

#[test]
fn only_what_is_committed_and_unretired_has_a_line() {
    let written = "01 01 01 04 | 02 00 0000 00 01020304 | 03 00 | 04 00 | 04 00";
    let of = |more: &str| disk_after(&from_hex(&format!("{written} {more}")));
    let committed = [".1..1..4", ".0..........1....................1..1..0.kept"];
    shows(&of(""), &committed[..1], "4");
    shows(&of("| 04 00"), &committed, "1");
    shows(&of("| 04 00 | 05 00"), &committed, "1");
    shows(&of("| 04 00 | 05 00 | 08 00"), &committed[..1], "1");
}

#[test]
fn what_hangs_on_an_uncommitted_one_is_left() {
    let p2 = disk_after(&from_hex(P1_UNCUT.strip_suffix("| 04 01").expect("the last store")));
    shows(&p2, &[P1_PAGE[0], ".0..........1....................1..1..1.left"], "14");
    for layout in LAYOUTS {
        let lines = [
            ".2..4.12",
            ".0..........7....................3..1..2.kept",
            ".0..........8....................3..3..2.left",
            ".0..........9....................3..0..0.left",
            ".1..........3....................3..2..1.left",
        ];
        shows(&hanging_disk(layout), &lines, "11");
    }
}

/// Core 0's first names what is below the tails and itself, the others hang on one of core 1 that is not there.
fn hanging_disk(layout: Layout) -> Vec<u8> {
    let of = |core, number| Name { core, number };
    let mut disk = disk_of_two(layout, 7, 3);
    put_record(&mut disk, of(0, 7), 0, &[3], &[of(1, 2), of(0, 6), of(0, 7), of(1, 2)]);
    put_record(&mut disk, of(0, 8), 3, &[0, 3, 1], &[of(0, 7), of(1, 3)]);
    put_record(&mut disk, of(0, 9), 8, &[], &[]);
    put_record(&mut disk, of(1, 3), 11, &[2, 1], &[of(1, 4)]);
    disk
}

/// Of a core that is named several times one counts; no core counts where the list is too long.
#[test]
fn the_cores_named_are_counted() {
    let of = |core, number| Name { core, number };
    let names: Vec<Name> = (0..13).map(|i| of(i % 2, 1 + i as u32 / 2)).collect();
    for (layout, count, line) in [
        (Layout::Lists, 12, ".0..........8....................3..0..2.kept"),
        (Layout::Numbers, 13, ".0..........8....................3..0..2.kept"),
        (Layout::Lists, 1, ".0..........8....................3..0..1.kept"),
        (Layout::Numbers, 1, ".0..........8....................3..0..1.kept"),
    ] {
        let mut disk = disk_of_two(layout, 8, 8);
        put_record(&mut disk, of(0, 8), 0, &[], &names[..count]);
        shows(&disk, &[P1_PAGE[0], line], "11");
    }
    let mut disk = disk_of_two(Layout::Lists, 8, 8);
    put_record(&mut disk, of(0, 8), 0, &[], &names);
    shows(&disk, &P1_PAGE[..1], "41");
}

/// A page that counts names differs where a list names a core twice.
#[test]
fn a_page_that_counts_names_is_told_apart() {
    let (mut random, mut told) = (Random::new(35), [0; 2]);
    for _ in 0..2000 {
        let disk = endings::disk(&mut random);
        let [right, wrong] = [WrongPage::No, WrongPage::NamesCounted].map(|wrong| page_by(wrong, &disk));
        let is_list = read_master(&disk).expect("a fit master").layout == Layout::Lists;
        told[is_list as usize] += (right != wrong) as usize;
    }
    println!("the page counts names, not the cores named: {} disks", told[1]);
    assert!(told[0] == 0 && told[1] > 500, "{told:?}");
}

/// Core 0's first names both of core 1, core 1's second both of core 0, the last of which is stored up to its commit.
const NAMED_TWICE: &str =
    "01 03 04 0C | 02 01 0000 00 01010101 | 03 01 | 04 01 | 04 01 | 04 01 | 02 01 0001 00 02020202 \
    | 02 00 0000 04 03030303 | 02 00 0001 04 04040404 | 02 02 0001 08 05050505 | 03 00 | 04 00 | 04 00 | 04 00 \
    | 02 00 0000 08 06060606 | 02 00 0001 0C 07070707 | 02 02 0000 0C 08080808 | 03 02 | 04 02 | 04 02 | 03 01 | 04 01 \
    | 04 01 | 04 01 | 03 00 | 04 00 | 04 00";

/// The page of a disk with lists: its head and lines as they were printed before request (d), each line with the name count of today.
fn differs_in_the_name_count(disk: &[u8], head: &str, lines: &[(&str, usize)], ends: &str) {
    assert_eq!(disk[8..12], [0; 4]);
    let before: Vec<&str> = std::iter::once(head).chain(lines.iter().map(|(line, _)| *line)).collect();
    let counted = lines.iter().map(|(line, count)| format!("{}{count:.>2}{}", &line[..38], &line[40..]));
    let today: Vec<String> = std::iter::once(head.into()).chain(counted).collect();
    shows(disk, &today.iter().map(String::as_str).collect::<Vec<_>>(), ends);
    let counting = page_by(WrongPage::NamesCounted, disk);
    assert!(counting[..before.len()] == before.iter().map(|text| line(text)).collect::<Vec<_>>());
}

/// The pages of lists differ from those before request (d) in the name count alone.
#[test]
fn pages_of_older_disks_are_as_before_but_for_the_name_count() {
    let older = |tape: &str| disk_by(Kind::older(Wrong::No), &from_hex(tape));
    let torn = [
        (".0..........1....................2..1..2.left", 1),
        (".1..........1....................1..1..0.kept", 0),
        (".1..........2....................4..1..3.left", 2),
        (".2..........1....................3..0..2.left", 2),
    ];
    differs_in_the_name_count(&older(NAMED_TWICE), ".3..4.12", &torn, "411");
    let whole = [
        (".0..........1....................2..1..2.kept", 1),
        (".0..........2....................5..1..3.kept", 3),
        (".1..........1....................1..1..0.kept", 0),
        (".1..........2....................4..1..3.kept", 2),
        (".2..........1....................3..0..2.kept", 2),
    ];
    differs_in_the_name_count(&older(&format!("{NAMED_TWICE} | 04 00")), ".3..4.12", &whole, "111");
    let hanging = [
        (".0..........7....................3..1..4.kept", 2),
        (".0..........8....................3..3..2.left", 2),
        (".0..........9....................3..0..0.left", 0),
        (".1..........3....................3..2..1.left", 1),
    ];
    differs_in_the_name_count(&hanging_disk(Layout::Lists), ".2..4.12", &hanging, "11");
    let full: Vec<String> = (0..8).map(|core| format!(".{core}.4000000000.18446744073709551615..8.12.kept")).collect();
    let full: Vec<(&str, usize)> = full.iter().map(|line| (line.as_str(), 8)).collect();
    differs_in_the_name_count(&highest_disk(Layout::Lists), ".8.64.24", &full, "11111111");
}

#[test]
fn a_record_without_blocks_has_a_line() {
    let mut disk = disk_of_two(Layout::Numbers, 1, 1);
    put_record(&mut disk, Name { core: 1, number: 1 }, 11, &[], &[]);
    shows(&disk, &[P1_PAGE[0], ".1..........1....................3..0..0.kept"], "11");
}

#[test]
fn a_line_has_room_for_every_digit() {
    let full = (0..8).map(|core| format!(".{core}.4000000000.18446744073709551615..8..8.kept"));
    let texts: Vec<String> = std::iter::once(".8.64.24".into()).chain(full).collect();
    let texts: Vec<&str> = texts.iter().map(String::as_str).collect();
    LAYOUTS.iter().for_each(|layout| shows(&highest_disk(*layout), &texts, "11111111"));
}

#[test]
fn no_number_above_the_last_has_a_line() {
    let mut disk = disk_of_two(Layout::Numbers, LAST_TAIL, LAST_NUMBER - 1);
    put_record(&mut disk, Name { core: 0, number: LAST_TAIL }, 0, &[1], &[]);
    put_record(&mut disk, Name { core: 1, number: LAST_NUMBER - 1 }, 11, &[1], &[]);
    shows(&disk, &[P1_PAGE[0], ".1.3999999999....................3..1..0.kept"], "11");
}

/// Twelve records of two blocks leave no block of a journal of 24.
#[test]
fn full_journals_show_all() {
    for (layout, is_met) in LAYOUTS.into_iter().flat_map(|layout| [(layout, true), (layout, false)]) {
        let word = if is_met { "kept" } else { "left" };
        let page = page(&chain_disk(layout, 0, is_met));
        assert_eq!(page.len(), 105);
        assert!(page[1..97].iter().all(|line| line[41..45] == *word.as_bytes()), "not all are {word}");
        assert!((0..8).all(|core| page[97 + core] == line(&format!(".{core}..1"))));
    }
}

/// Each core below C has a line, whatever its end.
#[test]
fn each_end_has_a_line() {
    let shape = Shape { cores: 5, blocks: 2, journal: 4 };
    let mut disk = disk_with(Layout::Numbers, shape, &[Tail { number: 9, position: 3 }; 5]);
    let mut put = |core, position, block: &Block| {
        let start = shape.place(core, position) * BLOCK;
        disk[start..start + BLOCK].copy_from_slice(block);
    };
    put(1, 3, &descriptor(9, &[0, 0], &[false; 2]));
    put(2, 3, &descriptor(9, &[1], &[false]));
    put(2, 5, &commit(Layout::Numbers, 9, 1, &[]));
    put(2, 6, &descriptor(10, &[], &[]));
    put(3, 3, &descriptor(9, &[0, 1], &[true; 2]));
    put(3, 6, &commit(Layout::Numbers, 8, 1, &[]));
    put(4, 3, &descriptor(9, &[0, 1], &[true; 2]));
    put(4, 6, &commit(Layout::Numbers, 9, 1, &[]));
    let lines =
        [".5..2..4", ".2..........9....................1..1..0.kept", ".4..........9....................1..2..0.kept"];
    shows(&disk, &lines, "12341");
}

#[test]
fn a_disk_of_another_length_is_refused() {
    let disk = [disk_after(&from_hex(P1_UNCUT)), vec![0; 2 * DISK]].concat();
    let near = (DISK - 20..DISK + 20).filter(|length| *length != DISK);
    for length in near.chain([0, 1, 127, 128, 129, DISK / 2, 2 * DISK]) {
        shows(&disk[..length], &[".1"], "");
    }
}

#[test]
fn an_unfit_master_is_refused() {
    shows(&[0; DISK], &[".8"], "");
    shows(&[0xFF; DISK], &[".8"], "");
    for (at, word) in SPOILS {
        let mut disk = disk_after(&from_hex(P1_UNCUT));
        put_word(&mut disk, at, word);
        match at {
            80 | 124 => shows(&disk, &P1_PAGE, "11"),
            _ => shows(&disk, &[".8"], ""),
        }
    }
}

#[test]
fn a_line_past_the_last_has_no_fields() {
    let lines = page(&disk_after(&from_hex(P1_UNCUT)));
    assert_eq!([0, 1, 2].map(|i| line_at(&lines, i)), P1_PAGE.map(line));
    assert_eq!([3, 4].map(|i| line_at(&lines, i)), [".0..1", ".1..1"].map(line));
    assert_eq!([5, 6, usize::MAX].map(|i| line_at(&lines, i)), [line(""); 3]);
}

/// Puts a number down so that its last digit stands in this column, counted from 1.
fn put_number(line: &mut Line, last: usize, number: u64) {
    let (mut column, mut rest) = (last, number);
    loop {
        line[column - 1] = b'0' + (rest % 10) as u8;
        (column, rest) = (column - 1, rest / 10);
        if rest == 0 {
            return;
        }
    }
}

fn numbers(fields: &[(usize, u64)]) -> Line {
    let mut line = line("");
    fields.iter().for_each(|(last, number)| put_number(&mut line, *last, *number));
    line
}

/// A transaction's line as the ledger has it.
fn told(ledger: &Ledger, core: u8, entry: &Entry) -> Line {
    let cores: BTreeSet<u8> = entry.names.iter().map(|name| name.core).collect();
    let counts = [(37, entry.blocks.len() as u64), (40, cores.len() as u64)];
    let mut line = numbers(&[&[(2, core as u64), (13, entry.number as u64), (34, entry.stamp)][..], &counts].concat());
    let is_valid = ledger.is_valid(Name { core, number: entry.number });
    line[41..45].copy_from_slice(if is_valid { b"kept" } else { b"left" });
    line
}

/// The page by the ledger, which reads journals and follows names with code of its own; the refusal is RECOVER's, and the ends are
/// the second reader's.
fn told_page(disk: &[u8]) -> Vec<Line> {
    let answer = Card::down().command(&mut disk.to_vec(), &mut [0; MEMORY], &[7], 0).answer;
    if answer != 0 {
        return vec![numbers(&[(2, answer as u64)])];
    }
    let ledger = Ledger::over(disk, &[], Rules::default());
    let Shape { cores, blocks, journal } = ledger.shape;
    let head = numbers(&[(2, cores as u64), (5, blocks as u64), (8, journal as u64)]);
    let entries = (0..cores).flat_map(|core| ledger.lines[core as usize].committed().map(move |entry| (core, entry)));
    let transactions = entries.map(|(core, entry)| told(&ledger, core, entry));
    let stops = stops(disk, WrongReader::No).into_iter().enumerate();
    let ends = stops.map(|(core, stop)| numbers(&[(2, core as u64), (5, stop.end as u64)]));
    std::iter::once(head).chain(transactions).chain(ends).collect()
}

/// The page is as the ledger has it; so many lines.
fn is_told(disk: &[u8]) -> usize {
    let page = page(disk);
    assert!(page == told_page(disk), "not as the ledger has it:\n{}", text(&page));
    page.len()
}

/// Where a reader stops in each journal of a disk with a fit master.
fn stops(disk: &[u8], reader: WrongReader) -> Vec<Stop> {
    let master = read_master(disk).expect("a fit master");
    (0..master.shape.cores).map(|core| journal_stop(disk, &master, core, reader)).collect()
}

#[test]
fn every_page_is_as_the_ledger_tells_it() {
    let (mut random, mut lines) = (Random::new(31), 0);
    each_disk(60_000, 31, |disk| {
        lines += is_told(disk);
        is_told(&disk[..random.below(DISK)]);
    });
    assert!(lines > 50_000, "{lines} lines");
    for layout in LAYOUTS {
        is_told(&highest_disk(layout));
        is_told(&chain_disk(layout, 0, true));
        is_told(&chain_disk(layout, 1, false));
        is_told(&disk_with(layout, LARGEST, &[]));
    }
}

/// How often each end was met: in all, with no block left, with one, and where the blocks left go round the journal's end; and
/// which counts of blocks left.
#[derive(Default)]
struct Met {
    ends: [[usize; 4]; 5],
    lefts: BTreeSet<usize>,
}

impl Met {
    fn count(&mut self, disk: &[u8]) {
        let journal = read_master(disk).expect("a fit master").shape.journal as usize;
        for Stop { end, next, left } in stops(disk, WrongReader::No) {
            let kinds = [true, left == 0, left == 1, next.position as usize + left > journal];
            self.lefts.insert(left);
            self.ends[end as usize].iter_mut().zip(kinds).for_each(|(count, is_met)| *count += is_met as usize);
        }
    }
}

#[test]
fn pages_of_made_endings_are_as_the_ledger_tells_them() {
    let (mut random, mut met) = (Random::new(33), Met::default());
    for _ in 0..20_000 {
        let disk = endings::disk(&mut random);
        is_told(&disk);
        met.count(&disk);
    }
    for (end, counts) in met.ends.iter().enumerate().skip(1) {
        let [all, none_left, one_left, round] = counts;
        println!("end {end}: {all}, {none_left} with no block left, {one_left} with one, {round} round the end of J");
        let is_due = [true, end == 1, end < 4, true];
        assert_eq!(counts.map(|count| count > 0), is_due, "end {end}: {counts:?}");
    }
    assert!(met.lefts.into_iter().eq(0..=24));
}

/// Where no block is left the journal's first record stands, whose number is not the expected one: that this is not asked for makes
/// a difference on one record alone (`ends.rs`).
#[test]
fn made_endings_tell_wrong_readers_apart() {
    let (mut random, mut told) = (Random::new(34), vec![0; READERS.len()]);
    for _ in 0..4000 {
        let disk = endings::disk(&mut random);
        let right = stops(&disk, WrongReader::No);
        for (count, (reader, _)) in told.iter_mut().zip(READERS) {
            *count += (stops(&disk, *reader) != right) as usize;
        }
    }
    for (count, (reader, words)) in told.iter().zip(READERS) {
        println!("{words}: {count} disks");
        assert_eq!(*count > 0, *reader != WrongReader::NoneLeftUnasked, "{words}: {count} disks");
    }
}
