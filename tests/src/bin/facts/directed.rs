// directed.rs: directed tapes: what random ones seldom meet.

use super::{Facts, Start};
use card_tests::command::{from_hex, Command, Task, Write};
use card_tests::directed::{disk_with, put_record, retire_of, REPORTS};
use card_tests::foreign;
use card_tests::layout::{put_word, Layout, Name, Shape, Tail, DISK, LAST_TAIL, LAYOUTS, MEMORY};
use card_tests::random::Random;
use card_tests::sequence::{CHANGED_AT_THE_CUT, FIRST_NOT_HELD, LATER_ALONE, NAMES_A_LATER_ONE};
use card_tests::shrink::tape_of;

pub fn run(facts: &mut Facts) {
    let mut random = Random::new(0);
    let written =
        [SHORT, LIMITS, FULL, "0101010402000000004142", "0101040A0A", RETIRED_LATER, WITHOUT_BLOCKS].map(from_hex);
    let in_sequence = [CHANGED_AT_THE_CUT, LATER_ALONE, NAMES_A_LATER_ONE, FIRST_NOT_HELD].map(from_hex);
    let named = [HIGHEST_FIRST, HIGHEST_LAST].map(from_hex);
    let made = [crowded_list(), nine_blocks(), passed_on()];
    let reports = REPORTS.map(|(tape, _)| from_hex(tape));
    for tape in written.into_iter().chain(in_sequence).chain(named).chain(made).chain(reports) {
        facts.tape(&Start::blank(), &tape, &mut random);
    }
    for (at, word) in MASTERS.into_iter().chain([(8, 0)]).chain(foreign::SPOILS) {
        let start = spoiled(at, word);
        facts.tape(&start, &from_hex("070607070705000800020000000041424344"), &mut random);
    }
    facts.tape(&last_numbers(), &from_hex(OPENS_LAST), &mut random);
    for ([cores, blocks, journal], seed) in [([1, 1, 4], 0), ([2, 3, 6], 5), ([8, 64, 24], 0)] {
        for layout in LAYOUTS {
            let start = Start::formatted(layout, Shape { cores, blocks, journal }, seed);
            facts.tape(&start, &from_hex(AFTER_FORMAT), &mut random);
        }
    }
    wrong_lengths(facts);
}

/// Core 0 names core 1's second, which runs, and then its first, which is closed: its commit holds the second.
const HIGHEST_FIRST: &str =
    "01020206 020100000001010101 0301 020100010002020202 020000010403030303 020000000404040404 \
    0401 0401 0401 0300 0400 0400 0400 0500 06 07 07";

/// Core 0 holds a block into which core 1's first and second write.
const HIGHEST_LAST: &str =
    "01020104 020000000001010101 020100000402020202 0301 020100000803030303 0401 0401 0300 0400 0400 0400 0500 06 07 07";

/// One block written, stored and taken home.
pub const SHORT: &str = "01010208 0200000105C9CACBCC 0300 0400 0400 0400 0500 0200000000D1D2D3D4";

/// 28; 26 at the third block in the shortest journal, and while a record fills it; once that is retired all is free.
const FULL: &str = "01010404 0300 020000000041424344 020000010041424344 020000020041424344 0300 0200000000C03B3998 \
    0400 0400 0400 0400 020000000051525354 0500 0500 0800 0300 0200000000C03B3998 0200000004AABBCCDD 0300 0400 0400 0400";

/// 34 before any home store and between two, other commands before the last of them and before RETIRE, 35 after it; then a cut between
/// the home store of another and its RETIRE, which forgets it.
const RETIRED_LATER: &str = "0102030A 020000000001010101 020000010002020202 0300 0400 0400 0400 0400 0800 0500 0800 \
    020100020003030303 0500 0500 0301 0401 0401 0401 0800 0800 0501 06 07 07 0801";

/// Core 1's first has no block: 32 until core 0's is committed, then 35 and RETIRE alone. Its second is brought back.
const WITHOUT_BLOCKS: &str =
    "0102020A 020000000001010101 020100000402020202 0301 0401 0401 0501 0801 0300 0400 0400 0400 0501 \
    0801 020100010003030303 0301 0401 0401 0401 0801 06 07 07 07";

/// FORMAT beside its limits, then at them; WRITE, CLOSE, STORE, CHECKPOINT and RETIRE beside theirs.
const LIMITS: &str = "01000104 01090104 01010004 01014104 01010103 01010119 01084018 01000000 \
    020800000001020304 02FF00000001020304 020700400001020304 0207FFFF0001020304 0207003F7D01020304 \
    0207003F7C01020304 0308 0408 0508 0808 0307 0407 0407 0407 0507 0807 0507 0807 07 06 01084018 0200";

/// Fields of the master at their limits, and beside those of the shape that `spoiled` has.
const MASTERS: [(usize, u32); 6] = [(0, 0xC03B3999), (16, 64), (24, LAST_TAIL), (36, 5), (36, 6), (40, 0)];

/// A small disk with one committed record, and one word of its master replaced.
fn spoiled(at: usize, word: u32) -> Start {
    let shape = Shape { cores: 2, blocks: 3, journal: 6 };
    let tails = [Tail { number: 4, position: 5 }, Tail { number: 1, position: 0 }];
    let mut disk = disk_with(Layout::Numbers, shape, &tails);
    let own = Name { core: 0, number: 4 };
    put_record(&mut disk, own, 5, &[2], &[Name { core: 1, number: 0xFFFF }, own]);
    put_word(&mut disk, at, word);
    Start::down(disk, 0, 0)
}

/// Core 0's tail is the last number: a record of it stands there, and none can be opened after it.
fn last_numbers() -> Start {
    let shape = Shape { cores: 2, blocks: 3, journal: 6 };
    let last = Tail { number: LAST_TAIL - 1, position: 2 };
    let mut disk = disk_with(Layout::Numbers, shape, &[last, Tail { number: LAST_TAIL - 3, position: 0 }]);
    put_record(&mut disk, Name { core: 0, number: last.number }, 2, &[1, 0], &[]);
    Start::down(disk, 0, 77)
}

/// Recovery, 27 on core 0, then the last two numbers on core 1 and 27 there too.
const OPENS_LAST: &str = "070707 020000000001020304 020100010005060708 0301 0401 0401 0401 0501 0801 \
    020100020009090909 0301 020100020001010101 0401 0401 0401 06 07 07 07 020100000001020304";

/// Over a disk as FORMAT leaves it: one RECOVER, then a transaction kept over a cut between two home stores.
const AFTER_FORMAT: &str =
    "020000000001020304 06 07 07 020000000001020304 020000010005060708 0300 0400 0400 0400 0400 \
    06 07 06 07 07 07 020000000409090909 0300";

fn write(core: u8, block: u16) -> Command {
    Command::Write(Write { task: Task::Lamp, core, block, offset: core, data: [65 + core, block as u8, 0xC0, 0x3B] })
}

/// Core 0 runs on while core 1 is named twelve times; one more name fits in the holder's list and in the writer's. Then it commits.
fn crowded_list() -> Vec<u8> {
    let mut commands = vec![Command::Format { cores: 3, blocks: 2, journal: 24 }, write(0, 0)];
    for _ in 0..12 {
        commands.extend([
            write(1, 0),
            Command::Close { core: 1 },
            Command::Store { core: 1 },
            Command::Store { core: 1 },
        ]);
    }
    commands.extend([write(1, 0), write(2, 0), write(2, 1), write(0, 1), Command::Close { core: 0 }]);
    commands.extend([Command::Store { core: 0 }; 3]);
    commands.extend([Command::Checkpoint { core: 1 }, Command::Retire { core: 1 }, Command::Checkpoint { core: 0 }]);
    commands.push(Command::Cut);
    commands.extend([Command::Recover; 2]);
    tape_of(&commands)
}

/// 25 at the ninth block, the eight stored and taken home, RETIRE tried before, in between and after.
fn nine_blocks() -> Vec<u8> {
    let mut commands = vec![Command::Format { cores: 1, blocks: 9, journal: 24 }];
    commands.extend((0..9).rev().map(|block| write(0, block)));
    commands.extend([Command::Close { core: 0 }, write(0, 3), Command::Close { core: 0 }]);
    commands.extend([Command::Store { core: 0 }; 11]);
    for home_stores in [0, 4, 5, 0] {
        commands.extend(retire_of(0, home_stores));
    }
    tape_of(&commands)
}

/// A block handed on from core to core: 29, 32 and 33, then all retired.
fn passed_on() -> Vec<u8> {
    let mut commands = vec![Command::Format { cores: 3, blocks: 2, journal: 5 }];
    for core in 0..3 {
        commands.extend([write(core, 0), Command::Close { core }, Command::Store { core }, Command::Store { core }]);
    }
    commands.extend([Command::Store { core: 2 }, Command::Checkpoint { core: 2 }, Command::Store { core: 1 }]);
    commands.extend([Command::Store { core: 0 }, Command::Checkpoint { core: 2 }, Command::Store { core: 0 }]);
    commands.extend([Command::Retire { core: 2 }, Command::Checkpoint { core: 2 }]);
    for core in 0..3 {
        commands.extend(retire_of(core, 1));
        commands.push(Command::Checkpoint { core });
    }
    tape_of(&commands)
}

/// Refusal 1 in every phase, and commands at and past the end of the tape.
fn wrong_lengths(facts: &mut Facts) {
    let sizes =
        [(DISK - 1, MEMORY), (DISK + 1, MEMORY), (DISK, MEMORY - 1), (DISK, MEMORY + 1), (0, 0), (DISK, MEMORY)];
    let up = from_hex("01010204020000000001020304");
    let down = [&up[..], &[6]].concat();
    for before in [vec![], up, down] {
        for (disk, memory) in sizes {
            ["0400", "0800"].iter().for_each(|tape| facts.at(&before, &from_hex(tape), 0, disk, memory));
        }
        for (tape, at) in [("0400", 1), ("0400", 2), ("0400", 5), ("0201", 0), ("0901", 0), ("", 0), ("0603", 1)] {
            facts.at(&before, &from_hex(tape), at, DISK - 1, MEMORY);
            facts.at(&before, &from_hex(tape), at, DISK, MEMORY);
        }
    }
}
