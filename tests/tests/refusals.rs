// refusals.rs: every number of the paper's list is answered, on a short run made for it and in generated ones; 24 by older cards alone.

use card_tests::card::{Card, Kind, Outcome, Phase};
use card_tests::checks::{Bench, Checks};
use card_tests::command::from_hex;
use card_tests::layout::{master, Block, Master, Shape, Tail, Tails, DISK, LAST_NUMBER, LAST_TAIL, LAYOUTS, MEMORY};
use card_tests::wrong::Wrong;

struct Run {
    card: Card,
    disk: Vec<u8>,
    memory: Vec<u8>,
}

impl Run {
    fn blank() -> Run {
        Run::of(Kind::default())
    }

    fn of(kind: Kind) -> Run {
        let card = Card::with(Phase::Blank, kind);
        Run { card, disk: vec![0x5A; DISK], memory: vec![0x5A; MEMORY] }
    }

    fn down_over(master: &[u8]) -> Run {
        let mut disk = vec![0; DISK];
        disk[..master.len()].copy_from_slice(master);
        Run { card: Card::down(), disk, memory: vec![0; MEMORY] }
    }

    /// The answers of a tape; a refusal must leave everything as it was.
    fn answers(&mut self, tape: &str) -> Vec<u8> {
        let tape = from_hex(tape);
        let (mut offset, mut answers) = (0, Vec::new());
        while offset < tape.len() {
            let before = (self.card, self.disk.clone(), self.memory.clone());
            let outcome = self.card.command(&mut self.disk, &mut self.memory, &tape, offset);
            if outcome.answer != 0 {
                assert_eq!(outcome.stores, 0);
                assert!(before == (self.card, self.disk.clone(), self.memory.clone()), "a refusal changed something");
            }
            answers.push(outcome.answer);
            offset = outcome.next;
        }
        answers
    }
}

fn write(core: u8, block: u16) -> String {
    format!("02 {core:02x} {block:04x} 00 01020304 ")
}

fn commit(core: u8, blocks: usize) -> String {
    format!("03 {core:02x} ") + &format!("04 {core:02x} ").repeat(blocks + 2)
}

/// The last answer of a tape on a blank card, the same by an older card.
fn last(tape: &str) -> u8 {
    let [new, old] = last_of_both(tape);
    assert_eq!(old, new);
    new
}

/// By a card of today and by one of request (c).
fn last_of_both(tape: &str) -> [u8; 2] {
    [Kind::default(), Kind::older(Wrong::No)].map(|kind| *Run::of(kind).answers(tape).last().unwrap())
}

#[test]
fn refusal_1_comes_first() {
    let mut run = Run::blank();
    let tape = from_hex("01 01 01 04 | 63 | 02 00");
    for (disk, memory) in [(0, 0), (DISK - 1, MEMORY), (DISK, MEMORY - 1), (DISK, 0)] {
        let mut at = |offset| run.card.command(&mut run.disk[..disk], &mut run.memory[..memory], &tape, offset);
        let refused = |next| Outcome { answer: 1, stores: 0, next };
        assert_eq!([at(0), at(4), at(5)], [refused(4), refused(7), refused(7)]);
    }
    let (mut long, mut memory) = (vec![7; DISK + 1], vec![7; MEMORY + 128]);
    assert_eq!(run.card.command(&mut long, &mut memory, &tape, 0).answer, 1);
    assert_eq!(run.card.read_number(&long, &memory, 0), 1);
    assert!(long.iter().chain(&memory).all(|byte| *byte == 7) && run.card == Card::blank());
}

#[test]
fn past_the_end_there_is_no_command() {
    let mut run = Run::blank();
    for offset in [2, 3, 900] {
        let outcome = run.card.command(&mut run.disk, &mut run.memory, &[6, 6], offset);
        assert_eq!(outcome, Outcome { answer: 3, stores: 0, next: offset });
    }
}

#[test]
fn refusals_of_the_operands() {
    let up = "01 02 03 0C ";
    assert_eq!([0, 10, 11, 255].map(|byte| last(&format!("01 01 01 0A {byte:02x} 00"))), [2; 4]);
    assert_eq!([2, 3, 4, 5, 8, 9].map(|byte| last(&format!("01 01 01 0A {byte:02x}"))), [3; 6]);
    for bad in ["00 01 04", "09 01 04", "01 00 04", "01 41 04", "01 01 03", "01 01 19"] {
        assert_eq!(last(&format!("01 {bad}")), 4, "{bad}");
    }
    assert_eq!(last(&(up.to_string() + &write(2, 9))), 5);
    assert_eq!([3, 4, 5, 8].map(|byte| last(&format!("{up} {byte:02x} 02"))), [5; 4]);
    assert_eq!(last(&(up.to_string() + &write(1, 3))), 6);
    assert_eq!(last(&format!("{up} 02 00 0100 FF 00000000")), 6);
    assert_eq!(last(&format!("{up} 02 00 0000 7D 00000000")), 7);
}

#[test]
fn refusal_8_looks_at_the_fields_named_and_no_other() {
    let shape = Shape::new(2, 64, 24).unwrap();
    let mut tails = Tails::default();
    tails[..2].fill(Tail { number: LAST_TAIL, position: 23 });
    for layout in LAYOUTS {
        looks_at_the_fields(master(&Master { layout, shape, tails }));
    }
}

fn looks_at_the_fields(good: Block) {
    let with = |at: usize, byte: u8| {
        let mut block = good;
        block[at] = byte;
        Run::down_over(&block).answers("07")[0]
    };
    let unread = [40, 43, 44, 127].map(|at| with(at, 0xFF));
    assert_eq!(unread, [0; 4]);
    assert_eq!([0, 1, 2, 3, 255].map(|byte| with(11, byte)), [0, 0, 8, 8, 8]);
    assert_eq!([8, 9, 10].map(|at| with(at, 1)), [8; 3]);
    let header = [(0, 0), (3, 0), (7, 1), (12, 1), (15, 0), (15, 9)];
    let others = [(19, 0), (19, 65), (23, 3), (23, 25), (27, 0xFF), (31, 24)];
    assert_eq!(header.map(|(at, byte)| with(at, byte)), [8; 6]);
    assert_eq!(others.map(|(at, byte)| with(at, byte)), [8; 6]);
    let mut none = good;
    none[32..36].fill(0);
    assert_eq!(Run::down_over(&none).answers("07 06 07"), [8, 0, 8]);
}

#[test]
fn refusals_of_the_phase() {
    let mut run = Run::blank();
    assert_eq!(run.answers("02 00 0000 00 00000000 03 00 04 00 05 00 06 07 08 00"), [20; 7]);
    assert_eq!(run.card.read_number(&run.disk, &run.memory, 0), 20);
    assert_eq!(run.answers("01 01 01 04 01 01 01 04 01 00 00 00 07 06"), [0, 21, 21, 23, 0]);
    assert_eq!(run.answers("01 00 00 00 02 09 0000 00 00000000 03 09 04 00 05 00 06"), [21, 22, 22, 22, 22, 0]);
    assert_eq!(run.answers("08 00 08 09"), [22; 2]);
    assert_eq!(run.card.read_number(&run.disk, &run.memory, 99), 22);
    assert_eq!(run.answers("07 07"), [0, 23]);
    assert_eq!(run.card.read_number(&run.disk, &run.memory, 1), 6);
    assert_eq!(run.card.read_number(&run.disk, &run.memory, 0), 0);
}

/// A thirteenth name, in the holder's list and in the writer's, is refused by an older card alone.
#[test]
fn no_list_is_too_long() {
    let visit = write(1, 0) + &commit(1, 0);
    let holder = "01 02 09 18".to_string() + &write(0, 0) + &visit.repeat(12);
    assert_eq!(last(&holder), 0);
    // The twelve records fill core 1's journal, so a thirteenth visit comes from core 2 of a wider card.
    let wider = holder.replacen("01 02 09 18", "01 03 09 18", 1);
    assert_eq!(last_of_both(&(wider.clone() + &write(2, 0))), [0, 24]);
    // The holder's own list is full too: as a writer it takes a closed one's block.
    assert_eq!(last_of_both(&(wider.clone() + &write(2, 1) + &commit(2, 1) + &write(0, 1))), [0, 24]);
    assert_eq!(last(&(wider + &write(0, 1))), 0);
}

#[test]
fn refusals_25_to_27() {
    let nine: String = (0..9).map(|block| write(0, block)).collect();
    assert_eq!(last(&("01 01 09 18".to_string() + &nine)), 25);
    assert_eq!(last(&("01 01 09 0A".to_string() + &nine)), 25);
    let three = write(0, 0) + &write(0, 1) + &write(0, 2);
    assert_eq!(last(&("01 01 03 04".to_string() + &three)), 26);
    // Opening without a block needs room for two records as well.
    let opens = write(0, 0) + &write(1, 1) + &write(1, 2) + "03 01" + &write(1, 0);
    assert_eq!(last(&("01 02 03 04".to_string() + &opens)), 26);
    assert_eq!(last(&("01 02 03 06".to_string() + &opens)), 0);
    let mut tails = Tails::default();
    tails[0] = Tail { number: LAST_NUMBER - 1, position: 3 };
    let mut run = Run::down_over(&master(&Master { shape: Shape::new(1, 1, 4).unwrap(), tails, ..Master::default() }));
    let once = write(0, 0) + &commit(0, 1) + "05 00 08 00";
    assert_eq!(run.answers(&("07".to_string() + &once + &write(0, 0))), [0, 0, 0, 0, 0, 0, 0, 0, 27]);
    assert_eq!(run.answers(&("06 07".to_string() + &write(0, 0) + "06 07")), [0, 0, 27, 0, 0]);
    assert_eq!(run.disk[24..28], LAST_TAIL.to_be_bytes());
}

#[test]
fn refusals_28_to_33() {
    let up = "01 02 02 18".to_string();
    assert_eq!(last(&(up.clone() + "03 00")), 28);
    assert_eq!(last(&(up.clone() + &write(0, 0) + "03 00" + &write(0, 0) + "04 00 04 00 03 00")), 29);
    assert_eq!(last(&(up.clone() + &write(0, 0) + "04 00")), 30);
    assert_eq!(last(&(up.clone() + &write(0, 0) + &commit(0, 1) + "04 00")), 30);
    let shared = up.clone() + &write(0, 0) + "03 00" + &write(1, 0) + &commit(1, 1);
    // CHECKPOINT and RETIRE; where the latter meets 32 or 33, home stores are outstanding too
    for byte in ["05", "08"] {
        assert_eq!(last(&(up.clone() + &write(0, 0) + &format!("03 00 04 00 04 00 {byte} 00"))), 31);
        assert_eq!(last(&(up.clone() + &write(0, 0) + &write(1, 0) + &commit(0, 1) + &format!("{byte} 00"))), 32);
        assert_eq!(last(&(shared.clone() + &format!("{byte} 01"))), 32);
        assert_eq!(last(&(shared.clone() + &format!("04 00 04 00 04 00 {byte} 01"))), 33);
        // home stores alone do not retire the older one
        assert_eq!(last(&(shared.clone() + &format!("04 00 04 00 04 00 05 00 {byte} 01"))), 33);
    }
    assert_eq!(last(&(shared + "04 00 04 00 04 00 05 00 08 00 05 01")), 0);
}

/// Two blocks, so that one home store can be outstanding; a cut forgets those that are done. Then one without blocks.
#[test]
fn refusals_34_and_35() {
    let two = write(0, 0) + &write(0, 1) + &commit(0, 2);
    let mut run = Run::blank();
    run.answers(&("01 02 02 18".to_string() + &two));
    assert_eq!(run.answers("08 00 05 00 08 00 05 00 05 00 05 00 08 00 08 00 05 00"), [34, 0, 34, 0, 35, 35, 0, 31, 31]);
    run.answers(&two);
    assert_eq!(run.answers("05 00 05 00 06 07 07 07 08 00"), [0, 0, 0, 0, 0, 0, 31]);
    run.answers(&two);
    assert_eq!(run.answers("08 00 05 00 05 00"), [34, 0, 0]);
    // core 1's has no block and is tied to core 0's second, which is not committed yet: 32 comes before 35
    run.answers(&(write(0, 1) + &write(1, 1) + &commit(1, 0)));
    assert_eq!(run.answers("05 01 08 01 08 00"), [32, 32, 0]);
    run.answers(&commit(0, 1));
    assert_eq!(run.answers("05 01 08 01 08 01 05 01"), [35, 0, 31, 31]);
}

#[test]
fn generated_runs_meet_every_number() {
    let mut bench = Bench::new(Wrong::No, Checks::ALL, None);
    bench.soak(300_000, 3).expect("all checks hold");
    let all = (0..=8).chain(20..=36);
    let (answers, retiring, reporting) = (bench.tally.answers, bench.tally.retiring, bench.tally.reporting);
    all.clone().for_each(|answer| println!("answer {answer:>2}: {}", answers[answer]));
    println!("{retiring:?}\n{reporting:?}");
    let unmet: Vec<usize> = all.filter(|answer| answers[*answer] == 0).collect();
    assert_eq!(unmet, [24], "numbers never answered");
    assert!(bench.tally.answers_before[24] > 0 && bench.tally.longest_list > 12);
    assert!([retiring.later, retiring.without_blocks, retiring.first, retiring.cuts].iter().all(|count| *count > 100));
    assert!(reporting.ways().iter().all(|count| *count > 30), "{reporting:?}");
}
