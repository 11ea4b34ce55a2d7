// workload.rs: the tapes that both cards are measured on, made with the model so that each is known to run.

use crate::plain::Plain;
use crate::report::grouped;
use card_library::session::Session;
use card_library::stage::{Implementation, Stage};
use card_tests::card::{Card, Phase};
use card_tests::command::{from_hex, hex, Command, Task, Write};
use card_tests::directed;
use card_tests::layout::{Layout, Shape, DISK, MEMORY};
use card_tests::shrink::tape_of;

pub const LARGE: Shape = directed::LARGEST;
pub const SMALL: Shape = Shape { cores: 2, blocks: 4, journal: 12 };

/// About so many commands has a tape whose speed is measured, and one that is only held to its limit.
pub const LENGTH: usize = 10_000;
pub const SHORT: usize = 2_000;

/// A tape that is measured, and what comes before it.
pub struct Workload {
    pub name: String,
    /// A disk written elsewhere, over which the card begins down; without one it begins blank.
    foreign: Option<Vec<u8>>,
    prepare: Vec<u8>,
    pub tape: Vec<u8>,
    pub commands: usize,
}

impl Workload {
    /// Three lines of hex, for another process.
    pub fn to_text(&self) -> String {
        let foreign = self.foreign.as_deref().unwrap_or_default();
        [foreign, &self.prepare, &self.tape].map(|bytes| hex(bytes) + "\n").concat()
    }

    pub fn from_text(text: &str) -> Workload {
        let [foreign, prepare, tape] = [0, 1, 2].map(|i| from_hex(text.lines().nth(i).unwrap_or_default()));
        let foreign = (!foreign.is_empty()).then_some(foreign);
        Workload { name: String::new(), foreign, prepare, tape, commands: 0 }
    }

    /// A card as the measured tape finds it.
    pub fn stage<I: Implementation>(&self) -> Stage<I> {
        let mut stage = Stage::default();
        if let Some(disk) = &self.foreign {
            stage.start(true, disk, &[0; MEMORY]);
        }
        stage.run(&self.prepare);
        stage
    }
}

/// Every command of a tape, one call each. Callgrind counts what happens below this function and the next one.
#[inline(never)]
pub fn measured<I: Implementation>(stage: &mut Stage<I>, tape: &[u8]) {
    stage.run(tape);
}

/// The whole tape in one call of the library.
#[inline(never)]
pub fn measured_tape(stage: &mut Stage<Session>, tape: &[u8]) {
    stage.card.run(tape, &mut stage.disk, &mut stage.memory);
}

/// Commands as they are issued, with the model's card beside them.
struct Script {
    shape: Shape,
    commands: Vec<Command>,
    /// The model's answer to the last one.
    answer: u8,
    card: Card,
    disk: Vec<u8>,
    memory: Vec<u8>,
}

impl Script {
    fn new(shape: Shape) -> Script {
        let (disk, memory) = (vec![0; DISK], vec![0; MEMORY]);
        let mut script = Script { shape, commands: Vec::new(), answer: 0, card: Card::blank(), disk, memory };
        script.issue(Command::Format { cores: shape.cores, blocks: shape.blocks, journal: shape.journal });
        script
    }

    fn issue(&mut self, command: Command) {
        self.answer = self.card.command(&mut self.disk, &mut self.memory, &tape_of(&[command]), 0).answer;
        self.commands.push(command);
    }

    /// One that is carried out.
    fn carry_out(&mut self, command: Command) {
        self.issue(command);
        assert_eq!(self.answer, 0, "{command:?}");
    }

    fn write(&mut self, core: u8, block: usize) {
        let count = self.commands.len();
        let (offset, data) = (4 * (count % 32) as u8, (count as u32).to_be_bytes());
        self.carry_out(Command::Write(Write { task: Task::Lamp, core, block: block as u16, offset, data }));
    }

    fn commit(&mut self, core: u8) {
        self.issue(Command::Close { core });
        while self.card.cores[core as usize].closed.is_some() {
            self.issue(Command::Store { core });
        }
    }

    /// A committed transaction that takes these blocks.
    fn take(&mut self, core: u8, blocks: impl Iterator<Item = usize>) {
        blocks.for_each(|block| self.write(core, block));
        self.commit(core);
    }

    /// One with so many blocks, from one on.
    fn transaction(&mut self, core: u8, block: usize, count: usize) {
        let blocks = self.shape.blocks as usize;
        self.take(core, (block..block + count).map(|block| block % blocks));
    }

    /// As many of eight blocks as the journals of the first so many cores hold; each core has its own blocks.
    fn fill_eights(&mut self, cores: u8) {
        for core in (0..cores).flat_map(|core| [core; 2]) {
            self.transaction(core, 8 * core as usize, 8);
        }
    }

    /// Every core in turn tries to store its oldest one home, which took one block, and then to retire it, until nothing is left.
    fn drain(&mut self) {
        while self.card.cores.iter().any(|core| core.committed > 0) {
            for core in 0..self.shape.cores {
                let is_home = self.card.cores[core as usize].home > 0;
                self.issue(if is_home { Command::Retire { core } } else { Command::Checkpoint { core } });
            }
        }
    }

    /// So many transactions of one block, the cores in turn; each takes the block of the one before it with the same number,
    /// if `is_shared`.
    fn fill(&mut self, count: usize, is_shared: bool) {
        let cores = self.shape.cores as usize;
        for i in 0..count {
            let block = if is_shared { i / cores } else { i };
            self.transaction((i % cores) as u8, block % self.shape.blocks as usize, 1);
        }
    }

    /// As many of one block as the journals hold.
    fn fill_up(&mut self, is_shared: bool) {
        self.fill(self.shape.cores as usize * (self.shape.journal as usize / 3), is_shared);
    }

    /// What `fill` left is stored home and retired in the same order, that of the stamps, so that nothing is refused.
    fn empty(&mut self, count: usize) {
        for i in 0..count {
            let core = (i % self.shape.cores as usize) as u8;
            directed::retire_of(core, 1).into_iter().for_each(|command| self.carry_out(command));
        }
        assert!(self.card.cores.iter().all(|core| core.committed == 0), "{count} records");
    }

    /// RECOVER until the card is up.
    fn recover(&mut self) {
        while self.card.phase == Phase::Down {
            self.carry_out(Command::Recover);
        }
    }

    /// Recovery up to its last home store.
    fn recover_home(&mut self) {
        let mut before = (self.card, self.disk.clone());
        while self.card.phase == Phase::Down {
            before = (self.card, self.disk.clone());
            self.issue(Command::Recover);
        }
        self.commands.pop();
        (self.card, self.disk) = before;
    }

    /// A workload of all that was issued from a place on.
    fn split_off(self, start: usize, name: String) -> Workload {
        let (prepare, tape) = self.commands.split_at(start);
        Workload { name, foreign: None, prepare: tape_of(prepare), tape: tape_of(tape), commands: tape.len() }
    }

    /// The rounds until the tape is long enough; the format comes before it.
    fn rounds(mut self, kind: &str, length: usize, mut round: impl FnMut(&mut Script)) -> Workload {
        while self.commands.len() < length {
            round(&mut self);
        }
        let Shape { cores, blocks, journal } = self.shape;
        self.split_off(1, format!("{kind} {cores}x{blocks}x{journal}"))
    }
}

/// Each core in turn writes 32 times into its own blocks, at most four; the transaction is committed, stored home and retired.
fn write_heavy(shape: Shape, length: usize) -> Workload {
    let own = (shape.blocks / shape.cores).min(4) as usize;
    Script::new(shape).rounds("write", length, |script| {
        for core in 0..shape.cores {
            (0..32).for_each(|i| script.write(core, core as usize * own + i % own));
            script.commit(core);
            directed::retire_of(core, own).into_iter().for_each(|command| script.issue(command));
        }
    })
}

/// Full journals of transactions that share blocks; then every core in turn tries to store home and to retire until all are empty.
fn checkpoint_heavy(shape: Shape, length: usize) -> Workload {
    Script::new(shape).rounds("checkpoint", length, |script| {
        script.fill_up(true);
        script.drain();
    })
}

/// Full journals, a cut, and recovery, which is cut nine times before its last store.
fn recovery_heavy(shape: Shape, length: usize) -> Workload {
    Script::new(shape).rounds("recovery", length, |script| {
        script.fill_up(false);
        for _ in 0..9 {
            script.issue(Command::Cut);
            script.recover_home();
        }
        script.issue(Command::Recover);
    })
}

/// The six tapes whose speed is compared, of about so many commands.
pub fn tapes(length: usize) -> Vec<Workload> {
    let both = |make: fn(Shape, usize) -> Workload| [make(LARGE, length), make(SMALL, length)];
    [both(write_heavy), both(checkpoint_heavy), both(recovery_heavy)].into_iter().flatten().collect()
}

/// One command on a card of the largest shape that was made ready for it; it is carried out.
fn single(name: String, make_ready: impl FnOnce(&mut Script), command: Command) -> Workload {
    answered(0, name, make_ready, command)
}

/// One that has this answer.
fn answered(answer: u8, name: String, make_ready: impl FnOnce(&mut Script), command: Command) -> Workload {
    after(make_ready, name, |script| {
        script.issue(command);
        assert_eq!(script.answer, answer, "{command:?}");
    })
}

/// What is issued to a card of the largest shape that was made ready for it.
fn after(make_ready: impl FnOnce(&mut Script), name: String, issue: impl FnOnce(&mut Script)) -> Workload {
    let mut script = Script::new(LARGE);
    make_ready(&mut script);
    let start = script.commands.len();
    issue(&mut script);
    script.split_off(start, name)
}

const WRITE: Command = Command::Write(Write { task: Task::Lamp, core: 0, block: 0, offset: 0, data: [1, 2, 3, 4] });

/// WRITE under each of the four rules.
pub fn writes() -> Vec<Workload> {
    let by = |holder: &str, make_ready: fn(&mut Script)| single(format!("WRITE, {holder}"), make_ready, WRITE);
    vec![
        by("no holder", |_| ()),
        by("own block", |script| script.write(0, 0)),
        by("running holder", |script| script.write(1, 0)),
        by("closed holder", |script| script.transaction(1, 0, 1)),
    ]
}

/// WRITE, CHECKPOINT and RECOVER with so many records of one block in the journals.
pub fn with_records(count: usize) -> Vec<Workload> {
    let filled = |script: &mut Script| script.fill(count, false);
    let name = |command: &str| format!("{command}, {count} records");
    vec![
        single(name("WRITE"), filled, WRITE),
        single(name("CHECKPOINT"), filled, Command::Checkpoint { core: 0 }),
        single(name("RECOVER"), |script| cut(script, filled), Command::Recover),
    ]
}

/// RECOVER over so many records of one block each, until the card is up.
pub fn whole_recovery(count: usize) -> Workload {
    let filled = |script: &mut Script| cut(script, |script| script.fill(count, false));
    after(filled, format!("recovery of {count} records"), Script::recover)
}

/// CHECKPOINT and RETIRE of so many records of one block each, until the journals are empty.
pub fn whole_checkpointing(count: usize) -> Workload {
    let filled = |script: &mut Script| script.fill(count, false);
    after(filled, format!("checkpointing of {count} records"), |script| script.empty(count))
}

/// CHECKPOINT and RECOVER with one record for each core, of so many blocks; STORE of the descriptor of one.
pub fn with_blocks(count: usize) -> Vec<Workload> {
    let filled = |script: &mut Script| (0..8).for_each(|core| script.transaction(core, 8 * core as usize, count));
    let closed = |script: &mut Script| {
        (0..count).for_each(|block| script.write(0, block));
        script.issue(Command::Close { core: 0 });
    };
    let name = |command: &str| format!("{command}, {count} blocks");
    vec![
        single(name("STORE"), closed, Command::Store { core: 0 }),
        single(name("CHECKPOINT"), filled, Command::Checkpoint { core: 0 }),
        single(name("RECOVER"), |script| cut(script, filled), Command::Recover),
    ]
}

/// CHECKPOINT and RECOVER with journals full of records of eight blocks, two for each core.
pub fn with_eights() -> Vec<Workload> {
    // The last core's CHECKPOINT compares its blocks with those of 14 records of lower stamp.
    let own = |script: &mut Script| script.fill_eights(8);
    // The last block is looked for in all records.
    let last_home = |script: &mut Script| {
        cut(script, own);
        (1..LARGE.blocks).for_each(|_| script.issue(Command::Recover));
    };
    // The last block that core 7 takes is the last of core 6's too, so that it is found last.
    let one_shared = |script: &mut Script| {
        script.fill_eights(7);
        script.take(7, (55..63).rev());
        script.transaction(7, 56, 8);
    };
    // The blocks below 56 are looked for in all records, then 56, which each took last.
    let same = |script: &mut Script| (0..16).for_each(|i| script.take(i / 2, (56..64).rev()));
    let [first, last] = [0, 7].map(|core| Command::Checkpoint { core });
    vec![
        single("CHECKPOINT, own blocks".into(), own, last),
        answered(33, "CHECKPOINT, one block shared, refused".into(), one_shared, last),
        single("CHECKPOINT, the same blocks".into(), same, first),
        single("RECOVER, own blocks".into(), last_home, Command::Recover),
        single("RECOVER, the same blocks".into(), |script| cut(script, same), Command::Recover),
    ]
}

fn cut(script: &mut Script, make_ready: impl FnOnce(&mut Script)) {
    make_ready(script);
    script.issue(Command::Cut);
}

/// Every workload there is.
pub fn all() -> Vec<Workload> {
    let records = RECORDS.into_iter().flat_map(with_records);
    let wholes = WHOLES.into_iter().flat_map(|count| [whole_recovery(count), whole_checkpointing(count)]);
    let blocks = BLOCKS.into_iter().flat_map(with_blocks);
    tapes(LENGTH)
        .into_iter()
        .chain(writes())
        .chain(records)
        .chain(wholes)
        .chain(blocks)
        .chain(with_eights())
        .chain(valid())
        .chain(struck())
        .chain(LENGTHS.map(of_length))
        .collect()
}

/// The sizes that are measured. Of one command a record of each core less than of a whole: a WRITE must find room in its journal.
pub const RECORDS: [usize; 5] = [1, 8, 16, 32, 56];
pub const WHOLES: [usize; 6] = [1, 8, 16, 32, 48, 64];
pub const BLOCKS: [usize; 4] = [1, 2, 4, 8];
pub const LENGTHS: [usize; 3] = [100, 1_000, 10_000];

/// RECOVER of a disk with 96 records without blocks, with numbers, and with lists as on older disks.
fn worst(kind: &str, is_met: bool) -> [Workload; 2] {
    [(Layout::Numbers, ""), (Layout::Lists, ", lists")].map(|(layout, suffix)| {
        let foreign = Some(directed::chain_disk(layout, 0, is_met));
        let (name, tape) = (format!("RECOVER, 96 {kind}{suffix}"), tape_of(&[Command::Recover]));
        Workload { name, foreign, prepare: Vec::new(), tape, commands: 1 }
    })
}

/// None of the 96 is struck.
pub fn valid() -> [Workload; 2] {
    worst("valid", true)
}

/// One is struck a round.
pub fn struck() -> [Workload; 2] {
    worst("struck one by one", false)
}

/// The first so many commands of the write-heavy tape.
pub fn of_length(length: usize) -> Workload {
    let full = write_heavy(LARGE, LENGTH);
    let mut end = 0;
    for _ in 0..length {
        end = card_tests::command::read(&full.tape, end).map_or(full.tape.len(), |(_, next)| next);
    }
    let name = format!("{} commands", grouped(length as f64));
    Workload { name, tape: full.tape[..end].to_vec(), commands: length, ..full }
}

/// Both cards must do the same on a workload, command by command, or nothing is measured.
pub fn require_same(workload: &Workload) {
    let (mut library, mut plain) = (workload.stage::<Session>(), workload.stage::<Plain>());
    let mut at = 0;
    while at < workload.tape.len() {
        let (one, other) = (library.command(&workload.tape, at), plain.command(&workload.tape, at));
        assert_eq!((one.number, one.next), (other.number, other.next), "{} at {at}", workload.name);
        assert!(library.disk == plain.disk && library.memory == plain.memory, "{} at {at}", workload.name);
        assert_eq!(library.card.stores(), plain.card.stores(), "{} at {at}", workload.name);
        at = one.next;
    }
}
