// stack: how much stack the entries of the library use, over generated tapes and over the worst disks and tapes that are
// known. `frames` gives the bound that the code itself has.

use card_library::made_up_plans;
use card_library::page;
use card_library::paint::{touched, Touched};
use card_library::planner;
use card_library::session::Session;
use card_library::stage::Stage;
use card_tests::checks::{Bench, Checks, Seen, Watcher};
use card_tests::command::Command;
use card_tests::directed;
use card_tests::layout::{Layout, LAYOUTS, MEMORY};
use card_tests::shrink::tape_of;
use card_tests::wrong::Wrong;
use std::sync::atomic::{AtomicUsize, Ordering};

/// The stack pointer as the entry called last found it.
static ENTERED: AtomicUsize = AtomicUsize::new(0);

/// The linker sends each call of an entry to its jump here (`build.rs`), which notes the stack pointer.
macro_rules! entries {
    ($($entry:literal),*) => {
        $(std::arch::global_asm!(
            concat!(".globl __wrap_", $entry),
            concat!("__wrap_", $entry, ":"),
            "mov [rip + {entered}], rsp",
            concat!("jmp __real_", $entry),
            entered = sym ENTERED,
        );)*
    };
}

include!("../../entries.rs");

/// What an entry may use; more ends with a status other than 0.
const LIMIT: usize = 12 * 1024;

/// Bytes below the call of an entry, its return address with them.
fn used(call: impl FnOnce()) -> usize {
    let Touched { lowest, .. } = touched(call);
    ENTERED.load(Ordering::Relaxed) + 8 - lowest
}

#[derive(Default)]
struct Gauge {
    stage: Stage<Session>,
    /// The most that each command used, by its byte.
    most: [usize; 10],
    /// The same of reading a block, and of running one command as a tape.
    reading: usize,
    tape: usize,
    /// And of the journal page: its count of lines, and some of them.
    page: usize,
    plan: usize,
}

impl Gauge {
    /// The command by itself; the same as a tape, over copies; then the readings.
    fn run(&mut self, tape: &[u8], offset: usize) -> usize {
        self.run_as_tape(&tape[offset..]);
        let mut next = offset;
        let bytes = used(|| next = self.stage.command(tape, offset).next);
        let most = &mut self.most[(tape[offset] as usize).min(9)];
        *most = bytes.max(*most);
        let (Stage { card, disk, memory }, mut block) = (&self.stage, [0; 128]);
        let readings = [
            used(|| _ = card.read_number(0, disk, memory)),
            used(|| _ = card.locate(0, disk, memory)),
            used(|| _ = card.read_block(0, disk, memory, &mut block)),
        ];
        self.reading = readings.into_iter().fold(self.reading, usize::max);
        self.plan = self.plan.max(used(|| _ = planner::plan(card.cells(), disk, memory)));
        self.lay_page();
        next
    }

    /// The first line after the head, which is a transaction's where there is one, one in the middle, and the last, a core's end.
    fn lay_page(&mut self) {
        let (disk, mut lines, mut line) = (&self.stage.disk, 0, [0; 65]);
        let counted = used(|| lines = page::line_count(disk));
        let laid = [1, lines / 2, lines - 1].map(|i| used(|| _ = page::lay_line(disk, i, &mut line)));
        self.page = laid.into_iter().fold(self.page.max(counted), usize::max);
    }

    fn run_as_tape(&mut self, rest: &[u8]) {
        let length = card_tests::command::read(rest, 0).map_or(rest.len(), |(_, next)| next);
        let Stage { mut card, mut disk, mut memory } = self.stage.clone();
        self.tape = self.tape.max(used(|| _ = card.run(&rest[..length], &mut disk, &mut memory)));
    }

    fn run_all(&mut self, commands: &[Command]) {
        let tape = tape_of(commands);
        let mut offset = 0;
        while offset < tape.len() {
            offset = self.run(&tape, offset);
        }
    }

    /// Of each command, of a tape, of reading, of the page, of the plan.
    fn figures(&self) -> impl Iterator<Item = usize> + '_ {
        self.most[1..].iter().copied().chain([self.tape, self.reading, self.page, self.plan])
    }

    fn print(&self, name: &str) {
        let figures: Vec<String> = self.figures().map(|bytes| format!("{bytes:>10}")).collect();
        println!("{name:<34} {}", figures.join(" "));
    }
}

impl Watcher for Gauge {
    fn start(&mut self, is_down: bool, disk: &[u8], memory: &[u8]) {
        self.stage.start(is_down, disk, memory);
    }

    fn command(&mut self, tape: &[u8], offset: usize, _: Seen) -> Result<(), String> {
        self.run(tape, offset);
        Ok(())
    }
}

/// Recovery of a disk, every step of it and one command more.
fn recovered(name: &str, disk: &[u8]) -> Gauge {
    let mut gauge = Gauge::default();
    gauge.start(true, disk, &[0; MEMORY]);
    gauge.lay_page();
    for _ in 0..70 {
        gauge.run_all(&[Command::Recover]);
    }
    gauge.print(name);
    gauge
}

/// The worst disks of a layout.
fn recovered_chains(layout: Layout) -> [Gauge; 5] {
    let chain = |words: &str, blocks, is_met| {
        recovered(&format!("{layout:?}: {words}"), &directed::chain_disk(layout, blocks, is_met))
    };
    [
        chain("96 struck one by one", 0, false),
        chain("96 valid", 0, true),
        chain("64 with a block, struck", 1, false),
        chain("64 with a block, valid", 1, true),
        chain("16 with eight blocks, valid", 8, true),
    ]
}

/// A tape, then a CHECKPOINT and a RETIRE of each core, then a cut and recovery.
fn checkpointed(name: &str, commands: &[Command], change: impl FnOnce(&mut [u8])) -> Gauge {
    let mut gauge = Gauge::default();
    gauge.run_all(commands);
    change(&mut gauge.stage.disk);
    (0..8).for_each(|core| gauge.run_all(&directed::retire_of(core, 1)));
    gauge.run_all(&[Command::Cut, Command::Recover]);
    gauge.print(name);
    gauge
}

fn generated(commands: u64) -> Gauge {
    let mut gauge = Gauge::default();
    let mut bench = Bench::new(Wrong::No, Checks::NONE, Some(&mut gauge));
    bench.soak(commands, 9).unwrap_or_else(|failure| panic!("{}", failure.detail));
    gauge.print(&format!("{commands} generated commands"));
    gauge
}

/// The plan of a card that shows as many transactions as any.
fn planned_fullest() -> Gauge {
    let (cells, disk) = made_up_plans::fullest();
    let plan = used(|| _ = planner::plan(&cells, &disk, &[0; MEMORY]));
    let gauge = Gauge { plan, ..Gauge::default() };
    gauge.print("made up: 112 to plan");
    gauge
}

fn main() {
    let commands = std::env::args().nth(1).map_or(50_000, |arg| arg.parse().expect("a number"));
    println!("bytes of stack below the call of an entry");
    let commands_by_byte = ["FORMAT", "WRITE", "CLOSE", "STORE", "CHECKPOINT", "CUT", "RECOVER", "RETIRE", "WRITE (9)"];
    let names = commands_by_byte.iter().chain(&["tape", "reading", "page", "plan"]);
    println!("{:<34} {}", "", names.map(|name| format!("{name:>10}")).collect::<Vec<_>>().join(" "));
    let (chain, links) = directed::chain_tape();
    let full = directed::full_tape();
    let mut all: Vec<Gauge> = LAYOUTS.into_iter().flat_map(recovered_chains).collect();
    all.extend([
        checkpointed(&format!("tape: {links} struck one by one"), &chain, |_| ()),
        checkpointed("tape: 94 without blocks", &full, |_| ()),
        checkpointed("the same over a chain of 94", &full, |disk| directed::put_chain(disk, directed::FULL, 0, false)),
        planned_fullest(),
        generated(commands),
    ]);
    let most = all.iter().flat_map(Gauge::figures).max().unwrap_or(0);
    println!("the most of all: {most} bytes; the limit is {LIMIT}");
    std::process::exit((LIMIT < most) as i32);
}
