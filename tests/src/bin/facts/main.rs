// facts: runs tapes on the model card and writes a scratch repository of facts that the definitions must compute alike.

use card_tests::book::Book;
use card_tests::card::{Card, Kind, Phase, Transaction};
use card_tests::command::{self, from_hex, hex, Command};
use card_tests::directed::disk_with;
use card_tests::disks::disk_by;
use card_tests::foreign;
use card_tests::generator::Generator;
use card_tests::layout::{block_at, highest, read_master, Layout, Master, Shape, Tail, BLOCK, DISK, MEMORY, TAKEN};
use card_tests::random::Random;
use card_tests::recovered::recovered_area;
use card_tests::wrong::Wrong;
use std::fs;
use std::path::PathBuf;

mod directed;

use directed::SHORT;

/// Facts of one file are computed in one process; this many commands keep its memory small.
const COMMANDS_PER_FILE: usize = 150;

const HEAD: &str = "-- Computed facts: the definitions' runs of tapes end as those of the model card.
use Prim.Native.Nat.{ℕ}
use mathlib.Core.Path.{◌≡◌, refl}
use mathlib.Core.List.{List, [], ◌∷◌}
use mathlib.Core.Bool.{Bool, true, false}
use Rattle.model.specs.Bytes.{Bytes, padded, zero_disk, zero_memory}
use Rattle.model.specs.Shape.{new_shape}
use Rattle.model.specs.Card.{blank_card, down_card}
use Rattle.model.specs.declared.CommitLayout.TheVariants.{Lists, Numbers}
use Rattle.model.specs.Printing.{Line, blank_world}
use Rattle.model.proofs.Computes.{computes}
use Rattle.seen.specs.Seen.{Seen, Read, Met, noise, laid, resized, end_of, seen, met, line, read, against, changed, sees}
use Rattle.seen.specs.Told.{told, mark, area_sum, tells}
use Rattle.crash.specs.Claims.{from_blank, from_down}
";

/// What is changed in the fact about SHORT, to see that it is then refused.
const WRONG: &[(&str, &str, &str)] = &[
    ("lines =", "line 4 2 0 0", "line 4 2 5 0"),
    ("lines =", "line 21 5 0 4", "line 21 5 0 3"),
    ("disk =", "203", "202"),
    ("memory =", "209", "208"),
    ("reads =", "211", "210"),
];

/// How many expectations are changed of what the books tell.
const WRONG_TOLD: usize = 3;

/// A card with its slices, and the words that give the slices in a fact; of a card that is down over a disk as FORMAT leaves
/// it, or as the older one left it, layout and shape.
struct Start {
    card: Card,
    disk: Vec<u8>,
    memory: Vec<u8>,
    disk_text: String,
    memory_text: String,
    formatted: Option<(Layout, Shape)>,
}

/// The files written so far, and what the summary tells.
struct Facts {
    folder: PathBuf,
    text: String,
    commands_here: usize,
    files: usize,
    facts: usize,
    told: usize,
    areas: usize,
    tapes: [usize; 2],
    commands: [usize; 2],
    answers: [usize; 37],
}

fn main() -> std::io::Result<()> {
    let arguments: Vec<String> = std::env::args().skip(1).collect();
    let [folder, seed, count] = &arguments[..] else { panic!("facts FOLDER SEED COUNT") };
    let seed: u64 = seed.parse().expect("a seed");
    let count: usize = count.parse().expect("a number of random tapes");
    let mut facts = Facts::new(PathBuf::from(folder));
    directed::run(&mut facts);
    let mut random = Random::new(seed);
    let mut run = vec![0; DISK];
    for i in 0..count {
        match i % 8 {
            3 | 7 => foreign_tape(&mut facts, &mut random, &run),
            5 => older_tape(&mut facts, &mut random),
            _ => run = blank_tape(&mut facts, &mut random),
        }
    }
    facts.end_file()?;
    facts.wrong(&Start::blank(), &from_hex(SHORT), WRONG)?;
    facts.wrong_told(&Start::blank(), &from_hex(SHORT))?;
    facts.report();
    fs::write(facts.folder.join("crates.txt"), facts.crates())
}

// ---- random tapes

/// Small shapes mostly, since the definitions compute slowly.
fn any_shape(random: &mut Random) -> Shape {
    let (cores, blocks, journal) = match random.below(12) {
        0..=4 => (random.between(1, 3), random.between(1, 3), random.between(4, 8)),
        5..=8 => (random.between(2, 4), random.between(1, 6), random.between(4, 14)),
        9 => (random.between(2, 3), random.between(8, 12), 24),
        10 => (8, random.between(1, 8), random.between(4, 6)),
        _ => (random.between(1, 8), random.between(1, 64), random.between(4, 24)),
    };
    Shape { cores: cores as u8, blocks: blocks as u8, journal: journal as u8 }
}

/// Makes a tape and says the disk that it leaves.
fn blank_tape(facts: &mut Facts, random: &mut Random) -> Vec<u8> {
    let start = if random.chance(120) { noisy_start(random) } else { Start::blank() };
    let shape = any_shape(random);
    let tape = make_tape(random, &start, shape, 50);
    facts.tape(&start, &tape, random)
}

fn foreign_tape(facts: &mut Facts, random: &mut Random, run: &[u8]) {
    let start = foreign_start(random, run);
    let shape = read_master(&start.disk).map_or(Shape::SMALLEST, |master| master.shape);
    let tape = make_tape(random, &start, shape, 30);
    facts.tape(&start, &tape, random);
}

/// Over the disk that a card of request (c) left.
fn older_tape(facts: &mut Facts, random: &mut Random) {
    let kind = Kind::older(Wrong::No);
    let (older, shape) = (Start { card: Card::with(Phase::Blank, kind), ..Start::blank() }, any_shape(random));
    let left = disk_by(kind, &make_tape(random, &older, shape, 50));
    let start = if read_master(&left).is_some() { Start::down(left, 0, 0) } else { Start::blank() };
    let tape = make_tape(random, &start, shape, 30);
    facts.tape(&start, &tape, random);
}

fn make_tape(random: &mut Random, start: &Start, shape: Shape, most: usize) -> Vec<u8> {
    let mut generator = Generator::new(random.draw());
    generator.begin_with(shape);
    let (mut card, mut disk, mut memory) = (start.card, start.disk.clone(), start.memory.clone());
    let mut tape = Vec::new();
    for _ in 0..random.between(5, most) {
        let offset = tape.len();
        generator.command(&card).write_to(&mut tape);
        card.command(&mut disk, &mut memory, &tape, offset);
    }
    match random.below(10) {
        0 => tape.extend(generator.garbage().iter().take(12)),
        1 => {
            tape.pop();
        }
        _ => {}
    }
    tape
}

// ---- starts

impl Start {
    fn blank() -> Start {
        Start::new(Card::blank(), vec![0; DISK], "zero_disk".into(), 0)
    }

    /// Memory is zero for seed 0 and noise for others.
    fn new(card: Card, disk: Vec<u8>, disk_text: String, memory_seed: u64) -> Start {
        let (memory, memory_text) = base(MEMORY, memory_seed);
        Start { card, disk, memory, disk_text, memory_text, formatted: None }
    }

    /// A card that is down over a disk, told as blocks over a base.
    fn down(disk: Vec<u8>, disk_seed: u64, memory_seed: u64) -> Start {
        let (under, name) = base(DISK, disk_seed);
        let text = format!("laid 0 {} ({name})", block_list(&differing(&under, &disk)));
        Start::new(Card::down(), disk, text, memory_seed)
    }

    /// A card that is down over a disk as FORMAT leaves it, or as the older one left it.
    fn formatted(layout: Layout, shape: Shape, memory_seed: u64) -> Start {
        let disk = disk_with(layout, shape, &vec![Tail { number: 1, position: 0 }; shape.cores as usize]);
        Start { formatted: Some((layout, shape)), ..Start::down(disk, 0, memory_seed) }
    }

    /// The start that ledger and service book have; none over a disk written elsewhere.
    fn of_books(&self) -> Option<String> {
        let memory = &self.memory_text;
        match (self.card.phase, self.formatted) {
            (Phase::Blank, _) => Some(format!("from_blank ({}) ({memory})", self.disk_text)),
            (_, Some((layout, Shape { cores, blocks, journal }))) => {
                Some(format!("from_down {layout:?} (new_shape {cores} {blocks} {journal}) ({memory})"))
            }
            _ => None,
        }
    }

    /// The service book there: of a card that is down, as after FORMAT and a cut.
    fn book(&self) -> Book {
        let mut book = Book::default();
        if let Some((_, Shape { cores, blocks, journal })) = self.formatted {
            book.feed(Command::Format { cores, blocks, journal }, 0);
            book.feed(Command::Cut, 0);
        }
        book
    }
}

/// The bytes that the definition `noise` gives.
fn noise(count: usize, seed: u64) -> Vec<u8> {
    let mut x = seed;
    let mut next = || {
        x = (x * 1103515245 + 12345) % 2147483648;
        (x / 65536 % 256) as u8
    };
    (0..count).map(|_| next()).collect()
}

fn base(count: usize, seed: u64) -> (Vec<u8>, String) {
    match seed {
        0 if count == DISK => (vec![0; count], "zero_disk".into()),
        0 => (vec![0; count], "zero_memory".into()),
        _ => (noise(count, seed), format!("noise {count} {seed}")),
    }
}

fn any_seed(random: &mut Random) -> u64 {
    random.between(1, 1_000_000) as u64
}

/// A blank card over slices of any content.
fn noisy_start(random: &mut Random) -> Start {
    let seed = any_seed(random);
    let (disk, text) = base(DISK, seed);
    Start::new(Card::blank(), disk, text, any_seed(random))
}

/// A disk of the foreign generator. Blocks of random bytes are given to a base, so that the fact stays short.
fn foreign_start(random: &mut Random, run: &[u8]) -> Start {
    let mut disk = foreign::disk(random, run);
    while !random.chance(share_kept(&disk)) {
        disk = foreign::disk(random, run);
    }
    let is_full = (1..DISK / BLOCK).filter(|k| looks_random(block_at(&disk, *k))).count() > 100;
    let seed = if is_full && random.chance(700) { any_seed(random) } else { 0 };
    let (under, _) = base(DISK, seed);
    for k in 0..DISK / BLOCK {
        if looks_random(block_at(&disk, k)) {
            disk[k * BLOCK..(k + 1) * BLOCK].copy_from_slice(block_at(&under, k));
        }
    }
    let memory_seed = if random.chance(300) { any_seed(random) } else { 0 };
    Start::down(disk, seed, memory_seed)
}

/// How many of a thousand such disks are tried: without a good master little happens, and big shapes take long.
fn share_kept(disk: &[u8]) -> usize {
    match read_master(disk) {
        None => 100,
        Some(Master { shape, .. }) if shape.cores as usize * shape.journal as usize > 60 || shape.blocks > 8 => 40,
        Some(_) => 1000,
    }
}

/// Records have many zero bytes, random blocks have hardly any.
fn looks_random(block: &[u8]) -> bool {
    block.iter().filter(|byte| **byte == 0).count() < 8
}

fn differing(from: &[u8], to: &[u8]) -> Vec<(usize, Vec<u8>)> {
    let blocks = 0..to.len() / BLOCK;
    let differs = |k: &usize| block_at(from, *k) != block_at(to, *k);
    blocks.filter(differs).map(|k| (k, block_at(to, k).to_vec())).collect()
}

// ---- what is written

impl Facts {
    fn new(folder: PathBuf) -> Facts {
        let (tapes, commands, answers) = ([0; 2], [0; 2], [0; 37]);
        Facts {
            folder,
            text: HEAD.into(),
            commands_here: 0,
            files: 0,
            facts: 0,
            told: 0,
            areas: 0,
            tapes,
            commands,
            answers,
        }
    }

    /// A fact about a tape from a start on. Says the disk at the end.
    fn tape(&mut self, start: &Start, tape: &[u8], random: &mut Random) -> Vec<u8> {
        let is_down = start.card.phase == Phase::Down;
        let ran = Ran::new(start, tape);
        let blocks = [0, random.below(64), random.pick(&[1, 2, 3, 63, 64, 65_535])];
        let (left, right) = ran.fact(start, tape, &blocks);
        self.tapes[is_down as usize] += 1;
        self.count(&ran.answers, is_down);
        self.put(&hex(tape), &left, &right);
        if is_down {
            self.area(start);
        }
        if let Some(books) = start.of_books() {
            self.told += 1;
            self.commands_here += ran.answers.len();
            for (left, right) in ran.told_facts(start, tape, &books) {
                self.put(&format!("{} by the books", hex(tape)), &left, &right);
            }
        }
        ran.disk
    }

    /// What recovery of a disk gives, by the disk alone. The definitions read all journals again for each block.
    fn area(&mut self, start: &Start) {
        if let Some(area) = recovered_area(&start.disk).filter(|area| area.len() <= 8 * BLOCK) {
            self.areas += 1;
            let left = format!("area_sum ({})", start.disk_text);
            self.put("what recovery gives", &left, &checksum(0, &area).to_string());
        }
    }

    /// One command at an offset over slices of these lengths, by the card that another tape left.
    fn at(&mut self, before: &[u8], tape: &[u8], at: usize, disk_size: usize, memory_size: usize) {
        let (mut card, mut disk, mut memory) = (Card::blank(), vec![0; DISK], vec![0; MEMORY]);
        let mut offset = 0;
        while offset < before.len() {
            offset = card.command(&mut disk, &mut memory, before, offset).next;
        }
        disk.resize(disk_size, 0);
        memory.resize(memory_size, 0);
        let reading = card.read_number(&disk, &memory, 0);
        let (old_disk, old_memory) = (disk.clone(), memory.clone());
        let outcome = card.command(&mut disk, &mut memory, tape, at);
        self.count(&[outcome.answer], false);
        let left = format!(
            "met {} {at} (resized {disk_size} {memory_size} (end_of {} blank_world))",
            byte_list(tape),
            byte_list(before)
        );
        let same = old_disk == disk && old_memory == memory;
        assert!(same, "one command that would change a byte is told by a tape");
        let bytes = format!("disk = changed [] true {disk_size}; memory = changed [] true {memory_size}");
        let (answer, stores, next) = (outcome.answer, outcome.stores, outcome.next);
        let met = format!("answer = {answer}; stores = {stores}; next = {next}");
        let right = format!("record {{ {met}; {bytes}; reading = {reading} }}");
        self.put(&format!("{} at {at} after {}", hex(tape), hex(before)), &left, &right);
    }

    fn count(&mut self, answers: &[u8], is_down: bool) {
        self.commands[is_down as usize] += answers.len();
        self.commands_here += answers.len();
        answers.iter().for_each(|answer| self.answers[*answer as usize] += 1);
    }

    fn put(&mut self, title: &str, left: &str, right: &str) {
        self.facts += 1;
        self.text.push_str(&fact_text(self.facts, title, left, right));
        if self.commands_here >= COMMANDS_PER_FILE {
            self.end_file().expect("a folder that can be written");
        }
    }

    /// Facts that do not hold, a crate for each: one number is changed after the name of a field.
    fn wrong(&self, start: &Start, tape: &[u8], changes: &[(&str, &str, &str)]) -> std::io::Result<()> {
        let (left, right) = Ran::new(start, tape).fact(start, tape, &[0]);
        for (i, (field, from, to)) in changes.iter().enumerate() {
            let (before, after) = right.split_at(right.find(field).expect("a field"));
            assert!(after.contains(from), "{from} after {field}");
            let text = fact_text(1, field, &left, &format!("{before}{}", after.replacen(from, to, 1)));
            self.write_crate(&format!("wrong{}", i + 1), &format!("{HEAD}{text}"))?;
        }
        Ok(())
    }

    /// The same of what the books tell: a checksum of memory, of a reading, of the book's area.
    fn wrong_told(&self, start: &Start, tape: &[u8]) -> std::io::Result<()> {
        let books = start.of_books().expect("a start of the books");
        for i in 0..WRONG_TOLD {
            let mut ran = Ran::new(start, tape);
            match i {
                0 => ran.marks[1].memory += 1,
                1 => ran.marks[2].reading += 1,
                _ => ran.area += 1,
            }
            let [marks, _, area] = ran.told_facts(start, tape, &books);
            let (left, right) = if i < 2 { marks } else { area };
            let text = fact_text(1, "told", &left, &right);
            self.write_crate(&format!("wrong{}", WRONG.len() + i + 1), &format!("{HEAD}{text}"))?;
        }
        Ok(())
    }

    /// A crate for each file, so that each is computed in a process of its own.
    fn end_file(&mut self) -> std::io::Result<()> {
        self.files += 1;
        self.write_crate(&format!("facts{}", self.files), &self.text)?;
        self.text = HEAD.into();
        self.commands_here = 0;
        Ok(())
    }

    fn write_crate(&self, name: &str, text: &str) -> std::io::Result<()> {
        let folder = self.folder.join("crates").join(name);
        for part in ["src", "specs", "proofs"] {
            fs::create_dir_all(folder.join(part))?;
        }
        fs::write(folder.join("src/lib.rt"), "// Computed facts. There is no code here.\n")?;
        fs::write(folder.join("specs/Lib.antt"), "-- No definition stands here.\n")?;
        fs::write(folder.join("proofs/Lib.antt"), "-- Computed facts.\npub mod Facts\n")?;
        fs::write(folder.join("proofs/Facts.antt"), text)
    }

    fn crates(&self) -> String {
        let facts: String = (1..=self.files).map(|i| format!("facts{i}: model crash seen\n")).collect();
        let wrong = 1..=WRONG.len() + WRONG_TOLD;
        let wrong: String = wrong.map(|i| format!("wrong{i}: model crash seen\n")).collect();
        format!("model:\ncrash: model\nseen: model crash\n{facts}{wrong}")
    }

    fn report(&self) {
        println!("{} facts in {} files; {} tapes by the books alone too", self.facts, self.files, self.told);
        println!("what recovery gives of {} disks", self.areas);
        println!("blank starts: {} tapes, {} commands", self.tapes[0], self.commands[0]);
        println!("down over a disk: {} tapes, {} commands", self.tapes[1], self.commands[1]);
        let met = self.answers.iter().enumerate().filter(|(_, count)| **count > 0);
        let met: Vec<String> = met.map(|(answer, count)| format!("{answer}: {count}")).collect();
        println!("answers met: {}", met.join(", "));
        let listed = (1..=8).chain(20..=23).chain(25..=36);
        let unmet: Vec<String> = listed.filter(|i| self.answers[*i] == 0).map(|i| i.to_string()).collect();
        println!("answers not met: {}", if unmet.is_empty() { "none".into() } else { unmet.join(", ") });
    }
}

/// Checksums after a command: of the memory that it wrote, and of a block read.
struct Mark {
    memory: u64,
    reading: u64,
}

/// What a tape answered, and the card and slices at its end; the checksum of the service book's area.
struct Ran {
    lines: Vec<String>,
    answers: Vec<u8>,
    marks: Vec<Mark>,
    card: Card,
    disk: Vec<u8>,
    memory: Vec<u8>,
    area: u64,
}

impl Ran {
    fn new(start: &Start, tape: &[u8]) -> Ran {
        let (card, disk, memory) = (start.card, start.disk.clone(), start.memory.clone());
        let (lines, answers, marks) = (Vec::new(), Vec::new(), Vec::new());
        let mut ran = Ran { lines, answers, marks, card, disk, memory, area: 0 };
        let (mut offset, mut stores, mut book) = (0, 0, start.book());
        while offset < tape.len() {
            let outcome = ran.card.command(&mut ran.disk, &mut ran.memory, tape, offset);
            stores += outcome.stores as usize;
            ran.lines.push(format!("line {offset} {} {} {stores}", tape[offset], outcome.answer));
            ran.answers.push(outcome.answer);
            let read = command::read(tape, offset).ok().map(|(command, _)| command);
            read.iter().for_each(|command| book.feed(*command, outcome.answer));
            ran.mark(offset, read.filter(|_| outcome.answer == 0));
            offset = if matches!(outcome.answer, 2 | 3) { tape.len() } else { outcome.next };
        }
        ran.area = checksum(0, book.area());
        ran
    }

    /// The block read is another at each offset, the first that is not below B among them; the checksum begins with reading's number.
    fn mark(&mut self, offset: usize, done: Option<Command>) {
        let memory = done.map_or(0, |command| checksum(0, touched(command, &self.memory)));
        let block = offset % (self.card.shape.blocks as usize + 1);
        let number = self.card.read_number(&self.disk, &self.memory, block);
        let reading = checksum(number, self.card.read_block(&self.disk, &self.memory, block));
        self.marks.push(Mark { memory, reading });
    }

    /// Both sides of the equations with what ledger and service book tell; each is computed by itself.
    fn told_facts(&self, start: &Start, tape: &[u8], books: &str) -> [(String, String); 3] {
        let (against, memory) = changes(&start.memory, &self.memory);
        let told = |field: &str| format!("(told {} ({books}) {against}).{field}", byte_list(tape));
        let mark = |(line, mark): (&String, &Mark)| format!("mark ({line}) {} {}", mark.memory, mark.reading);
        let marks = list(self.lines.iter().zip(&self.marks).rev().map(mark).collect());
        [(told("marks"), marks), (told("memory"), memory), (told("area"), self.area.to_string())]
    }

    /// Both sides of the equation: lines, home blocks, every byte, state and readings of some blocks at the end.
    fn fact(&self, start: &Start, tape: &[u8], blocks: &[usize]) -> (String, String) {
        let card = if start.card.phase == Phase::Down { "down_card" } else { "blank_card" };
        let (disk_against, disk) = changes(&start.disk, &self.disk);
        let (memory_against, memory) = changes(&start.memory, &self.memory);
        let slices = format!("({}) ({}) {disk_against} {memory_against}", start.disk_text, start.memory_text);
        let asked = number_list(blocks.iter().map(|block| *block as u64));
        let left = format!("seen {} {card} {slices} {asked}", byte_list(tape));
        let lines = list(self.lines.clone());
        let homes = homes(&self.card, &self.disk);
        let state = number_list(state(&self.card));
        let reads = list(blocks.iter().map(|block| self.read_text(*block)).collect());
        let bytes = format!("disk = {disk}; memory = {memory}");
        (left, format!("record {{ lines = {lines}; homes = {homes}; {bytes}; state = {state}; reads = {reads} }}"))
    }

    fn read_text(&self, block: usize) -> String {
        let number = self.card.read_number(&self.disk, &self.memory, block);
        let bytes = self.card.read_block(&self.disk, &self.memory, block);
        format!("read {block} {number} {}", byte_list(bytes))
    }
}

fn fact_text(number: usize, title: &str, left: &str, right: &str) -> String {
    let claim = format!("-- {title}\npub fact_{number} :\n    {left}\n    ≡ {right}");
    format!("\n{claim}\nunfolding computes sees tells\nfact_{number} = refl\n")
}

/// The number that the definition `checksum` gives.
fn checksum(from: u8, bytes: &[u8]) -> u64 {
    bytes.iter().fold(from as u64, |n, byte| (n * 257 + *byte as u64 + 1) % 999_983)
}

/// The bytes of memory that WRITE and CLOSE write.
fn touched(command: Command, memory: &[u8]) -> &[u8] {
    let (from, count) = match command {
        Command::Write(write) => (write.block as usize, 1),
        Command::Close { core } => (64 + TAKEN * core as usize, TAKEN),
        _ => (0, 0),
    };
    &memory[from * BLOCK..(from + count) * BLOCK]
}

/// What to compare a slice with, its start or zero bytes, whichever leaves less to tell; and the blocks changed.
fn changes(start: &[u8], end: &[u8]) -> (String, String) {
    let (old, new) = (differing(start, end), differing(&vec![0; end.len()], end));
    let from_zeros = new.len() < old.len();
    let blocks = if from_zeros { new } else { old };
    let told = blocks.last().map_or(0, |(k, _)| k + 1);
    (format!("(against {from_zeros} {told})"), format!("changed {} true {}", block_list(&blocks), end.len()))
}

/// The home blocks that the tape program prints.
fn homes(card: &Card, disk: &[u8]) -> String {
    let shape = read_master(disk).filter(|_| card.phase != Phase::Blank).map(|master| master.shape);
    let blocks = 0..shape.map_or(0, |shape| shape.blocks as usize);
    let bytes = |b: usize| block_at(disk, 1 + b);
    let shown = blocks.filter(|b| bytes(*b).iter().any(|byte| *byte != 0));
    list(shown.map(|b| format!("({b}, {})", byte_list(&bytes(b)[..8]))).collect())
}

/// The card's state as numbers, in the order of the definition `state_words`.
fn state(card: &Card) -> Vec<u64> {
    match card.phase {
        Phase::Blank => return vec![0],
        Phase::Down => return vec![2, card.place as u64],
        Phase::Up => {}
    }
    let mut words = vec![1, card.closes];
    for core in &card.cores[..card.shape.cores as usize] {
        // The definitions count the number on at CLOSE, the model when it opens.
        let next = core.running.map_or(core.next, |running| running.number);
        words.extend([next as u64, core.tail.number as u64]);
        words.extend([core.tail.position, core.length, core.committed, core.stored, core.home].map(u64::from));
        words.extend(transaction_words(core.running));
        words.extend(transaction_words(core.closed));
    }
    for (block, name) in card.holders.iter().enumerate() {
        words.extend(name.iter().flat_map(|name| [block as u64, name.core as u64, name.number as u64]));
    }
    words
}

/// Of a transaction stamp, blocks and the eight numbers.
fn transaction_words(transaction: Option<Transaction>) -> Vec<u64> {
    let Some(transaction) = transaction else { return vec![0] };
    let mut words = vec![1, transaction.stamp, transaction.blocks.len() as u64];
    words.extend(transaction.blocks.iter().map(|block| *block as u64));
    words.extend(highest(&transaction.names).map(u64::from));
    words
}

// ---- lists in the definitions' language

fn list(items: Vec<String>) -> String {
    let joined: String = items.iter().map(|item| format!("{item} ∷ ")).collect();
    format!("({joined}[])")
}

fn number_list(numbers: impl IntoIterator<Item = u64>) -> String {
    list(numbers.into_iter().map(|number| number.to_string()).collect())
}

fn byte_list(bytes: &[u8]) -> String {
    number_list(bytes.iter().map(|byte| *byte as u64))
}

/// Blocks with their numbers; the zeros at a block's end are left to `padded`.
fn block_list(blocks: &[(usize, Vec<u8>)]) -> String {
    let used = |bytes: &[u8]| bytes.iter().rposition(|byte| *byte != 0).map_or(0, |last| last + 1);
    let text = |(k, bytes): &(usize, Vec<u8>)| format!("({k}, padded {})", byte_list(&bytes[..used(bytes)]));
    list(blocks.iter().map(text).collect())
}
