// foreign.rs: disks written elsewhere, in both layouts: random bytes, disks of runs with damage, crafted masters and records, and those
// of `wide.rs`.

use crate::layout::{
    commit, descriptor, master, put_word, Block, Layout, Master, Name, Shape, Tail, Tails, BLOCK, CORES, DISK,
    LAST_NUMBER, LAST_TAIL, LAYOUTS,
};
use crate::random::Random;
use crate::wide;

/// A foreign disk; `run` is a disk that some run left.
pub fn disk(random: &mut Random, run: &[u8]) -> Vec<u8> {
    match random.below(9) {
        0 => random_bytes(random),
        1..=3 => damaged(random, run),
        4 => wide::disk(random).disk,
        _ => crafted(random),
    }
}

pub fn put(disk: &mut [u8], index: usize, block: &Block) {
    disk[index * BLOCK..(index + 1) * BLOCK].copy_from_slice(block);
}

/// Random bytes, in half of the cases under a good master.
fn random_bytes(random: &mut Random) -> Vec<u8> {
    let mut disk = vec![0; DISK];
    random.fill(&mut disk);
    if random.chance(500) {
        put(&mut disk, 0, &master(&any_master(random)));
    }
    disk
}

/// Bytes that are not as the run left them; sometimes a master that tells any layout.
fn damaged(random: &mut Random, run: &[u8]) -> Vec<u8> {
    let mut disk = run.to_vec();
    if random.chance(200) {
        put_word(&mut disk, 8, random.pick(&LAYOUTS) as u32);
    }
    for _ in 0..random.below(6) {
        let limit = random.pick(&[BLOCK, 8 * BLOCK, 60 * BLOCK, DISK]);
        let at = random.below(limit);
        disk[at] = if random.chance(500) { random.byte() } else { disk[at] ^ 1 << random.below(8) };
    }
    disk
}

pub(crate) fn any_shape(random: &mut Random) -> Shape {
    let blocks = random.pick(&[1, 2, 3, 8, 64]);
    Shape { cores: random.between(1, 8) as u8, blocks, journal: random.between(4, 24) as u8 }
}

pub(crate) fn any_tails(random: &mut Random, shape: Shape) -> Tails {
    let mut tails = Tails::default();
    let high = random.chance(400);
    for tail in &mut tails[..shape.cores as usize] {
        let low = random.between(1, 20) as u32;
        tail.number = if high { LAST_TAIL - low / 3 } else { low };
        tail.position = random.below(shape.journal as usize) as u8;
    }
    tails
}

pub(crate) fn any_master(random: &mut Random) -> Master {
    let shape = any_shape(random);
    Master { layout: random.pick(&LAYOUTS), shape, tails: any_tails(random, shape) }
}

/// A good master (mostly) and journals of records that no run of one card would leave.
fn crafted(random: &mut Random) -> Vec<u8> {
    let mut disk = vec![0; DISK];
    let fields = any_master(random);
    random.fill(&mut disk[BLOCK..]);
    put(&mut disk, 0, &master(&fields));
    if random.chance(100) {
        spoil_master(random, &mut disk);
    }
    let bad = random.pick(&[0, 0, 40, 200]);
    for core in 0..fields.shape.cores {
        craft_journal(random, &mut disk, &fields, core, bad);
    }
    disk
}

/// Places in a master and words to put there: just outside their range, or not looked at.
pub const SPOILS: [(usize, u32); 17] = [
    (0, 0),
    (4, 1),
    (8, 2),
    (8, 256),
    (8, 1 << 24),
    (8, u32::MAX),
    (12, 0),
    (12, 9),
    (16, 0),
    (16, 65),
    (20, 3),
    (20, 25),
    (24, 0),
    (24, LAST_TAIL + 1),
    (28, 24),
    (80, 0),
    (124, 9),
];

fn spoil_master(random: &mut Random, disk: &mut [u8]) {
    let (at, word) = random.pick(&SPOILS);
    put_word(disk, at, word);
}

fn craft_journal(random: &mut Random, disk: &mut [u8], master: &Master, core: u8, bad: usize) {
    let Tail { mut number, position } = master.tails[core as usize];
    let mut at = position as usize;
    for _ in 0..random.below(8) {
        let record = craft_record(random, master, core, number);
        at += put_record(random, disk, master.shape, core, at, &record, bad);
        number = number.saturating_add(1);
    }
    if random.chance(300) {
        // A stale whole record where the emptied journal will begin, with a number near the new tail's.
        number = number.saturating_add(random.below(3) as u32);
        let stale = craft_record(random, master, core, number);
        put_record(random, disk, master.shape, core, 0, &stale, 0);
    }
}

struct Crafted {
    blocks: Vec<u8>,
    first: Block,
    last: Block,
}

/// A record near which others stand. Its commit is now and then in the other layout than the master tells.
fn craft_record(random: &mut Random, master: &Master, core: u8, number: u32) -> Crafted {
    let shape = master.shape;
    let mut blocks: Vec<u8> = Vec::new();
    for _ in 0..random.pick(&[0, 1, 1, 2, 3, 8]) {
        let block = random.below(shape.blocks as usize) as u8;
        if !blocks.contains(&block) {
            blocks.push(block);
        }
    }
    let flags: Vec<bool> = blocks.iter().map(|_| random.chance(200)).collect();
    let stamp = random.pick(&[1, 1, 2, 3, 4, u64::MAX, 1 << 32]);
    let names = craft_names(random, master, core, number);
    let layout = if random.chance(60) { random.pick(&LAYOUTS) } else { master.layout };
    let mut last = commit(layout, number, stamp, &names);
    if layout == Layout::Numbers {
        fill_unread(random, &mut last);
    }
    Crafted { first: descriptor(number, &blocks, &flags), last, blocks }
}

/// Up to one name more than a list may have.
fn craft_names(random: &mut Random, master: &Master, core: u8, number: u32) -> Vec<Name> {
    let mut names = Vec::new();
    for _ in 0..random.pick(&[0, 0, 0, 1, 1, 1, 2, 2, 12, 13]) {
        let other = random.below(master.shape.cores as usize) as u8;
        let tail = master.tails[other as usize].number;
        let near = tail.saturating_add(random.below(6) as u32).saturating_sub(2).max(1);
        let name = Name { core: other, number: near };
        let choices = [name, name, Name { core, number }, Name { core: other, number: tail }];
        names.push(random.pick(&choices));
    }
    if random.chance(30) && !names.is_empty() {
        names[0].number = random.pick(&[u32::MAX, LAST_NUMBER, LAST_TAIL]);
    }
    names
}

/// Fills what is not looked at in a commit of numbers: bytes 20 to 23, and those behind the numbers.
pub(crate) fn fill_unread(random: &mut Random, commit: &mut Block) {
    if random.chance(300) {
        put_word(commit, 20, random.pick(&[1, 2, 12, 13, 256, u32::MAX]));
    }
    if random.chance(200) {
        random.fill(&mut commit[24 + 4 * CORES..]);
    }
}

/// Puts a record down and says how many blocks it takes; a share of them gets one field wrong.
fn put_record(r: &mut Random, disk: &mut [u8], shape: Shape, core: u8, at: usize, rec: &Crafted, bad: usize) -> usize {
    let (mut first, mut last) = (rec.first, rec.last);
    if r.chance(bad) {
        let (at, word) = r.pick(&[(0, 0), (4, 2), (8, 1), (12, 9), (16, 64), (20, 2), (24, 0), (126, 1)]);
        put_word(&mut first, at.min(124), word);
    }
    if r.chance(bad) {
        // the last places are those of the first and the last core that the shape has not
        let beyond = 24 + 4 * (shape.cores as usize).min(CORES - 1);
        let of_list = [(20, 13), (24, 8), (28, 0), (120, 0)];
        let (at, word) = r.pick(&[&[(0, 1), (4, 1), (8, 2), (16, 0), (beyond, 1), (52, 9)][..], &of_list].concat());
        put_word(&mut last, at, word);
    }
    put(disk, shape.place(core, at), &first);
    put(disk, shape.place(core, at + rec.blocks.len() + 1), &last);
    rec.blocks.len() + 2
}
