// made_up_plans.rs: cards that no run made over journals full of records, for the plan: any number of them counted as committed, up to
// two more of each core closed and running, and any count of what is done of them.

use crate::cells::{to_card, Cells, Field, CELLS, CLOSED, CORE, CORE_SIZE, PHASE, RUNNING, SHAPE, TAIL};
use crate::made_up::alike;
use crate::planner::{check_plan, Compared, Planner};
use card_tests::directed::{chain_disk, LARGEST};
use card_tests::foreign;
use card_tests::layout::{read_master_in, Layout, Master, BLOCK, CORES, MEMORY};
use card_tests::random::Random;
use card_tests::sequence;

/// A disk whose journals hold records; now and then their stamps are few, so that many are equal.
fn any_disk(random: &mut Random) -> Vec<u8> {
    let mut disk = match random.below(4) {
        0 => {
            let (blocks, is_met) = (random.below(4), random.chance(500));
            chain_disk(Layout::Numbers, blocks, is_met)
        }
        1 => {
            let run = sequence::disk(random).disk;
            foreign::disk(random, &run)
        }
        _ => sequence::disk(random).disk,
    };
    if random.chance(500) {
        let most = random.pick(&[2, 5, 200]);
        for block in disk.chunks_mut(BLOCK).skip(1).filter(|block| block[4..8] == [0, 0, 0, 2]) {
            block[19] = random.between(1, most) as u8;
        }
    }
    disk
}

/// A transaction or none, with a low stamp or any; its blocks are counted as up to nine, now and then as any byte.
fn put_any(random: &mut Random, cells: &mut [u64]) {
    cells[0] = random.chance(600) as u64;
    cells[1] = if random.chance(700) { random.below(12) as u64 } else { random.draw() };
    cells[2] = if random.chance(900) { random.below(10) as u64 } else { random.byte() as u64 };
}

/// Mostly few, now and then any byte.
fn any_count(random: &mut Random) -> u64 {
    if random.chance(900) {
        random.below(11) as u64
    } else {
        random.byte() as u64
    }
}

/// Cells over a disk, which mostly go with its master; all cores are filled, whether the shape has them or not.
fn any_cells(random: &mut Random, disk: &[u8]) -> Cells {
    let mut cells = [0; CELLS];
    let told = read_master_in(Layout::Numbers, disk).unwrap_or(Master { shape: LARGEST, ..Master::default() });
    cells[PHASE] = if random.chance(950) { 1 } else { random.below(4) as u64 };
    let Master { shape, tails, .. } = told;
    cells[SHAPE..SHAPE + 3].copy_from_slice(&[shape.cores, shape.blocks, shape.journal].map(u64::from));
    if random.chance(50) {
        cells[SHAPE + random.below(3)] = random.pick(&[0, 1, 8, 9, 24, 64, 255]);
    }
    for c in 0..CORES {
        let spoiled = random.chance(50) as u64;
        cells[TAIL + 2 * c] = tails[c].number as u64 + spoiled * random.below(3) as u64;
        cells[TAIL + 2 * c + 1] = tails[c].position as u64 + spoiled * random.below(30) as u64;
        let own = &mut cells[CORE + CORE_SIZE * c..CORE + CORE_SIZE * (c + 1)];
        let above = if random.chance(900) { random.below(15) as u64 } else { random.draw() >> 33 };
        own[0] = (tails[c].number as u64 + above).saturating_sub(random.chance(30) as u64) % (1 << 32);
        (2..RUNNING).for_each(|cell| own[cell] = any_count(random));
        put_any(random, &mut own[RUNNING..CLOSED]);
        put_any(random, &mut own[CLOSED..]);
    }
    if random.chance(300) {
        cells = std::array::from_fn(|i| match random.chance(200) {
            true => alike(Field::at(i), cells[i], random),
            false => cells[i],
        });
    }
    cells
}

/// The cells of a card that is up and shows as many as any: of each core twelve records without a block, a closed and a running one.
pub fn fullest() -> (Cells, Vec<u8>) {
    let (mut cells, disk) = ([0; CELLS], chain_disk(Layout::Numbers, 0, false));
    cells[PHASE] = 1;
    cells[SHAPE..SHAPE + 3].copy_from_slice(&[LARGEST.cores, LARGEST.blocks, LARGEST.journal].map(u64::from));
    for c in 0..CORES {
        cells[TAIL + 2 * c] = 1;
        let own = &mut cells[CORE + CORE_SIZE * c..CORE + CORE_SIZE * (c + 1)];
        own[0] = 14;
        own[RUNNING] = 1;
        own[CLOSED] = 1;
    }
    (cells, disk)
}

/// A plan over so many made-up cards, each the model's.
pub fn compare_made_up(planner: Planner, count: u64, seed: u64) -> Result<Compared, String> {
    let (mut random, mut compared) = (Random::new(seed), Compared::default());
    let mut disk = Vec::new();
    for i in 0..count {
        if i % 8 == 0 {
            disk = any_disk(&mut random);
        }
        let cells = any_cells(&mut random, &disk);
        let short = random.chance(10) as usize;
        let found = check_plan(planner, &cells, &to_card(&cells), &disk[short..], &[0; MEMORY])?;
        compared.count(&found);
    }
    Ok(compared)
}
