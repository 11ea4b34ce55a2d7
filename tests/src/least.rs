// least.rs: the fewest CLOSE, STORE, CHECKPOINT and RETIRE commands that empty the journals, found by trying all of them, and the plan
// held against that.

use crate::card::Phase;
use crate::emptying::{require, World};
use crate::generator::Generator;
use crate::layout::{Shape, CORES};
use crate::planner::{unretired, Unretired};
use crate::plans::plan_in;
use std::collections::HashSet;

/// What was searched.
#[derive(Clone, Debug, Default)]
pub struct Searched {
    /// States searched from, and those among them where a CHECKPOINT or RETIRE is refused with 32 or 33 on some way.
    pub starts: u64,
    pub refusing: u64,
    /// Worlds passed through, and commands tried there, done and refused; how many of these with 32 or 33.
    pub worlds: u64,
    pub tried: [u64; 2],
    pub refused: u64,
    pub largest: u64,
    pub most_transactions: usize,
    /// States left out, as there are too many ways.
    pub left_out: u64,
}

/// Breadth first, by trying the commands alone: the first level on which all is empty. `each` sees the world after every command that
/// is done, with its level.
pub fn fewest(
    start: &World,
    searched: &mut Searched,
    mut each: impl FnMut(&World, u64) -> Result<(), String>,
) -> Result<u64, String> {
    let (mut level, mut depth, refused) = (vec![start.clone()], 0, searched.refused);
    let mut seen = HashSet::from([start.key()]);
    while !level.iter().any(World::is_emptied) {
        require(!level.is_empty(), || format!("no world after {depth} commands, and none was empty"))?;
        depth += 1;
        level = next_level(level, searched, &mut seen, |world| each(world, depth))?;
    }
    searched.starts += 1;
    searched.refusing += (searched.refused > refused) as u64;
    searched.worlds += seen.len() as u64;
    searched.largest = searched.largest.max(depth);
    Ok(depth)
}

/// The worlds one command further than these that were not seen before.
fn next_level(
    level: Vec<World>,
    searched: &mut Searched,
    seen: &mut HashSet<u64>,
    mut each: impl FnMut(&World) -> Result<(), String>,
) -> Result<Vec<World>, String> {
    let mut next = Vec::new();
    for world in level {
        // the first core that is not there too
        world.try_commands(0..=world.card.shape.cores, |_, answer, after| {
            searched.tried[(answer != 0) as usize] += 1;
            searched.refused += matches!(answer, 32 | 33) as u64;
            if answer == 0 {
                each(after)?;
                next.extend(seen.insert(after.key()).then(|| after.clone()));
            }
            Ok(())
        })?;
    }
    Ok(next)
}

/// The figure of a world's plan is the fewest, and on the way there less by the level of every world, whatever was refused.
fn check_figure(start: &World, searched: &mut Searched) -> Result<(), String> {
    let figure = plan_in(start).commands;
    let least = fewest(start, searched, |world, depth| {
        let left = plan_in(world).commands;
        require(left + depth == figure, || format!("{left} of {figure} left on level {depth}"))
    })?;
    require(least == figure, || format!("{least} commands empty the journals, {figure} are planned"))
}

/// About how many worlds the ways from a state pass through: the steps of each core, and the orders in which the running ones close.
fn ways(all: &[Unretired]) -> u64 {
    let steps =
        |core| all.iter().filter(|each| each.name.core == core).map(|each| each.stores() + each.closes()).sum::<u64>();
    let running = all.iter().map(Unretired::closes).sum::<u64>();
    (0..CORES as u8).map(|core| steps(core) + 1).product::<u64>() * (1..=running).product::<u64>()
}

/// Searches from so many different states of generated tapes on small cards, of at most so many ways each.
pub fn search_states(count: u64, most_ways: u64, seed: u64) -> Result<Searched, String> {
    let mut generator = Generator::new(seed);
    let (mut searched, mut seen) = (Searched::default(), HashSet::new());
    for world in std::iter::repeat_with(|| some_states(&mut generator)).flatten() {
        if searched.starts == count {
            break;
        }
        let all = unretired(&world.card, &world.disk);
        if ways(&all) > most_ways {
            searched.left_out += 1;
        } else if !all.is_empty() && seen.insert(world.key()) {
            check_figure(&world, &mut searched)?;
            searched.most_transactions = searched.most_transactions.max(all.len());
        }
    }
    Ok(searched)
}

/// Some states of a tape where the card is up: those next to each other are much alike.
fn some_states(generator: &mut Generator) -> Vec<World> {
    let shape = small_shape(generator);
    let (mut world, mut states) = (World::blank(), Vec::new());
    for _ in 0..generator.begin_with(shape).min(120) {
        let command = generator.command(&world.card);
        let is_chosen = world.step(command).answer == 0 && generator.random.chance(150);
        if is_chosen && world.card.phase == Phase::Up {
            states.push(world.clone());
        }
    }
    states
}

fn small_shape(generator: &mut Generator) -> Shape {
    let random = &mut generator.random;
    let [cores, blocks, journal] = [random.between(1, 4), random.between(1, 4), random.between(4, 12)];
    Shape { cores: cores as u8, blocks: blocks as u8, journal: journal as u8 }
}
