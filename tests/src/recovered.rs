// recovered.rs: the home area that recovery of a disk gives, told from the disk alone (paper 01; paper 02, request g), and commands held
// against it: RECOVERs of a card that is down, and a cut before and after CHECKPOINTs and RETIREs.

use crate::card::{Card, Phase};
use crate::command::Command;
use crate::emptying::{require, World};
use crate::layout::{copy_of, read_master, Block, Master, Name, Tails, BLOCK, HOMES, MEMORY};
use crate::ledger::Entry;
use crate::order::Order;
use crate::random::Random;
use crate::second_reader::read_journal;

/// What recovery of a disk gives.
#[derive(Clone, PartialEq, Eq)]
pub struct Recovered {
    pub area: Vec<u8>,
    /// How many blocks the valid set holds.
    pub held: usize,
}

/// Of each home block the image of highest stamp in the valid set, of equal ones the last in order of core and number; where none holds
/// the block, what stands at home. The layout is what the master tells. None where the master is unfit.
pub fn recovered(disk: &[u8]) -> Option<Recovered> {
    let master = read_master(disk)?;
    let valid = valid_set(all_read(disk, &master), &master.tails);
    let newest = |block: u8| {
        let images = valid.iter().filter_map(|(_, entry)| Some((entry.stamp, image_of(entry, block)?)));
        // of equal ones the last
        images.max_by_key(|(stamp, _)| *stamp).map(|(_, image)| image)
    };
    let (mut area, mut held) = (Vec::new(), 0);
    for block in 0..master.shape.blocks {
        let image = newest(block);
        held += image.is_some() as usize;
        area.extend(image.unwrap_or_else(|| copy_of(disk, master.shape.home(block))));
    }
    Some(Recovered { area, held })
}

pub fn recovered_area(disk: &[u8]) -> Option<Vec<u8>> {
    recovered(disk).map(|recovered| recovered.area)
}

fn image_of(entry: &Entry, block: u8) -> Option<Block> {
    let place = entry.blocks.iter().position(|each| *each == block)?;
    Some(entry.images[place])
}

fn all_read(disk: &[u8], master: &Master) -> Vec<(Name, Entry)> {
    let of_core = |core| {
        let entries = read_journal(disk, master, core, usize::MAX).into_iter();
        entries.map(move |entry| (Name { core, number: entry.number }, entry))
    };
    (0..master.shape.cores).flat_map(of_core).collect()
}

/// Each name listed and the one before on the core is in the set or below its core's tail number: who lacks one goes, until none goes.
fn valid_set(all: Vec<(Name, Entry)>, tails: &Tails) -> Vec<(Name, Entry)> {
    let names: Vec<Name> = all.iter().map(|(name, _)| *name).collect();
    let is_met = |name: &Name| name.number < tails[name.core as usize].number || names.contains(name);
    let mut left = all;
    left.retain(|(name, entry)| entry.names.iter().chain(&Order::InSequence.before(*name)).all(is_met));
    if left.len() == names.len() {
        left
    } else {
        valid_set(left, tails)
    }
}

/// The home area of a disk as it stands.
fn home_area(disk: &[u8]) -> Option<&[u8]> {
    Some(&disk[BLOCK..][..BLOCK * read_master(disk)?.shape.blocks as usize])
}

fn require_up_with(world: &World, due: &Recovered) -> Result<(), String> {
    let is_due = world.card.phase == Phase::Up && home_area(&world.disk) == Some(&due.area[..]);
    require(is_due, || format!("{:?} with another home area than {} held blocks give", world.card.phase, due.held))
}

fn require_still(world: &World, due: &Recovered) -> Result<(), String> {
    let is_same = world.card.phase == Phase::Down && recovered(&world.disk).as_ref() == Some(due);
    require(is_same, || format!("{:?} over a disk that gives something else", world.card.phase))
}

/// A card whose recovery has not begun, over a disk with a fit master. With h blocks held, the first h + 1 RECOVERs are done and bring
/// it up with the recovered area; before each of them the disk gives that area.
pub fn check_whole(card: Card, disk: &[u8]) -> Result<Recovered, String> {
    let due = recovered(disk).ok_or("an unfit master")?;
    let mut world = World::new(&card, disk, &[0x5A; MEMORY]);
    for _ in 0..=due.held {
        require_still(&world, &due)?;
        let answer = world.step(Command::Recover).answer;
        require(answer == 0, || format!("RECOVER is refused with {answer}"))?;
    }
    require_up_with(&world, &due)?;
    Ok(due)
}

/// The same with cuts and whatever else in between, until the card is up.
pub fn check_disturbed(card: Card, disk: &[u8], random: &mut Random) -> Result<(), String> {
    let due = recovered(disk).ok_or("an unfit master")?;
    let (mut world, mut cuts) = (World::new(&card, disk, &[0x5A; MEMORY]), random.below(5));
    while world.card.phase == Phase::Down {
        require_still(&world, &due)?;
        let mut tape: [u8; 9] = std::array::from_fn(|_| random.below(11) as u8);
        if random.chance(700) || tape[0] == 6 && cuts == 0 {
            tape[0] = 7;
        }
        cuts -= (tape[0] == 6) as usize;
        world.card.command(&mut world.disk, &mut world.memory, &tape, 0);
    }
    require_up_with(&world, &due)
}

/// The home area after a CUT and RECOVERs until the card is up.
fn brought_back(world: &World) -> Result<Vec<u8>, String> {
    let mut world = world.clone();
    let mut answers = vec![world.step(Command::Cut).answer];
    while world.card.phase == Phase::Down && answers.len() < HOMES + 3 {
        answers.push(world.step(Command::Recover).answer);
    }
    let is_up = world.card.phase == Phase::Up && answers.iter().all(|answer| *answer == 0);
    require(is_up, || format!("not up after a CUT and RECOVERs: {answers:?}"))?;
    home_area(&world.disk).map(<[u8]>::to_vec).ok_or("an unfit master".into())
}

/// Lists of CHECKPOINT and RETIRE that were tried.
#[derive(Clone, Copy, Debug, Default)]
pub struct Spans {
    pub lists: u64,
    /// Of cards that were down.
    pub down: u64,
    pub home_stores: u64,
    pub retired: u64,
    pub refused: u64,
}

impl Spans {
    /// Any list of these commands, of whatever cores: a cut after it brings back what one before it does, which is what the disk gives.
    /// A wrong card can be made to run the list.
    pub fn check(&mut self, world: &World, by: Card, random: &mut Random) -> Result<(), String> {
        let before = brought_back(world)?;
        let mut after = World { card: by, ..world.clone() };
        for _ in 0..random.between(1, 12) {
            self.step(&mut after, random);
            let is_same = recovered_area(&after.disk).as_ref() == Some(&before);
            require(is_same, || "the disk gives another home area".into())?;
        }
        after.card.kind = world.card.kind;
        require(brought_back(&after)? == before, || "a cut after it brings back another home area".into())?;
        self.lists += 1;
        self.down += (world.card.phase == Phase::Down) as u64;
        Ok(())
    }

    /// Mostly what comes next for a core; one that is not there too.
    fn step(&mut self, world: &mut World, random: &mut Random) {
        let core = random.below(world.card.shape.cores as usize + 1) as u8;
        let command = match random.below(5) {
            0 => Command::Checkpoint { core },
            1 => Command::Retire { core },
            _ if core < world.card.shape.cores => world.next_of(core),
            _ => Command::Retire { core },
        };
        match (world.step(command).answer, command) {
            (0, Command::Retire { .. }) => self.retired += 1,
            (0, _) => self.home_stores += 1,
            _ => self.refused += 1,
        }
    }
}
