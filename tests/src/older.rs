// older.rs: tapes of the card of request (c), whose disk is handed over to a card of today: some that catch a wrong card by one demand
// alone, and one that is handed over after each of its commands.

use crate::card::Kind;
use crate::checks::{Bench, Checks, Failure};
use crate::command::from_hex;
use crate::shrink::{commands_of, tape_of};
use crate::wrong::Wrong;

/// Core 1's transaction names core 0's, which still runs: its list, read as numbers, names nothing but itself.
const TIED: &str = "01 02 01 04 | 02 01 0000 00 01010101 | 02 00 0000 04 02020202 | 03 01 | 04 01 | 04 01 | 04 01";

/// The same with a transaction of core 2 that recovery brings back.
const TIED_AND_ALONE: &str = "01 03 02 04 | 02 01 0001 00 01010101 | 02 00 0001 04 02020202 | 02 02 0000 00 03030303 \
    | 03 01 | 04 01 | 04 01 | 04 01 | 03 02 | 04 02 | 04 02 | 04 02";

/// What a card of today does over it: comes up, ties two transactions, commits the one and is cut.
const TIES: &str =
    "07 | 02 00 0000 00 01010101 | 02 01 0000 04 02020202 | 03 00 | 04 00 | 04 00 | 04 00 | 06 | 07 | 07";

/// The wrong card of today, the demand, the tape of the older card and the one after it.
pub const TAPES: &[(Wrong, Checks, &str, &str)] = &[
    (Wrong::NumbersAlways, Checks::AREA, TIED, "07 | 07"),
    (Wrong::LayoutForgotten, Checks::AREA, TIED_AND_ALONE, "07 | 06 | 07 | 07 | 07"),
    (Wrong::ZeroRefused, Checks::ANSWER, "01 01 01 04", "07"),
    (Wrong::RecoverMasterKept, Checks::AREA, "01 02 01 04", TIES),
    (Wrong::RecoverMasterKept, Checks::DEMAND_2, "01 01 01 04", "07"),
    (Wrong::RecoverMasterZero, Checks::AREA, "01 02 01 04", TIES),
];

/// Ties, a taken block, a retired transaction, records of no block and torn ones; a cut and a recovery by the older card itself.
const EVENTFUL: &str = "01 03 04 09 | 02 00 0000 00 01010101 | 02 01 0000 04 02020202 | 02 02 0003 00 03030303 | 03 00 | 04 00 \
    | 04 00 | 04 00 | 02 00 0001 00 04040404 | 03 01 | 04 01 | 04 01 | 05 00 | 08 00 | 03 02 | 04 02 | 02 01 0001 08 05050505 \
    | 04 02 | 04 02 | 02 01 0003 08 06060606 | 03 00 | 04 00 | 04 00 | 04 00 | 08 01 | 03 01 | 04 01 | 04 01 | 04 01 | 06 | 07 \
    | 07 | 06 | 07 | 07 | 07 | 02 02 0002 00 07070707 | 02 00 0002 04 08080808 | 02 01 0001 00 09090909 | 03 02 | 04 02 \
    | 04 02 | 04 02 | 03 01 | 04 01 | 04 01 | 04 01";

/// After the recovery a card of today goes on, with a commit that names another, and is cut again.
const GOES_ON: &str =
    "02 00 0000 00 11111111 | 02 01 0001 00 12121212 | 03 01 | 04 01 | 04 01 | 04 01 | 02 00 0001 04 13131313 \
    | 03 00 | 04 00 | 04 00 | 04 00 | 04 00 | 06 | 07 | 07 | 07";

/// By another card of today as well: handed over after each of its commands, and the recovery cut after each of its stores.
pub fn run(bench: &mut Bench) -> Result<(), Failure> {
    [Kind::older(Wrong::No), Kind::default()].into_iter().try_for_each(|other| run_by(bench, other))
}

fn run_by(bench: &mut Bench, other: Kind) -> Result<(), Failure> {
    let commands = commands_of(&from_hex(EVENTFUL));
    for (count, stores) in (1..=commands.len()).flat_map(|count| (0..=5).map(move |stores| (count, stores))) {
        let tape = [vec![7; stores], vec![6], vec![7; 5], from_hex(GOES_ON)].concat();
        bench.run_handed_over(other, &tape_of(&commands[..count]), &tape)?;
    }
    Ok(())
}
