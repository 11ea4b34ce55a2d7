// lib.rs: an independent model of the revision D storage card, with a service book, a ledger, tapes and checks,
// and with the journal page of a disk and the plan of a card.

pub mod book;
pub mod card;
pub mod checks;
pub mod command;
pub mod counts;
pub mod directed;
pub mod disks;
pub mod emptying;
pub mod endings;
pub mod few;
pub mod foreign;
pub mod generator;
pub mod journal;
pub mod layout;
pub mod least;
pub mod ledger;
pub mod older;
pub mod order;
pub mod page;
pub mod planner;
pub mod plans;
pub mod program;
pub mod random;
pub mod recovered;
pub mod runs;
pub mod second_reader;
pub mod sequence;
pub mod shrink;
pub mod twin;
pub mod wide;
pub mod wrong;

mod recovery;
mod transaction;
