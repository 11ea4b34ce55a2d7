// counts.rs: the valid set as a count for each core. What is valid is a beginning of each core's records, so each count is lowered to the
// first record that is not met, until none falls; `journal.rs` strikes records from a set. Wrong cards count otherwise.

use crate::journal::{Journals, Record, Set};
use crate::layout::{Name, CORES};
use crate::wrong::Wrong;

/// How many of each core's records count.
pub type Counts = [usize; CORES];

impl Journals {
    fn is_counted(&self, name: Name, counts: &Counts, wrong: Wrong) -> bool {
        let Some(above) = name.number.checked_sub(self.tails[name.core as usize].number) else { return true };
        (above as usize) < counts[name.core as usize] + (wrong == Wrong::OneAboveMet) as usize
    }

    /// One round, every record by the counts before it. The one before on its core is not asked for: where it does not count, none behind
    /// it does.
    pub fn lowered(&self, counts: &Counts, wrong: Wrong) -> Counts {
        let is_met = |record: &Record| record.names.iter().all(|name| self.is_counted(*name, counts, wrong));
        std::array::from_fn(|core| {
            let first_unmet = self.of_core(core as u8).iter().take_while(|record| is_met(record)).count();
            counts[core].min(first_unmet + (wrong == Wrong::FirstUnmetKept) as usize)
        })
    }

    /// Lowered from all that was read until none falls.
    pub fn valid_counts(&self, wrong: Wrong) -> Counts {
        let mut counts = std::array::from_fn(|core| self.of_core(core as u8).len());
        loop {
            let lower = self.lowered(&counts, wrong);
            if lower == counts || wrong == Wrong::CountsOnce {
                return lower;
            }
            counts = lower;
        }
    }

    /// The set of those that count.
    pub fn counted(&self, counts: &Counts) -> Set {
        let of_core = |core: usize| (0..counts[core]).map(move |i| self.first_of(core as u8) + i);
        (0..CORES).flat_map(of_core).fold(0, |set, i| set | 1 << i)
    }
}
