// disks.rs: disks to be looked at: the one that a tape leaves, and all that generated tapes pass through, foreign ones too; and what is
// read of a disk by all readers.

use crate::card::{Card, Kind, Phase};
use crate::checks::{Bench, Checks, Seen, Watcher};
use crate::journal::{Journals, Reader};
use crate::layout::{read_master, CORES, DISK, MEMORY};
use crate::page::page;
use crate::second_reader::{journal_stop, read_journal};
use crate::wrong::{Wrong, WrongReader};

/// The first case of paper 01 up to its CUT, in hex.
pub const P1_UNCUT: &str =
    "01 02 04 0C | 02 00 0003 00 41424344 | 02 01 0003 04 45464748 | 03 00 | 04 00 | 04 00 | 04 00 \
    | 05 00 | 03 01 | 04 01 | 04 01";

/// The disk after a tape on a blank card, over slices filled with EE.
pub fn disk_after(tape: &[u8]) -> Vec<u8> {
    disk_by(Kind::default(), tape)
}

/// The same by a card of another kind.
pub fn disk_by(kind: Kind, tape: &[u8]) -> Vec<u8> {
    let (mut disk, mut memory, mut offset) = (vec![0xEE; DISK], vec![0xEE; MEMORY], 0);
    let mut card = Card::with(Phase::Blank, kind);
    while offset < tape.len() {
        offset = card.command(&mut disk, &mut memory, tape, offset).next;
    }
    disk
}

/// Shows the disks of so many generated commands: where a card begins, blank or down over a foreign one, and after every
/// command that changed a byte.
pub fn each_disk(commands: u64, seed: u64, show: impl FnMut(&[u8])) {
    let mut shown = Shown { show, last: Vec::new() };
    let mut bench = Bench::new(Wrong::No, Checks::NONE, Some(&mut shown));
    bench.soak(commands, seed).expect("nothing is checked");
}

struct Shown<F> {
    show: F,
    last: Vec<u8>,
}

impl<F: FnMut(&[u8])> Shown<F> {
    fn see(&mut self, disk: &[u8]) {
        if self.last != disk {
            self.last = disk.to_vec();
            (self.show)(disk);
        }
    }
}

impl<F: FnMut(&[u8])> Watcher for Shown<F> {
    fn start(&mut self, _: bool, disk: &[u8], _: &[u8]) {
        self.see(disk);
    }

    fn command(&mut self, _: &[u8], _: usize, seen: Seen) -> Result<(), String> {
        self.see(seen.disk);
        Ok(())
    }
}

/// Records read and the end of each journal: the card's reader, the second one and the page agree.
pub fn reads_as(disk: &[u8], due: &[(usize, u8)]) {
    let master = read_master(disk).expect("a fit master");
    let page = page(disk);
    let (lines, ends) = page[1..].split_at(due.iter().map(|(read, _)| read).sum());
    assert_eq!(ends_by(disk, Wrong::No), due);
    for (core, (read, end)) in due.iter().enumerate() {
        let stop = journal_stop(disk, &master, core as u8, WrongReader::No);
        assert_eq!((read_journal(disk, &master, core as u8, usize::MAX).len(), stop.end), (*read, *end));
        assert_eq!(lines.iter().filter(|line| line[1] == b'0' + core as u8).count(), *read);
        assert_eq!(ends[core], *format!("{core:2} {end:2}{:59}\n", "").as_bytes());
    }
    assert_eq!(ends.len(), due.len());
}

/// Records read and the end of each journal, by a card that may be wrong.
pub fn ends_by(disk: &[u8], wrong: Wrong) -> Vec<(usize, u8)> {
    let master = read_master(disk).expect("a fit master");
    let journals = Journals::read(Reader { disk, master, wrong }, &[usize::MAX; CORES]);
    let of_core =
        |core: u8| (journals.of_core(core).len(), journals.ends[core as usize].expect("all is read").number());
    (0..master.shape.cores).map(of_core).collect()
}
