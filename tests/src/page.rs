// page.rs: the journal page of a disk for the paper log (paper 02, requests a and b): a head line, a line for each transaction that
// recovery would read, and for each core why it would read no more. A disk that it would refuse has one line, with the number.

use crate::journal::{End, Journals, Record};
use crate::layout::{Shape, DISK};
use crate::order::Order;
use crate::wrong::WrongPage;
use std::fmt::Display;

/// What a line of the log holds; the line feed comes after it.
pub const COLUMNS: usize = 64;

pub type Line = [u8; COLUMNS + 1];

/// All lines of a disk's page.
pub fn page(disk: &[u8]) -> Vec<Line> {
    page_by(WrongPage::No, disk)
}

/// The same by a page that is wrong in one rule.
pub fn page_by(wrong: WrongPage, disk: &[u8]) -> Vec<Line> {
    let (shape, journals) = match read(disk) {
        Ok(read) => read,
        Err(refusal) => return vec![set(&[(2, &refusal)])],
    };
    let valid = journals.valid(journals.everything(), Order::InSequence);
    let records = journals.records.iter().enumerate();
    let lines = records.map(|(i, record)| transaction(record, valid >> i & 1 == 1, wrong));
    let ends = journals.ends.iter().enumerate().filter_map(|(core, end)| Some(ending(core, (*end)?)));
    std::iter::once(head(shape)).chain(lines).chain(ends).collect()
}

/// Line `i` of a page; one past the last has no fields.
pub fn line_at(page: &[Line], i: usize) -> Line {
    page.get(i).copied().unwrap_or_else(|| set(&[]))
}

/// What the page program prints on a disk.
pub fn print_page(disk: &[u8]) -> String {
    String::from_utf8(page(disk).concat()).expect("text")
}

/// What recovery would read of a disk, or its refusal.
fn read(disk: &[u8]) -> Result<(Shape, Journals), u8> {
    if disk.len() == DISK {
        Journals::of_disk(disk)
    } else {
        Err(1)
    }
}

fn head(shape: Shape) -> Line {
    set(&[(2, &shape.cores), (2, &shape.blocks), (2, &shape.journal)])
}

fn transaction(record: &Record, is_kept: bool, wrong: WrongPage) -> Line {
    let Record { core, number, stamp, blocks, .. } = record;
    let word = if is_kept { "kept" } else { "left" };
    let named = match wrong {
        WrongPage::No => record.cores_named(),
        WrongPage::NamesCounted => record.names.len(),
    };
    set(&[(2, core), (10, number), (20, stamp), (2, &blocks.len()), (2, &named), (4, &word)])
}

fn ending(core: usize, end: End) -> Line {
    set(&[(2, &core), (2, &end.number())])
}

/// A line of fields, each set right in so many columns: a blank between two, blanks to the last column, a line feed.
fn set(fields: &[(usize, &dyn Display)]) -> Line {
    let texts: Vec<String> = fields.iter().map(|&(width, field)| format!("{field:>width$}")).collect();
    let text = format!("{:<COLUMNS$}\n", texts.join(" "));
    text.into_bytes().try_into().expect("no field is wider than its columns")
}
