// program.rs: what the tape program prints: a line for each command, then the home blocks that are not all zero. What programs
// with a flaw of their own over the right card would print, and tapes for the program.

use crate::card::{Card, Kind, Phase};
use crate::generator::Generator;
use crate::layout::{block_at, read_master, Master, Shape, DISK, MEMORY};
use std::fmt::Write;

/// How much the program reads and writes at a time.
pub const PIECE: usize = 65_536;

/// What is wrong in a program beside its card; `No` is the right one.
#[derive(Clone, Copy, PartialEq, Eq, Debug)]
pub enum Flaw {
    No,
    FirstCommands,
    FirstPiece,
    FirstText,
    OffsetModulo,
    StoresModulo,
    EighthStore,
    FewHomes,
    BlockModulo,
    ZeroBeginning,
}

/// All flaws, in plain words.
pub const FLAWS: &[(Flaw, &str)] = &[
    (Flaw::FirstCommands, "only the first 50 commands are run"),
    (Flaw::FirstPiece, "only the first piece of the tape is read"),
    (Flaw::FirstText, "only the first piece of the lines is written"),
    (Flaw::OffsetModulo, "the offset modulo 128"),
    (Flaw::StoresModulo, "the stores modulo 8"),
    (Flaw::EighthStore, "the tape ended after the eighth store"),
    (Flaw::FewHomes, "no block line above 16 home blocks"),
    (Flaw::BlockModulo, "block numbers modulo 10"),
    (Flaw::ZeroBeginning, "no line for a block whose first eight bytes are zero"),
];

pub fn print_tape(tape: &[u8]) -> String {
    print_with(tape, Flaw::No)
}

pub fn print_with(tape: &[u8], flaw: Flaw) -> String {
    print_by(Kind::default(), tape, flaw)
}

/// The same by a card of another kind.
pub fn print_by(kind: Kind, tape: &[u8], flaw: Flaw) -> String {
    let mut card = Card::with(Phase::Blank, kind);
    let (mut disk, mut memory) = (vec![0; DISK], vec![0; MEMORY]);
    let tape = if flaw == Flaw::FirstPiece { &tape[..tape.len().min(PIECE)] } else { tape };
    let (mut offset, mut commands, mut stores, mut text) = (0, 0, 0u64, String::new());
    while offset < tape.len() {
        let outcome = card.command(&mut disk, &mut memory, tape, offset);
        stores += outcome.stores as u64;
        commands += 1;
        let at = if flaw == Flaw::OffsetModulo { offset % 128 } else { offset };
        let count = if flaw == Flaw::StoresModulo { stores % 8 } else { stores };
        let _ = writeln!(text, "{at} {} {} {count}", tape[offset], outcome.answer);
        let is_cut_off = (flaw == Flaw::FirstCommands && commands == 50) || (flaw == Flaw::EighthStore && stores == 8);
        offset = if is_cut_off || matches!(outcome.answer, 2 | 3) { tape.len() } else { outcome.next };
    }
    if flaw == Flaw::FirstText {
        text.truncate(PIECE);
    }
    print_home(&disk, flaw, &mut text);
    text
}

/// A disk without a master is that of a blank card, which prints no block.
fn print_home(disk: &[u8], flaw: Flaw, text: &mut String) {
    let Some(Master { shape, .. }) = read_master(disk) else { return };
    let count = if flaw == Flaw::FewHomes && shape.blocks > 16 { 0 } else { shape.blocks };
    for block in 0..count {
        let bytes = block_at(disk, shape.home(block));
        let looked_at = if flaw == Flaw::ZeroBeginning { &bytes[..8] } else { bytes };
        if looked_at.iter().any(|byte| *byte != 0) {
            let number = if flaw == Flaw::BlockModulo { block % 10 } else { block };
            let _ = writeln!(text, "block {number} {}", crate::command::hex(&bytes[..8]));
        }
    }
}

/// A tape of the generator, which looks at the card as the tape grows: of a shape, or of any, and of so many commands at
/// least. Some end with bytes that need not be commands.
pub fn generated(generator: &mut Generator, shape: Option<Shape>, least: usize) -> Vec<u8> {
    let (mut disk, mut memory) = (vec![0; DISK], vec![0; MEMORY]);
    let mut card = Card::blank();
    let most = match shape {
        Some(shape) => generator.begin_with(shape),
        None => generator.begin(),
    };
    let mut tape = Vec::new();
    for _ in 0..most.max(least) {
        let offset = tape.len();
        generator.command(&card).write_to(&mut tape);
        card.command(&mut disk, &mut memory, &tape, offset);
    }
    if generator.random.chance(500) {
        tape.extend(generator.garbage());
    }
    tape
}
