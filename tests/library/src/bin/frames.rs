// frames: the stack that the library's code reserves: the frame of each function and what it writes below it, read from its
// instructions by `objdump` of binutils, and for each exported entry the deepest path of calls. It is a bound: `stack` sees what runs
// touch.

use std::collections::BTreeMap;
use std::process::Command;

const LIBRARY: &str = concat!(env!("CARGO_MANIFEST_DIR"), "/../../target/staticlib/libfirmware.a");

/// Calls of a function by itself: the valid set is struck at most 96 times, and once more without effect.
const LEVELS: usize = 97;

const PAGE: usize = 4096;

#[derive(Default)]
struct Function {
    /// Bytes of its frame, with the return address.
    frame: usize,
    /// Bytes below the stack pointer that it writes where it calls nothing: the platform leaves 128 there to such a function.
    beyond: usize,
    calls: Vec<String>,
}

type Functions = BTreeMap<String, Function>;

/// The functions of the library. Calls out of it (memcpy and the like) are noted by name alone.
fn functions(listing: &str) -> Functions {
    let mut all = Functions::new();
    let mut name = String::new();
    for line in listing.lines() {
        if let Some(header) = line.strip_suffix(">:") {
            name = header.split('<').nth(1).unwrap_or("").to_string();
            all.insert(name.clone(), Function { frame: 8, ..Function::default() });
        } else if let Some(function) = all.get_mut(&name) {
            function.frame += reserved(line);
            function.beyond = function.beyond.max(beyond(line));
            function.calls.extend(called(line));
        }
    }
    all
}

/// What an instruction takes of the stack. A large frame is taken page by page in a loop, whose end %r11 has.
fn reserved(line: &str) -> usize {
    let words: Vec<&str> = line.split_whitespace().collect();
    match words[..] {
        [_, "push", _] => 8,
        [_, "sub", operands] => match operands.split_once(',') {
            Some((bytes, "%rsp")) => hex(bytes).unwrap_or(0),
            Some((bytes, "%r11")) => hex(bytes).filter(|bytes| bytes % PAGE == 0).map_or(0, |bytes| bytes - PAGE),
            _ => 0,
        },
        _ => 0,
    }
}

/// How far below the stack pointer an operand lies, as in `-0x6c(%rsp)`.
fn beyond(line: &str) -> usize {
    let below = line.split_once("(%rsp)").and_then(|(before, _)| before.rsplit_once("-0x"));
    below.and_then(|(_, bytes)| usize::from_str_radix(bytes, 16).ok()).unwrap_or(0)
}

fn hex(operand: &str) -> Option<usize> {
    usize::from_str_radix(operand.strip_prefix("$0x")?, 16).ok()
}

/// The function that a call or its relocation names.
fn called(line: &str) -> Option<String> {
    let words: Vec<&str> = line.split_whitespace().collect();
    match words[..] {
        [_, "R_X86_64_PLT32" | "R_X86_64_PC32", target] => {
            let symbol = target.rsplit_once("-0x")?.0;
            Some(symbol.strip_prefix(".text.").unwrap_or(symbol).to_string())
        }
        [_, "call", _, target] if !target.contains('+') => Some(target.trim_matches(['<', '>']).to_string()),
        _ => None,
    }
}

/// The deepest path from a function: its bytes, and each function on it with the bytes that it adds.
fn deepest(all: &Functions, name: &str) -> (usize, Vec<(String, usize)>) {
    let Some(function) = all.get(name) else { return (0, Vec::new()) };
    let calls_itself = function.calls.iter().any(|other| other == name);
    let own = function.frame * if calls_itself { LEVELS } else { 1 };
    let others = function.calls.iter().filter(|other| *other != name).map(|other| deepest(all, other));
    let (bytes, mut path) = others.max_by_key(|(bytes, _)| *bytes).unwrap_or_default();
    if bytes < function.beyond {
        let own = own + function.beyond;
        return (own, vec![(name.to_string(), own)]);
    }
    path.insert(0, (name.to_string(), own));
    (own + bytes, path)
}

fn main() {
    let out = Command::new("objdump").args(["-dr", "--no-show-raw-insn", LIBRARY]).output().expect("objdump runs");
    assert!(out.status.success(), "no library: run bin/library");
    let all = functions(&String::from_utf8_lossy(&out.stdout));
    let mut by_frame: Vec<_> = all.iter().collect();
    by_frame.sort_by_key(|(_, function)| std::cmp::Reverse(function.frame));
    println!("the largest frames of {} functions", all.len());
    for (name, function) in by_frame.iter().take(15) {
        println!("{:>8} {name}", function.frame);
    }
    for entry in all.keys().filter(|name| name.starts_with("rev_d_")) {
        let (bytes, path) = deepest(&all, entry);
        let steps: Vec<String> = path.iter().map(|(name, own)| format!("{name} {own}")).collect();
        println!("{entry}: {bytes} bytes: {}", steps.join(", "));
    }
}
