// bench: the library against the plain card on the same tapes. Without arguments: commands per second and stack. With
// `instructions`: counts by callgrind, how they grow, the functions that have most; and the plot, into docs/. With `limits`: the
// counts that have a limit, nothing else. Above a limit it ends with a status other than 0.

use card_bench::callgrind::{count, Count};
use card_bench::limits::{Counted, Limit};
use card_bench::plot::{self, Chart, Growth};
use card_bench::report::{grouped, print_table};
use card_bench::subject::{Subject, SUBJECTS};
use card_bench::workload::{
    all, of_length, require_same, struck, tapes, valid, whole_checkpointing, whole_recovery, with_blocks, with_eights,
    with_records, writes, Workload, BLOCKS, LENGTH, LENGTHS, RECORDS, SHORT, WHOLES,
};

const ROUNDS: usize = 15;

/// What the library may have on each tape and for a WRITE by itself, for RECOVER over 96 valid records and over 96 struck ones.
const RUN_LIMIT: Limit = Limit::OfPlain(1.05);
const VALID_LIMIT: Limit = Limit::Instructions(45_000.0);
const STRUCK_LIMIT: Limit = Limit::OfPlain(1.0);

const PLOT: &str = concat!(env!("CARGO_MANIFEST_DIR"), "/../../docs/benchmark.svg");

fn main() {
    let arguments: Vec<String> = std::env::args().skip(1).collect();
    let words: Vec<&str> = arguments.iter().map(String::as_str).collect();
    match words[..] {
        [] => speeds(),
        ["instructions"] => instructions(),
        ["limits"] => limits(),
        ["one", subject] => one(subject),
        _ => panic!("no such argument: {arguments:?}"),
    }
}

/// One run of the workload on standard input, for callgrind.
fn one(subject: &str) {
    let text = std::io::read_to_string(std::io::stdin()).expect("a workload");
    Subject::named(subject).expect("a subject").time(&Workload::from_text(&text));
}

/// The subjects in turn, so that what else the machine does meets all alike; of the rounds the median.
fn speed_row(workload: &Workload) -> Vec<String> {
    let mut times = [const { Vec::new() }; 3];
    for _ in 0..ROUNDS {
        SUBJECTS.iter().zip(&mut times).for_each(|(subject, times)| times.push(subject.time(workload)));
    }
    let [library, whole, plain] = times.map(|mut times| {
        times.sort();
        workload.commands as f64 / times[ROUNDS / 2].as_secs_f64()
    });
    let figures = [workload.commands as f64, library, whole, plain].map(grouped);
    let ratios = [plain / library, plain / whole].map(|ratio| format!("{ratio:.2}"));
    [vec![workload.name.clone()], figures.to_vec(), ratios.to_vec()].concat()
}

fn speeds() {
    all().iter().for_each(require_same);
    let load = std::fs::read_to_string("/proc/loadavg").unwrap_or_default();
    let title = format!("Commands per second, medians of {ROUNDS} rounds; load {}", load.trim());
    let heads =
        ["tape", "commands", "library", "library, whole tape", "plain", "plain / library", "plain / whole tape"];
    print_table(&title, &heads, &tapes(LENGTH).iter().map(speed_row).collect::<Vec<_>>());
    let stack = |workload: &Workload| {
        let bytes = SUBJECTS.map(|subject| grouped(subject.stack(workload) as f64));
        [vec![workload.name.clone()], bytes.to_vec()].concat()
    };
    let rows: Vec<_> = tapes(LENGTH).iter().chain(&valid()).chain(&struck()).map(stack).collect();
    print_table("Most stack in bytes, the caller's with it", &["tape", "library", "whole tape", "plain"], &rows);
}

fn limits() {
    hold_limits(&count_all(&tapes(SHORT)), &count_all(&writes()), &count_all(&valid()), &count_all(&struck()));
}

/// Tells the highest figure of each kind, then each one above its limit; ends with a failure where there is one.
fn hold_limits(tapes: &[Counted], writes: &[Counted], valid: &[Counted], struck: &[Counted]) {
    let kinds = [
        ("tapes", tapes, RUN_LIMIT),
        ("WRITE", writes, RUN_LIMIT),
        ("RECOVER, 96 valid", valid, VALID_LIMIT),
        ("RECOVER, 96 struck one by one", struck, STRUCK_LIMIT),
    ];
    println!();
    kinds.iter().for_each(|(kind, all, limit)| println!("{}", limit.highest(kind, all)));
    let above: Vec<String> = kinds.iter().flat_map(|(_, all, limit)| limit.above(all)).collect();
    above.iter().for_each(|line| println!("{line}"));
    if !above.is_empty() {
        std::process::exit(1);
    }
}

/// The counts of library and plain card.
fn both(workload: &Workload) -> [f64; 2] {
    [Subject::Library, Subject::Plain].map(|subject| count(subject, workload).per_command(workload))
}

fn count_all(workloads: &[Workload]) -> Vec<Counted> {
    let counted = |workload: &Workload| Counted {
        name: workload.name.clone(),
        counts: SUBJECTS.map(|subject| count(subject, workload).per_command(workload)),
    };
    workloads.iter().map(counted).collect()
}

fn instructions() {
    all().iter().for_each(require_same);
    let counts = tapes_counted();
    let writes = by_subject("Instructions of a WRITE", "command", &writes());
    by_subject("Instructions a command by the length of the tape", "tape", &LENGTHS.map(of_length));
    let charts = by_records();
    grown("Instructions of a command by blocks of a transaction", "blocks", &BLOCKS, with_blocks);
    by_subject("Instructions of a command with 16 records of eight blocks", "command", &with_eights());
    let valid = by_subject("Instructions of RECOVER, none of 96 struck", "command", &valid());
    let struck = by_subject("Instructions of RECOVER, one of 96 struck a round", "command", &struck());
    std::fs::write(PLOT, plot::svg(&counts, &charts)).expect("the plot is written");
    hold_limits(&counts, &writes, &valid, &struck);
}

/// The tables by records in the journals, and their charts.
fn by_records() -> [Chart<'static>; 3] {
    let one = "Instructions of one command, by records";
    let recovery = "Instructions of a whole recovery, by records";
    let checkpointing = "Instructions of a whole checkpointing, by records";
    [
        Chart { title: one, sizes: &RECORDS, growths: grown(one, "records", &RECORDS, with_records) },
        Chart { title: recovery, sizes: &WHOLES, growths: vec![whole(recovery, whole_recovery)] },
        Chart { title: checkpointing, sizes: &WHOLES, growths: vec![whole(checkpointing, whole_checkpointing)] },
    ]
}

/// The table of the tapes and their functions; for each tape its counts.
fn tapes_counted() -> Vec<Counted> {
    let (mut functions, mut figures) = (Vec::new(), Vec::new());
    for workload in tapes(LENGTH) {
        let counts = SUBJECTS.map(|subject| count(subject, &workload));
        functions.push(vec![workload.name.clone(), shares(&counts[0]), shares(&counts[2])]);
        let counts = counts.map(|count| count.per_command(&workload));
        figures.push(Counted { name: workload.name, counts });
    }
    print_counted("Instructions a command", "tape", &figures);
    print_table("Where they are", &["tape", "library", "plain"], &functions);
    figures
}

/// The functions with most, each with its share.
fn shares(count: &Count) -> String {
    let share = |own: u64| 100.0 * own as f64 / count.instructions as f64;
    let most = count.functions.iter().take(6).map(|(name, own)| format!("`{name}` {:.0}%", share(*own)));
    most.collect::<Vec<_>>().join(", ")
}

/// A table with a row for each workload. Tells the counts.
fn by_subject(title: &str, head: &str, workloads: &[Workload]) -> Vec<Counted> {
    let all = count_all(workloads);
    print_counted(title, head, &all);
    all
}

fn print_counted(title: &str, head: &str, all: &[Counted]) {
    let row = |counted: &Counted| [vec![counted.name.clone()], figures(counted.counts)].concat();
    print_table(title, &[&[head], &SUBJECT_HEADS[..]].concat(), &all.iter().map(row).collect::<Vec<_>>());
}

const SUBJECT_HEADS: [&str; 5] = ["library", "whole tape", "plain", "library / plain", "whole tape / plain"];

/// What stands under these heads.
fn figures(counts: [f64; 3]) -> Vec<String> {
    let [library, whole, plain] = counts;
    let ratios = [library, whole].map(|count| format!("{:.2}", count / plain));
    [counts.map(grouped).to_vec(), ratios.to_vec()].concat()
}

/// A table with a row for each number of records, with the instructions of all commands together. Tells those of library and plain.
fn whole(title: &str, make: fn(usize) -> Workload) -> Growth {
    let (mut rows, mut both) = (Vec::new(), Vec::new());
    for size in WHOLES {
        let workload = make(size);
        let counts = SUBJECTS.map(|subject| count(subject, &workload).instructions as f64);
        rows.push([vec![size.to_string(), grouped(workload.commands as f64)], figures(counts)].concat());
        both.push([counts[0], counts[2]]);
    }
    print_table(title, &[&["records", "commands"], &SUBJECT_HEADS[..]].concat(), &rows);
    (first_word(&make(1)), both)
}

/// What a workload's name begins with: the command, or what is measured whole.
fn first_word(workload: &Workload) -> String {
    workload.name.split([',', ' ']).next().unwrap_or_default().into()
}

/// A table with a row for each size: three commands, each by the library and by the plain card. Tells the counts of each.
fn grown(title: &str, unit: &str, sizes: &[usize], make: fn(usize) -> Vec<Workload>) -> Vec<Growth> {
    let names = make(1).iter().map(first_word).collect::<Vec<_>>();
    let counts: Vec<Vec<[f64; 2]>> = sizes.iter().map(|size| make(*size).iter().map(both).collect()).collect();
    let heads: Vec<String> = names.iter().flat_map(|name| [name.clone(), format!("{name}, plain")]).collect();
    let heads: Vec<&str> = [unit].into_iter().chain(heads.iter().map(String::as_str)).collect();
    let row = |(size, counts): (&usize, &Vec<[f64; 2]>)| {
        let figures = counts.iter().flatten().map(|figure| grouped(*figure));
        std::iter::once(size.to_string()).chain(figures).collect()
    };
    print_table(title, &heads, &sizes.iter().zip(&counts).map(row).collect::<Vec<_>>());
    let of_name = |k: usize| counts.iter().map(|row| row[k]).collect();
    names.into_iter().enumerate().map(|(k, name)| (name, of_name(k))).collect()
}
