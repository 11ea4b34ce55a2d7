// callgrind.rs: the instructions of one run of a workload, counted by valgrind's callgrind, and the functions that have most.

use crate::subject::Subject;
use crate::workload::Workload;
use std::collections::BTreeMap;
use std::io::Write;
use std::path::PathBuf;
use std::process::{Command, Stdio};

pub struct Count {
    pub instructions: u64,
    /// The functions with the most instructions of their own, and how many.
    pub functions: Vec<(String, u64)>,
}

impl Count {
    pub fn per_command(&self, workload: &Workload) -> f64 {
        self.instructions as f64 / workload.commands as f64
    }
}

/// Runs this program again under callgrind, with one workload and one subject.
pub fn count(subject: Subject, workload: &Workload) -> Count {
    let out = std::env::temp_dir().join(format!("callgrind.{}.out", std::process::id()));
    let mut child = Command::new("valgrind")
        .args(["--tool=callgrind", "--collect-atstart=no", "--toggle-collect=*workload*measured*"])
        .arg(format!("--callgrind-out-file={}", out.display()))
        .arg(std::env::current_exe().expect("this program"))
        .args(["one", &format!("{subject:?}")])
        .stdin(Stdio::piped())
        .stdout(Stdio::null())
        .stderr(Stdio::null())
        .spawn()
        .expect("valgrind is installed");
    child.stdin.take().expect("its input").write_all(workload.to_text().as_bytes()).expect("it reads");
    let status = child.wait().expect("it ends");
    assert!(status.success(), "callgrind ended with {status}");
    let functions = annotated(&out);
    std::fs::remove_file(&out).expect("it was written");
    Count { instructions: functions.iter().map(|(_, own)| own).sum(), functions }
}

/// The functions as `callgrind_annotate` lists them, those with most first. It lists one for each file with lines of it.
fn annotated(out: &PathBuf) -> Vec<(String, u64)> {
    let listing = Command::new("callgrind_annotate").args(["--threshold=100", "--auto=no"]).arg(out).output();
    let listing = listing.expect("callgrind_annotate comes with valgrind").stdout;
    let mut sums = BTreeMap::<String, u64>::new();
    for (name, own) in String::from_utf8_lossy(&listing).lines().filter_map(function) {
        *sums.entry(name).or_default() += own;
    }
    let mut functions: Vec<(String, u64)> = sums.into_iter().collect();
    functions.sort_by_key(|(_, own)| std::cmp::Reverse(*own));
    functions
}

/// A line such as `1,234 (12.3%)  file:function [object]`; the line of the totals is not one.
fn function(line: &str) -> Option<(String, u64)> {
    let (number, rest) = line.trim_start().split_once(" (")?;
    let name = rest.split_once(")  ")?.1;
    if name.starts_with("PROGRAM TOTALS") {
        return None;
    }
    let own = number.replace(',', "").parse().ok()?;
    let place = name.split(" [").next().unwrap_or(name);
    Some((short(place.split_once(':').map_or(place, |(_, function)| function)), own))
}

/// A name without what says nothing here: the level of a recursion, crates of the tests, the kind of processor.
fn short(name: &str) -> String {
    let name = name.split('\'').next().unwrap_or(name);
    let name = ["memcpy", "memset", "memmove"].into_iter().find(|part| name.contains(part)).unwrap_or(name);
    name.replace("card_library::", "").replace("card_bench::", "").replace(" as stage::Implementation", "")
}
