// page_script.rs: bin/page reads a file or standard input, and answers a wrong file or a closed output with one line and a status.

use card_library::program::{ended, printed, Script, ROOT};
use card_tests::command::from_hex;
use card_tests::disks::{disk_after, P1_UNCUT};
use card_tests::layout::DISK;
use card_tests::page::print_page;

const SCRIPT: Script = Script { name: "page", folder: env!("CARGO_TARGET_TMPDIR") };

/// With the fill cut off.
const P1_PAGE: [&str; 5] = [
    " 2  4 12",
    " 0          1                    1  1  1 kept",
    " 1          1                    2  0  1 kept",
    " 0  1",
    " 1  1",
];

fn p1_disk() -> Vec<u8> {
    disk_after(&from_hex(P1_UNCUT))
}

/// Beside a file, standard input is not read.
#[test]
fn a_file_and_standard_input_have_the_same_page() {
    let disk = p1_disk();
    let two = disk.repeat(2);
    let cases: [(&str, &[u8], &[&str]); 4] = [
        ("a disk", &disk, &P1_PAGE),
        ("two disks", &two, &[" 1"]),
        ("no disk", &[], &[" 1"]),
        ("zero bytes", &[0; DISK], &[" 8"]),
    ];
    for (name, bytes, lines) in cases {
        let text: String = lines.iter().map(|line| format!("{line:64}\n")).collect();
        assert_eq!(print_page(bytes), text, "{name}");
        assert_eq!(printed(SCRIPT.begin(&[]), bytes), text, "{name}");
        let path = SCRIPT.file(name, bytes);
        for beside in [&[][..], &[0; 100], &disk] {
            assert_eq!(printed(SCRIPT.begin(&[&path]), beside), text, "{name}");
        }
    }
}

#[test]
fn a_wrong_file_is_refused() {
    let disk = p1_disk();
    let of = |arguments: &[&str]| ended(SCRIPT.begin(arguments), &disk);
    SCRIPT.refused(of(&["no/such disk"]), "no such file");
    SCRIPT.refused(of(&[""]), "no such file");
    SCRIPT.refused(of(&[ROOT]), "a directory");
    let there = SCRIPT.file("one of two", &disk);
    SCRIPT.refused(of(&[&there, &there]), "one file");
    SCRIPT.closed_file("closed disk", &disk, |closed| SCRIPT.refused(of(&[closed]), "cannot be read"));
}

#[test]
fn a_closed_output_or_input_ends_with_a_status() {
    let path = SCRIPT.file("some disk", &p1_disk());
    let shell = |line: &str| SCRIPT.shell(line, &path);
    SCRIPT.refused(shell("\"$1\" \"$2\" >/dev/full"), "standard output cannot be written");
    SCRIPT.refused(shell("\"$1\" \"$2\" >&-"), "standard output is closed");
    SCRIPT.refused(shell("\"$1\" <&-"), "standard input is closed");
    SCRIPT.refused(shell("\"$1\" <\"$3\""), "standard input cannot be read");
}
