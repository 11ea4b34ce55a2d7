// tape_script.rs: bin/tape takes hex as the paper has it, and answers a wrong file or a closed output with one line and a status.

use card_library::program::{ended, printed, Script, ROOT};
use card_tests::program::print_tape;

const SCRIPT: Script = Script { name: "tape", folder: env!("CARGO_TARGET_TMPDIR") };

const TAPE: [u8; 16] = [1, 2, 4, 12, 2, 0, 0, 3, 0, 0xAB, 0xCD, 0xEF, 1, 3, 0, 6];

#[test]
fn hex_is_taken_as_the_paper_has_it() {
    let text = b"01 02 04 0C | 02 00 0003 00 abCDefO1 # O\r\n".map(|byte| if byte == b'O' { b'0' } else { byte });
    let text = [&text[..], b"\r\n# \xFF 0\n\t03 00|06"].concat();
    assert_eq!(printed(SCRIPT.begin(&[&SCRIPT.file("paper.hex", &text)]), &[]), print_tape(&TAPE));
    assert_eq!(printed(SCRIPT.begin(&[&SCRIPT.file("tape", &TAPE)]), &[]), print_tape(&TAPE));
    assert_eq!(printed(SCRIPT.begin(&[]), &TAPE), print_tape(&TAPE));
    assert_eq!(printed(SCRIPT.begin(&[&SCRIPT.file("empty.hex", b"# none\n")]), &[]), "");
    // an unknown byte ends the tape before all of it is read
    let long = "FF".repeat(100_000);
    assert_eq!(printed(SCRIPT.begin(&[&SCRIPT.file("long.hex", long.as_bytes())]), &[]), "0 255 2 0\n");
}

#[test]
fn a_wrong_file_is_refused() {
    let of = |name: &str, text: &[u8]| ended(SCRIPT.begin(&[&SCRIPT.file(name, text)]), &[]);
    SCRIPT.refused(of("odd.hex", b"0102040C 0"), "odd number");
    SCRIPT.refused(of("wrong.hex", b"0102040C 0x"), "not a hex digit: 'x'");
    SCRIPT.refused(of("zero.hex", b"0102040C\0"), "not a hex digit");
    SCRIPT.refused(ended(SCRIPT.begin(&["no/such.hex"]), &[]), "no such file");
    SCRIPT.refused(ended(SCRIPT.begin(&[ROOT]), &[]), "a directory");
    SCRIPT.refused(ended(SCRIPT.begin(&["one", "two"]), &[]), "one file");
    SCRIPT.closed_file("closed.hex", b"06", |closed| {
        SCRIPT.refused(ended(SCRIPT.begin(&[closed]), &[]), "cannot be read");
    });
}

#[test]
fn a_closed_output_or_input_ends_with_a_status() {
    let path = SCRIPT.file("some", &TAPE.repeat(10_000));
    let shell = |line: &str| SCRIPT.shell(line, &path);
    SCRIPT.refused(shell("\"$1\" \"$2\" >/dev/full"), "output cannot be written");
    SCRIPT.refused(shell("\"$1\" \"$2\" >&-"), "output is closed");
    SCRIPT.refused(shell("\"$1\" <&-"), "input is closed");
    SCRIPT.refused(shell("\"$1\" <\"$3\""), "input cannot be read");
    SCRIPT.refused(shell("set -o pipefail; \"$1\" \"$2\" | true"), "output cannot be written");
}
