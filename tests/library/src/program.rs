// program.rs: the programs, and the scripts over them, run on an input; and what the tests of the scripts share.

use std::fs::{remove_file, File};
use std::io::Write;
use std::process::{Child, Command, Output, Stdio};

pub const ROOT: &str = concat!(env!("CARGO_MANIFEST_DIR"), "/../..");

/// A program by its name, not begun yet.
pub fn program(name: &str) -> Command {
    Command::new(format!("{ROOT}/crates/{name}/out/{name}"))
}

/// The program, begun; standard input, output and error are those of the child.
pub fn begin(name: &str) -> Child {
    begun(&mut program(name))
}

fn begun(command: &mut Command) -> Child {
    let command = command.stdin(Stdio::piped()).stdout(Stdio::piped()).stderr(Stdio::piped());
    command.spawn().expect("the program is built")
}

/// All that it prints on an input. One that tells enough early is not read to its end.
pub fn ended(mut child: Child, bytes: &[u8]) -> Output {
    let mut input = child.stdin.take().expect("standard input");
    std::thread::scope(|scope| {
        scope.spawn(move || input.write_all(bytes));
        child.wait_with_output().expect("it ends")
    })
}

/// What is printed on an input by a program that does not fail.
pub fn printed(child: Child, bytes: &[u8]) -> String {
    let out = ended(child, bytes);
    assert!(out.status.success() && out.stderr.is_empty(), "{out:?}");
    String::from_utf8(out.stdout).expect("text")
}

/// The script over a program, by its name, and a folder for the files of its tests.
pub struct Script {
    pub name: &'static str,
    pub folder: &'static str,
}

impl Script {
    fn path(&self) -> String {
        format!("{ROOT}/bin/{}", self.name)
    }

    /// The script, begun, with its arguments.
    pub fn begin(&self, arguments: &[&str]) -> Child {
        begun(Command::new(self.path()).args(arguments))
    }

    /// What comes of a line of bash, where `$1` is the script, `$2` a file and `$3` a directory.
    pub fn shell(&self, line: &str, file: &str) -> Output {
        let words = ["-c", line, "shell", &self.path(), file, ROOT];
        Command::new("bash").args(words).stdin(Stdio::null()).output().expect("bash")
    }

    /// A file for one test.
    pub fn file(&self, name: &str, bytes: &[u8]) -> String {
        let path = format!("{}/{name}", self.folder);
        std::fs::write(&path, bytes).expect("it is written");
        path
    }

    /// Shows a file for one test that cannot be read.
    pub fn closed_file(&self, name: &str, bytes: &[u8], show: impl FnOnce(&str)) {
        let closed = self.file(name, bytes);
        Command::new("chmod").args(["000", &closed]).status().expect("chmod");
        // root reads it all the same
        if File::open(&closed).is_err() {
            show(&closed);
        }
        remove_file(&closed).expect("it is removed");
    }

    /// Nothing is printed, the status is 1, and one line of the script says why, in these words.
    pub fn refused(&self, out: Output, words: &str) {
        let said = String::from_utf8(out.stderr).expect("text");
        assert!(out.stdout.is_empty() && out.status.code() == Some(1), "{said}");
        let is_its_own = said.starts_with(&format!("{}: ", self.name));
        assert!(is_its_own && said.contains(words) && said.lines().count() == 1, "{said}");
    }
}
