//! Runs the command, and writes recordings for it.

#![allow(dead_code)] // each test file uses a part

use kerb::{pack, Settings, UnitCell, ENDING_BYTES};
use std::io::Write;
use std::path::{Path, PathBuf};
use std::process::{Child, Command, Output, Stdio};

/// What a run ended with, printed and complained.
#[derive(Debug)]
pub struct Ran {
    pub status: i32,
    pub out: String,
    pub err: String,
}

/// The command. Where cargo runs the tests under an emulator, cargo's own variable names it, and the command is run so too.
pub fn words() -> Vec<String> {
    let runner = std::env::var("CARGO_TARGET_X86_64_UNKNOWN_LINUX_GNU_RUNNER").unwrap_or_default();
    let mut words: Vec<String> = runner.split_whitespace().map(String::from).collect();
    words.push(env!("CARGO_BIN_EXE_kerb").to_string());
    words
}

pub fn command(args: &[&str]) -> Command {
    let words = words();
    let mut command = Command::new(&words[0]);
    command.args(&words[1..]).args(args).current_dir(root());
    command
}

/// The repository's folder, in which every run starts.
pub fn root() -> PathBuf {
    Path::new(env!("CARGO_MANIFEST_DIR")).join("../..")
}

pub fn ran(output: Output) -> Ran {
    Ran {
        status: output.status.code().expect("it ends by itself"),
        out: String::from_utf8(output.stdout).expect("text"),
        err: String::from_utf8(output.stderr).expect("text"),
    }
}

/// The status, nothing on standard output, and a message with these words.
pub fn complains(ran: &Ran, status: i32, words: &str) {
    assert_eq!(ran.status, status, "{ran:?}");
    assert_eq!(ran.out, "", "{ran:?}");
    assert!(ran.err.contains(words), "{words}: {ran:?}");
}

/// Runs it with nothing on standard input.
pub fn kerb(args: &[&str]) -> Ran {
    let mut command = command(args);
    ran(command.stdin(Stdio::null()).output().expect("it starts"))
}

/// Starts it with pipes all round.
pub fn started(args: &[&str]) -> Child {
    let mut command = command(args);
    command.stdin(Stdio::piped());
    command.stdout(Stdio::piped()).stderr(Stdio::piped());
    command.spawn().expect("it starts")
}

/// Runs it with these bytes on standard input.
pub fn kerb_fed(args: &[&str], bytes: &[u8]) -> Ran {
    ran(output_fed(args, bytes))
}

/// The same, where what it prints is not text.
pub fn output_fed(args: &[&str], bytes: &[u8]) -> Output {
    let mut child = started(args);
    // it stops reading where a file is too long, and the rest then finds no reader
    let _ = child.stdin.take().expect("its input").write_all(bytes);
    child.wait_with_output().expect("its output")
}

/// Runs it from a shell, for what only a shell can do: what comes before, and redirections.
pub fn through_a_shell(before: &str, redirection: &str, args: &[&str]) -> Ran {
    let mut shell = Command::new("sh");
    shell
        .arg("-c")
        .arg(format!("{before} exec \"$@\" {redirection}"))
        .arg("sh");
    shell.args(words()).args(args).current_dir(root());
    ran(shell.output().expect("it starts"))
}

pub fn recording(settings: Settings, links: &[(u32, u16, u16)]) -> Vec<u8> {
    let record = |&(tick, one, other): &(u32, u16, u16)| pack(tick, UnitCell(one), UnitCell(other));
    let records: Vec<u8> = links.iter().flat_map(record).collect();
    let mut file = vec![0; records.len() + ENDING_BYTES];
    kerb::write(settings, &records, &mut file).expect("good settings");
    file
}

pub fn sample(name: &str) -> Vec<u8> {
    std::fs::read(root().join("samples").join(name)).expect("the sample")
}

/// `to-file`, with settings that are in order.
pub const TO_FILE: &[&str] = &["to-file", "--n=3", "--b=10", "--mounting=1", "--t0=0"];

/// `TO_FILE` and these words after it.
pub fn to_file<'a>(more: &[&'a str]) -> Vec<&'a str> {
    [TO_FILE, more].concat()
}

/// A path as a word of a command line.
pub fn word(path: &Path) -> &str {
    path.to_str().expect("text")
}
