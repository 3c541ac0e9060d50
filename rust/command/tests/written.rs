//! The file of `-o` is written whole or not at all, and nothing is left beside it; no link file goes to a terminal.

mod common;

use common::{command, complains, kerb, ran, sample, through_a_shell, to_file, word, Ran};
use std::fs::{self, File, Permissions};
use std::io::Read;
use std::os::unix::fs::{symlink, FileTypeExt, PermissionsExt};
use std::path::{Path, PathBuf};
use std::process::{Command, Stdio};

const LIST: &str = "samples/document.txt";
const FILE: &str = "samples/document.kerb";

/// A new folder for a test.
fn folder(name: &str) -> PathBuf {
    let folder = Path::new(env!("CARGO_TARGET_TMPDIR")).join(name);
    let _ = fs::remove_dir_all(&folder);
    fs::create_dir_all(&folder).expect("a folder");
    folder
}

/// The names in a folder, hidden ones too.
fn names(folder: &Path) -> Vec<String> {
    let all = fs::read_dir(folder).expect("the folder");
    let names = all.map(|entry| entry.expect("a name").file_name());
    let mut names: Vec<String> = names
        .map(|name| name.into_string().expect("text"))
        .collect();
    names.sort();
    names
}

fn read(path: &Path) -> Vec<u8> {
    fs::read(path).expect("the file")
}

/// Runs it with a device for its standard output.
fn onto(device: &str, args: &[&str]) -> Ran {
    let device = File::options().read(true).write(true).open(device);
    let mut command = command(args);
    command.stdout(device.expect("the device"));
    ran(command.output().expect("it starts"))
}

#[test]
fn the_file_is_written_and_nothing_else() {
    let folder = folder("written");
    let (file, list) = (folder.join("document.kerb"), folder.join("document.txt"));
    for _ in 0..2 {
        // the second time over the first
        let ran = kerb(&to_file(&[LIST, "-o", word(&file)]));
        assert_eq!((ran.status, ran.out + &ran.err), (0, String::new()));
        assert_eq!(read(&file), sample("document.kerb"));
        let ran = kerb(&["to-text", word(&file), "-o", word(&list)]);
        assert_eq!((ran.status, ran.out), (0, String::new()));
        assert_eq!(ran.err, "settings: --n 3 --b 10 --mounting 1 --t0 0\n");
        assert_eq!(read(&list), sample("document.txt"));
        assert_eq!(names(&folder), ["document.kerb", "document.txt"]);
    }
    // a file may become itself: it is read whole before
    assert_eq!(kerb(&["to-text", word(&file), "-o", word(&file)]).status, 0);
    assert_eq!(read(&file), sample("document.txt"));
    // by its name alone, from its own folder
    let mut there = command(&to_file(&["-o", "empty.kerb"]));
    there.current_dir(&folder).stdin(Stdio::null());
    assert_eq!(ran(there.output().expect("it starts")).status, 0);
    assert_eq!(read(&folder.join("empty.kerb")).len(), 24);
    assert_eq!(
        names(&folder),
        ["document.kerb", "document.txt", "empty.kerb"]
    );
}

#[test]
fn on_a_refusal_the_file_stays_as_it_was() {
    let folder = folder("refused");
    let path = folder.join("list");
    let to_file = to_file(&["samples/bad_line.txt", "-o", word(&path)]);
    let to_text = ["to-text", "samples/cut_short.kerb", "-o", word(&path)];
    let refused = || {
        complains(&kerb(&to_file), 2, "refused 13 at line 4");
        complains(&kerb(&to_text), 2, "refused 9 in the file");
    };
    refused();
    assert!(names(&folder).is_empty());
    fs::write(&path, "as it was").expect("a file");
    refused();
    assert_eq!(read(&path), b"as it was");
    assert_eq!(names(&folder), ["list"]);
}

#[test]
fn a_file_that_cannot_be_written_leaves_nothing() {
    let folder = folder("unwritten");
    let at = |name: &str| format!("{}/{name}", folder.display());
    for (path, why) in [
        (at("none/list.kerb"), "No such file"),
        (at("new/"), "Not a directory"),
        (at("."), "Is a directory"),
        ("samples/README.md/list.kerb".to_string(), "Not a directory"),
        (String::new(), "No such file"),
    ] {
        let words = format!("kerb: {path} cannot be written: {why}");
        complains(&kerb(&to_file(&[LIST, "-o", &path])), 3, &words);
        complains(&kerb(&["to-text", FILE, "-o", &path]), 3, &words);
    }
    assert!(names(&folder).is_empty());

    // a file may have one block here, and the longest link file has more: the writing fails on its way
    let long = folder.join("long.txt");
    fs::write(&long, "65535 65535 4294967295\n".repeat(8_000)).expect("a text");
    fs::write(folder.join("old.kerb"), "as it was").expect("a file");
    for name in ["old.kerb", "new.kerb"] {
        let path = at(name);
        let args = to_file(&[word(&long), "-o", &path]);
        let ran = through_a_shell("trap '' XFSZ; ulimit -f 1;", "", &args);
        let words = format!("kerb: {path} cannot be written: File too large");
        complains(&ran, 3, &words);
    }
    assert_eq!(read(&folder.join("old.kerb")), b"as it was");
    assert_eq!(names(&folder), ["long.txt", "old.kerb"]);
}

/// A symbolic link, who may read a file, a pipe, and a file that has the name of the one beside.
#[test]
fn what_is_there_stays_what_it_is() {
    let folder = folder("kinds");
    let (file, link) = (folder.join("list.kerb"), folder.join("link.kerb"));
    fs::write(&file, "old").expect("a file");
    fs::set_permissions(&file, Permissions::from_mode(0o640)).expect("its owner");
    symlink("list.kerb", &link).expect("a link");
    assert_eq!(kerb(&to_file(&[LIST, "-o", word(&link)])).status, 0);
    assert!(link.is_symlink());
    assert_eq!(read(&file), sample("document.kerb"));
    let mode = fs::metadata(&file).expect("the file").permissions().mode();
    assert_eq!(mode & 0o777, 0o640);

    let pipe = folder.join("pipe");
    let made = Command::new("mkfifo").arg(&pipe).status();
    assert!(made.expect("mkfifo").success());
    let mut end = File::options()
        .read(true)
        .write(true)
        .open(&pipe)
        .expect("its end");
    assert_eq!(kerb(&to_file(&[LIST, "-o", word(&pipe)])).status, 0);
    assert!(fs::metadata(&pipe).expect("the pipe").file_type().is_fifo());
    let mut bytes = [0; 64];
    end.read_exact(&mut bytes).expect("what was written");
    assert_eq!(bytes[..], sample("document.kerb"));

    let before = format!("echo other >'{}'/.kerb-$$-0;", folder.display());
    let ran = through_a_shell(&before, "", &to_file(&[LIST, "-o", word(&file)]));
    assert_eq!(ran.status, 0, "{ran:?}");
    let [other, rest @ ..] = &names(&folder)[..] else {
        panic!("the folder is empty")
    };
    assert_eq!(read(&folder.join(other)), b"other\n");
    assert_eq!(rest, ["link.kerb", "list.kerb", "pipe"]);
    // `rt ci` refuses a checkout with a link in it, and so the gate's next run
    fs::remove_dir_all(&folder).expect("the folder goes");
}

#[test]
fn standard_output_that_cannot_be_written_is_status_3() {
    let args = to_file(&[LIST]);
    let words = "standard output cannot be written: No space left on device";
    complains(&onto("/dev/full", &args), 3, words);
    let words = "standard output cannot be written: it is closed";
    complains(&through_a_shell("", ">&-", &args), 3, words);
    // the settings are told only of a text that was written
    let ran = onto("/dev/full", &["to-text", FILE]);
    assert!(!ran.err.contains("settings"), "{ran:?}");
}

/// A link file is nothing to look at; a text is.
#[test]
fn no_link_file_goes_to_a_terminal() {
    let terminal = "/dev/ptmx";
    let words = "a link file is nothing for a terminal: -o FILE names the file to write";
    complains(&onto(terminal, &to_file(&[LIST])), 3, words);
    complains(&onto(terminal, &to_file(&[LIST, "-o", "-"])), 3, words);
    let path = folder("terminal").join("list.kerb");
    let ran = onto(terminal, &to_file(&[LIST, "-o", word(&path)]));
    assert_eq!(ran.status, 0, "{ran:?}");
    assert_eq!(onto(terminal, &["to-text", FILE]).status, 0);
}
