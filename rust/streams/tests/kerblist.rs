//! What the proved program kerblist prints, and its status, compared with what the oracle says
//! that it must: files at the ends of the lengths, a good file with each field
//! damaged in turn, and random files, good and damaged. The program is run by
//! the script `kerblist` of the repository, which builds it where it is missing.

use oracle::listing;
use std::collections::BTreeMap;
use std::io::Write;
use std::process::{Command, Stdio};
use std::sync::Once;
use streams::files::{damage, edge_files, every_field, valid_file};
use streams::Dice;

const SCRIPT: &str = concat!(env!("CARGO_MANIFEST_DIR"), "/../../kerblist");
const ROOT: &str = concat!(env!("CARGO_MANIFEST_DIR"), "/../..");

/// The program is built before it is run, so that no run says that it builds.
fn build() {
    static ONCE: Once = Once::new();
    ONCE.call_once(|| {
        let mut build = Command::new("tools/build");
        let status = build.arg("kerblist").current_dir(ROOT).status();
        assert!(status.expect("tools/build starts").success());
    });
}

fn kerblist(file: &[u8]) -> (String, Option<i32>) {
    build();
    let mut program = Command::new(SCRIPT)
        .stdin(Stdio::piped())
        .stdout(Stdio::piped())
        .stderr(Stdio::piped())
        .spawn()
        .expect("the script kerblist starts");
    // The program stops reading where a file is too long: then the rest of the
    // bytes find no reader, and that is no fault.
    let _ = program.stdin.take().expect("its input").write_all(file);
    let output = program.wait_with_output().expect("its output");
    let text = String::from_utf8(output.stdout).expect("text");
    (text, output.status.code())
}

/// The first word and, of a refusal, the number: which kind of listing it is.
fn kind(text: &str) -> String {
    match text.strip_prefix("refused ") {
        Some(rest) => format!("refused {}", rest.split(' ').next().unwrap_or("")),
        None => "listed".to_string(),
    }
}

/// How many digits the open slide has, which ends the first line.
fn digits(text: &str) -> usize {
    let slide = text.lines().next().and_then(|line| line.rsplit(' ').next());
    slide.map_or(0, str::len)
}

#[test]
fn kerblist_prints_what_the_oracle_prints() {
    let mut files = edge_files();
    files.extend(every_field(3).into_iter().map(|(_, file)| file).step_by(7));
    let mut dice = Dice::new(4);
    for at in 0..60 {
        let mut file = valid_file(&mut dice);
        if at % 2 == 1 && file.len() >= 24 {
            damage(&mut dice, &mut file);
        }
        files.push(file);
    }
    let mut seen = BTreeMap::new();
    let mut most_digits = 0;
    for file in &files {
        let (text, status) = kerblist(file);
        assert_eq!(text, listing(file), "a file of {} bytes", file.len());
        let wanted = if kind(&text) == "listed" { 0 } else { 2 };
        assert_eq!(status, Some(wanted), "{}", text);
        if wanted == 0 {
            most_digits = most_digits.max(digits(&text));
        }
        *seen.entry(kind(&text)).or_insert(0) += 1;
    }
    println!("{} files: {:?}", files.len(), seen);
    for wanted in [
        "listed",
        "refused 2",
        "refused 9",
        "refused 10",
        "refused 11",
        "refused 12",
        "refused 3",
        "refused 4",
    ] {
        assert!(seen.contains_key(wanted), "no file was {}", wanted);
    }
    // A slide that no single turn of the counter has.
    assert!(most_digits > 10, "{} digits at most", most_digits);
}

/// A line of a shell, in the repository's folder: its status, standard output and standard error.
fn shell(line: &str) -> (Option<i32>, String, String) {
    build();
    let mut shell = Command::new("bash");
    shell.args(["-c", line]).current_dir(ROOT);
    let output = shell.output().expect("bash starts");
    let text = |bytes| String::from_utf8(bytes).expect("text");
    (
        output.status.code(),
        text(output.stdout),
        text(output.stderr),
    )
}

/// What cannot be read or written, and wrong use: status 3, nothing listed, and a message.
#[test]
fn kerblist_complains() {
    for (line, message) in [
        (
            "./kerblist samples/no_such.kerb",
            "kerblist: samples/no_such.kerb cannot be read: there is no such file\n",
        ),
        (
            "./kerblist samples",
            "kerblist: samples cannot be read: it is a directory\n",
        ),
        (
            "./kerblist <samples",
            "kerblist: standard input cannot be read\n",
        ),
        (
            "./kerblist <&-",
            "kerblist: standard input cannot be read\n",
        ),
        (
            "./kerblist --frob",
            "kerblist: there is no option --frob: kerblist [FILE]\n",
        ),
        (
            "./kerblist samples/document.kerb samples/mirrored.kerb",
            "kerblist: it lists one file: kerblist [FILE]\n",
        ),
        (
            "./kerblist samples/document.kerb >/dev/full",
            "kerblist: standard output cannot be written\n",
        ),
        (
            "./kerblist samples/document.kerb >&-",
            "kerblist: standard output cannot be written\n",
        ),
        (
            "./kerblist --help >/dev/full",
            "kerblist: standard output cannot be written\n",
        ),
        (
            "(sleep 0.2; ./kerblist samples/document.kerb; exit $?) | true; exit ${PIPESTATUS[0]}",
            "kerblist: standard output cannot be written\n",
        ),
    ] {
        let said = shell(line);
        assert_eq!(
            said,
            (Some(3), String::new(), message.to_string()),
            "{}",
            line
        );
    }
}

/// A refusal in words, a gigabyte of zeros, help, standard input by its name, and a call through a link from elsewhere.
#[test]
fn kerblist_answers() {
    let refused = "refused 9 in the file: the length is that of no link file, or of no records\n";
    let zeros = shell("head -c 1G /dev/zero | ./kerblist");
    assert_eq!(
        zeros,
        (Some(2), "refused 9 file\n".to_string(), refused.to_string())
    );

    let record = shell("./kerblist samples/tick_before_the_time.kerb");
    let words = "refused 4 at record 2: the tick is before the book's time, or 2,147,483,648 or more after it, which looks \
                 the same; or the total has run out\n";
    assert_eq!(
        record,
        (Some(2), "refused 4 2\n".to_string(), words.to_string())
    );

    let help = shell("./kerblist --help");
    assert_eq!(help.0, Some(0));
    assert!(help.1.starts_with("kerblist [FILE]: "), "{}", help.1);

    let listing = shell("cat samples/document.listing").1;
    for line in [
        "./kerblist - <samples/document.kerb",
        "./kerblist -- samples/document.kerb",
        "link=$(mktemp -d)/kerblist; ln -s \"$PWD/kerblist\" \"$link\"; sample=$PWD/samples/document.kerb; \
         cd /; \"$link\" \"$sample\"; status=$?; rm -r \"$(dirname \"$link\")\"; exit $status",
    ] {
        assert_eq!(shell(line), (Some(0), listing.clone(), String::new()), "{}", line);
    }
}
