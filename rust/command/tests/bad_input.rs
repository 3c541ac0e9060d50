//! Bad input of every kind ends with a clear message and the right status, and an answer that cannot be written is no answer.

mod common;

use common::{command, complains, kerb, kerb_fed, ran, recording, started, through_a_shell};
use kerb::{Mounting, Settings};
use std::fs::File;
use std::io::Write;

const LIFT: &str = "samples/tail_lift_and_walker.kerb";

#[test]
fn wrong_use_is_status_3() {
    for (args, words) in [
        (&[][..], "which command?"),
        (&["frob"], "there is no command frob"),
        (&["help", "frob"], "there is no command frob"),
        (&["help", "why", "list"], "help is about one command"),
        (&["list", LIFT, LIFT], "list takes one file"),
        (&["why", LIFT, LIFT, "1", "2"], "why takes one file"),
        (&["list", LIFT, "--frob"], "there is no option --frob"),
        (
            &["list", LIFT, "--json=yes"],
            "there is no option --json=yes",
        ),
        (&["list", LIFT, "--at", "5"], "list takes no --at"),
        (&["list", LIFT, "--total", "5"], "list takes no --total"),
        (&["cell", "5", "--total=5"], "cell takes no --total"),
        (
            &["groups", LIFT, "--mounting", "1"],
            "groups takes no --mounting",
        ),
        (&["cell", "5", "--n", "3"], "cell takes no --n"),
        (&["to-text", LIFT, "--b", "10"], "to-text takes no --b"),
        (&["list", LIFT, "--t0", "0"], "list takes no --t0"),
        (&["list", LIFT, "-o", "x"], "list takes no -o"),
        (&["help", "--json"], "help takes no --json"),
        (&["groups", LIFT, "--at"], "--at wants a value"),
        (
            &["groups", LIFT, "--at", "5", "--at=6"],
            "--at stands twice",
        ),
        (&["groups", LIFT, "--total"], "--total wants a value"),
        (
            &["groups", LIFT, "--total", "5", "--total=5"],
            "--total stands twice",
        ),
        (
            &["why", LIFT, "1", "2", "--total", "5", "--at", "5"],
            "--at and --total name a moment each: one of them is enough",
        ),
        (&["why", LIFT], "why wants two cells"),
        (&["cell"], "cell wants one number"),
        (&["cell", "1", "2"], "cell wants one number"),
        (&["mirror-table", "5"], "kerb cell N tells of one"),
        (
            &["mirror-table", "--mounting", "1"],
            "mirror-table takes no --mounting",
        ),
    ] {
        complains(&kerb(args), 3, words);
    }
}

#[test]
fn words_for_numbers_are_status_3() {
    for word in ["five", "", "5x", "0x10", "+5", "5.0", "5 ", "1,023"] {
        complains(
            &kerb(&["why", LIFT, word, "6"]),
            3,
            "is not a number: a cell is wanted here",
        );
        complains(
            &kerb(&["why", LIFT, "6", word]),
            3,
            "is not a number: a cell is wanted here",
        );
        complains(
            &kerb(&["cell", word]),
            3,
            "is not a number: a cell is wanted here",
        );
        complains(
            &kerb(&["groups", LIFT, "--at", word]),
            3,
            "is not a number: a tick is wanted here",
        );
        complains(
            &kerb(&["groups", LIFT, "--total", word]),
            3,
            "is not a number: a total is wanted here",
        );
        complains(
            &kerb(&["cell", "5", "--mounting", word]),
            3,
            "is not a number: a mounting is wanted here",
        );
    }
    complains(&kerb(&["cell", "-5"]), 3, "there is no option -5");
    complains(&kerb(&["cell", "--", "-5"]), 3, "-5 is not a number");
}

#[test]
fn numbers_out_of_range_are_refused() {
    for cell in ["1024", "65535", "65536", "70000", "99999999999999999999999"] {
        let words = "refused 3 on the command line: a cell is 1024 or more";
        complains(&kerb(&["why", LIFT, cell, "6"]), 2, words);
        complains(&kerb(&["why", LIFT, "6", cell]), 2, words);
        complains(&kerb(&["cell", cell]), 2, words);
    }
    for mounting in ["0", "3", "256", "258", "99999999999999999999999"] {
        let words = "refused 2 on the command line: n, B or the mounting is outside its values";
        complains(&kerb(&["cell", "5", "--mounting", mounting]), 2, words);
    }
    for tick in ["4294967296", "99999999999999999999999"] {
        complains(
            &kerb(&["groups", LIFT, "--at", tick]),
            3,
            "ticks go from 0 to 4294967295",
        );
    }
    for total in ["9223372036854775808", "99999999999999999999999"] {
        complains(
            &kerb(&["groups", LIFT, "--total", total]),
            3,
            "is no total: totals go from 0 to 9223372036854775807",
        );
    }
    // a total that would take more clock calls than anybody waits for
    for total in ["214748364700001", "9223372036854775807"] {
        let words = format!(
            "{total} is too far ahead: a clock call reaches 2147483647 ticks, and kerb makes 100000 of them at most, \
             up to the total 214748364700000\n"
        );
        complains(&kerb(&["groups", LIFT, "--total", total]), 3, &words);
    }
    let furthest = kerb(&["groups", LIFT, "--total", "214748364700000"]);
    let start =
        "0 groups at tick 4294867296, total 214748364700000, in slide 2147483647000; 0 links ";
    assert!(furthest.out.starts_with(start), "{furthest:?}");
    // a tick before the first one, and one that is further ahead of the last record, at 1130, than a call reaches
    for tick in ["999", "2147484778"] {
        let args = ["groups", "samples/mirrored.kerb", "--at", tick];
        let words = format!(
            "refused 4 at tick {tick}: the tick is before the book's time, or 2,147,483,648 or more after it, \
             which looks the same; or the total has run out\n"
        );
        complains(&kerb(&args), 2, &words);
        let ran = kerb(&[&args[..], &["--json"]].concat());
        assert_eq!(ran.status, 2);
        let start = format!("{{\"refused\":4,\"tick\":{tick},\"meaning\":\"the tick is before ");
        assert!(ran.out.starts_with(&start), "{}", ran.out);
    }
    let reached = kerb(&["groups", "samples/mirrored.kerb", "--at", "2147484777"]);
    assert_eq!(reached.status, 0, "{}", reached.err);
}

#[test]
fn what_cannot_be_read_is_status_3() {
    for command in ["list", "groups", "to-text"] {
        complains(
            &kerb(&[command, "no/such.kerb"]),
            3,
            "no/such.kerb cannot be read: No such file",
        );
        complains(
            &kerb(&[command, "samples"]),
            3,
            "samples cannot be read: Is a directory",
        );
        complains(
            &kerb(&[command, "samples/README.md/x"]),
            3,
            "cannot be read: Not a directory",
        );
        complains(&kerb(&[command, ""]), 3, " cannot be read: No such file");
    }
    complains(
        &kerb(&["why", "no/such.kerb", "1", "2"]),
        3,
        "no/such.kerb cannot be read",
    );

    let folder = File::open(common::root()).expect("a folder");
    let output = command(&["list"])
        .stdin(folder)
        .output()
        .expect("it starts");
    complains(
        &ran(output),
        3,
        "standard input cannot be read: Is a directory",
    );
    complains(
        &through_a_shell("", "<&-", &["list"]),
        3,
        "standard input cannot be read: it is closed",
    );
}

/// Every refusal of the file or of a record, with its number and its meaning; of `list` the line of kerblist too.
#[test]
fn refused_files_are_status_2_with_the_number_in_words() {
    let settings = Settings {
        t0: 10,
        b: 10,
        n: 3,
        mounting: Mounting::Plain,
    };
    let good = recording(settings, &[(10, 1, 2), (20, 2, 3)]);
    let changed = |place: usize, byte: u8| {
        let mut file = good.clone();
        file[place] = byte;
        file
    };
    let full: Vec<(u32, u16, u16)> = (0..257).map(|_| (10, 1, 2)).collect();
    let short = &good[..good.len() - 1];
    for (file, line, words) in [
        (
            short.to_vec(),
            "refused 9 file",
            "refused 9 in the file: the length is that of no link file",
        ),
        (Vec::new(), "refused 9 file", "refused 9 in the file: "),
        (
            b"not a link file, but text of 64 bytes, which is a good length...".to_vec(),
            "refused 10 file",
            "refused 10 in the file: the last four bytes of the file are not KERB",
        ),
        (
            changed(28, 7),
            "refused 11 file",
            "refused 11 in the file: the file's offset and count do not agree with its length",
        ),
        (
            changed(26, 1),
            "refused 12 file",
            "refused 12 in the file: a pad byte of the file is not zero",
        ),
        (
            changed(24, 17),
            "refused 2 file",
            "refused 2 in the file: n, B or the mounting is outside its values",
        ),
        (
            changed(13, 4),
            "refused 3 1",
            "refused 3 at record 1: a cell is 1024 or more",
        ),
        (
            changed(8, 9),
            "refused 4 1",
            "refused 4 at record 1: the tick is before the book's time, or 2,147,483,648 or more after it",
        ),
        (
            recording(settings, &full),
            "refused 5 256",
            "refused 5 at record 256: the link's slide already holds 256 links",
        ),
        (
            recording(settings, &[(10, 63, 64), (3, 63, 128)]),
            "refused 14 1",
            "refused 14 at record 1: the link's two cells do not touch: \
             the unit's 63 (ring 0, sector 63) and 128 (ring 2, sector 0)\n",
        ),
        (
            recording(settings, &[(5, 1023, 1023)]),
            "refused 14 0",
            "refused 14 at record 0: the link's two cells do not touch: \
             the unit's 1023 (ring 15, sector 63) and 1023 (ring 15, sector 63)\n",
        ),
    ] {
        let ran = kerb_fed(&["list"], &file);
        assert_eq!((ran.status, ran.out), (2, format!("{line}\n")));
        assert!(ran.err.starts_with(words), "{words}: {}", ran.err);
        complains(&kerb_fed(&["groups"], &file), 2, words);
        complains(&kerb_fed(&["why", "1", "2"], &file), 2, words);
        complains(&kerb_fed(&["lamps", "--body", "none"], &file), 2, words);
        if line.ends_with("file") {
            complains(&kerb_fed(&["to-text"], &file), 2, words);
        }

        let ran = kerb_fed(&["groups", "--json"], &file);
        let number = line.split(' ').nth(1).expect("the number");
        assert_eq!(ran.status, 2);
        assert!(
            ran.out.starts_with(&format!("{{\"refused\":{number},")),
            "{}",
            ran.out
        );
    }
}

/// A gigabyte of zeros is refused as too long, once as many bytes are read as tell it.
#[test]
fn a_gigabyte_of_zeros_is_refused() {
    let mut child = started(&["list"]);
    let mut input = child.stdin.take().expect("its input");
    let megabyte = vec![0; 1 << 20];
    let written = (0..1024)
        .take_while(|_| input.write_all(&megabyte).is_ok())
        .count();
    drop(input);
    let ran = ran(child.wait_with_output().expect("its output"));
    assert!(written < 1024, "it read the whole gigabyte");
    assert_eq!((ran.status, ran.out.as_str()), (2, "refused 9 file\n"));
    assert!(
        ran.err.contains("the length is that of no link file"),
        "{}",
        ran.err
    );
}

/// A full device, a closed standard output, and a reader that has gone.
#[test]
fn what_cannot_be_written_is_status_3() {
    let why = ["why", LIFT, "94", "227"];
    for args in [
        &["list", LIFT][..],
        &why,
        &["groups", LIFT],
        &["lamps", LIFT, "--body", "94-96"],
        &["cell", "5"],
        &["mirror-table"],
        &["to-text", LIFT],
        &["help"],
        &["--version"],
    ] {
        let full = File::options()
            .write(true)
            .open("/dev/full")
            .expect("/dev/full");
        let output = command(args).stdout(full).output().expect("it starts");
        complains(
            &ran(output),
            3,
            "standard output cannot be written: No space left on device",
        );
        complains(
            &through_a_shell("", ">&-", args),
            3,
            "standard output cannot be written: it is closed",
        );
    }

    let mut child = started(&["list"]);
    drop(child.stdout.take());
    let file = std::fs::read(common::root().join(LIFT)).expect("the sample");
    child
        .stdin
        .take()
        .expect("its input")
        .write_all(&file)
        .expect("it reads");
    let ran = ran(child.wait_with_output().expect("its messages"));
    complains(&ran, 3, "standard output cannot be written: Broken pipe");
}

/// Where standard error cannot be written either, the status is left.
#[test]
fn the_status_stands_without_standard_error() {
    for (args, status) in [(&["frob"][..], 3), (&["list", "samples/cut_short.kerb"], 2)] {
        let full = File::options()
            .write(true)
            .open("/dev/full")
            .expect("/dev/full");
        let output = command(args).stderr(full).output().expect("it starts");
        assert_eq!(output.status.code(), Some(status));
        assert_eq!(through_a_shell("", "2>&-", args).status, status);
    }
}
