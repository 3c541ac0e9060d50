//! Text lists into link files and back: the samples, drawn ones, the settings beside a text, and every fault of a line in words.

mod common;

use common::{
    complains, kerb, kerb_fed, output_fed, root, sample, through_a_shell, to_file, word, TO_FILE,
};
use std::fs;
use std::path::PathBuf;
use streams::files::{edge_files, valid_file};
use streams::Dice;

const SETTINGS: &str = "refused 2 on the command line: n, B or the mounting is outside its values";

/// `TO_FILE` with another value for this option, or without it.
fn to_file_but<'a>(option: &str, other: Option<&'a str>) -> Vec<&'a str> {
    let is_it = |word: &str| word.split('=').next() == Some(option);
    let words = TO_FILE
        .iter()
        .map(|&word| if is_it(word) { other } else { Some(word) });
    words.flatten().collect()
}

/// The link file that `to-file` makes of a text, and `line`, which has the settings as `to-text` prints them.
fn file_of(text: &[u8], line: &str) -> Vec<u8> {
    let settings = line.trim_end().strip_prefix("settings: ");
    let words: Vec<&str> = settings.expect("settings").split(' ').collect();
    let output = output_fed(&[&["to-file"], &words[..]].concat(), text);
    assert_eq!((output.status.code(), output.stderr), (Some(0), Vec::new()));
    output.stdout
}

fn samples(extension: &str) -> Vec<PathBuf> {
    let all = fs::read_dir(root().join("samples")).expect("samples");
    let paths = all.map(|entry| entry.expect("a sample").path());
    paths
        .filter(|path| path.extension().is_some_and(|of| of == extension))
        .collect()
}

#[test]
fn each_sample_text_is_that_of_its_file() {
    let mut pairs = 0;
    for path in samples("txt") {
        let list = fs::read(&path).expect("the text");
        let file = path.with_extension("kerb");
        if !file.exists() {
            let words = "refused 13 at line 4 (counted from 0): the line has ','";
            complains(&kerb(&to_file(&[word(&path)])), 2, words);
            continue;
        }
        let put_out = kerb(&["to-text", word(&file)]);
        assert_eq!((put_out.status, put_out.out.as_bytes()), (0, &list[..]));
        let bytes = fs::read(&file).expect("the file");
        assert_eq!(file_of(&list, &put_out.err), bytes, "{}", path.display());
        pairs += 1;
    }
    assert_eq!(pairs, 3);
}

/// Every sample, and drawn files: the same bytes again, with the settings as they were printed.
#[test]
fn file_to_text_to_file_is_the_same_file() {
    let mut files: Vec<Vec<u8>> = samples("kerb")
        .iter()
        .map(|path| fs::read(path).expect("the sample"))
        .collect();
    files.extend(edge_files());
    let mut dice = Dice::new(6);
    files.extend((0..20).map(|_| valid_file(&mut dice)));
    let mut refused = 0;
    for file in files {
        let put_out = kerb_fed(&["to-text"], &file);
        match kerb::read(&file) {
            Ok((_, m)) => {
                assert_eq!(put_out.status, 0);
                assert_eq!(put_out.out.lines().count(), m as usize);
                assert_eq!(file_of(put_out.out.as_bytes(), &put_out.err), file);
            }
            Err(refusal) => {
                let number = refusal.number();
                let words = format!("refused {number} in the file: {}\n", refusal.meaning());
                complains(&put_out, 2, &words);
                refused += 1;
            }
        }
    }
    assert!(refused > 0);
}

/// The ends of the ranges, no line at all, and drawn lines up to the most that there may be.
#[test]
fn text_to_file_to_text_is_the_same_text() {
    let mut dice = Dice::new(7);
    let mut drawn = |lines: u64| -> String {
        let mut below = |bits: u64| {
            let limit = 1 << dice.between(0, bits);
            dice.below(limit)
        };
        (0..lines)
            .map(|_| format!("{} {} {}\n", below(16), below(16), below(32)))
            .collect()
    };
    let mut texts = vec![
        String::new(),
        "0 0 0\n".to_string(),
        "65535 65535 4294967295\n".repeat(8_000),
    ];
    texts.extend([1, 2, 100, 7_999, 8_000].map(&mut drawn));
    for text in texts {
        let output = output_fed(TO_FILE, text.as_bytes());
        assert_eq!(output.status.code(), Some(0));
        assert_eq!(output.stdout.len(), 8 * text.lines().count() + 24);
        let put_out = kerb_fed(&["to-text"], &output.stdout);
        assert!(put_out.out == text);
        assert_eq!(put_out.err, "settings: --n 3 --b 10 --mounting 1 --t0 0\n");
    }
}

#[test]
fn settings_go_in_as_they_come_out() {
    for (given, printed) in [
        (
            ["16", "4294967295", "mirrored", "4294967295"],
            ["16", "4294967295", "2", "4294967295"],
        ),
        (["1", "1", "plain", "0"], ["1", "1", "1", "0"]),
    ] {
        let line = |[n, b, mounting, t0]: [&str; 4]| {
            format!("settings: --n {n} --b {b} --mounting {mounting} --t0 {t0}\n")
        };
        let file = file_of(b"1 2 3\n", &line(given));
        assert_eq!(kerb_fed(&["to-text"], &file).err, line(printed));
    }
}

/// A text has no settings, and none has a default.
#[test]
fn a_setting_that_is_missing_is_status_3() {
    for missing in ["--n", "--b", "--mounting", "--t0"] {
        let words = format!("to-file wants all four settings; missing: {missing}\n");
        complains(&kerb(&to_file_but(missing, None)), 3, &words);
    }
    complains(
        &kerb(&["to-file", "--b", "10", "--mounting", "1"]),
        3,
        "missing: --n, --t0\n",
    );
    complains(
        &kerb(&["to-file"]),
        3,
        "missing: --n, --b, --mounting, --t0\n",
    );
}

/// What is a number is put to the library, and it refuses; a tick beyond all ticks is wrong use, as with `--at`.
#[test]
fn settings_outside_their_values_are_refused() {
    let with = |option: &str, value: &str, text: &[u8]| {
        let word = format!("{option}={value}");
        kerb_fed(&to_file_but(option, Some(&word)), text)
    };
    let huge = "99999999999999999999999";
    for (option, values) in [
        ("--n", &["0", "17", "255", "256", "257", huge][..]),
        ("--b", &["0", "4294967296", "4294967306", huge]),
        ("--mounting", &["0", "3", "256", "257", huge]),
    ] {
        for value in values {
            complains(&with(option, value, b"1 2 3\n"), 2, SETTINGS);
            let bad_line = with(option, value, b"1 2 3\n1 2\n");
            complains(&bad_line, 2, "refused 13 at line 1 ");
        }
    }
    for (option, what) in [
        ("--n", "n"),
        ("--b", "B"),
        ("--mounting", "a mounting"),
        ("--t0", "a tick"),
    ] {
        let words = format!("is not a number: {what} is wanted here");
        for value in ["five", "", "-1", "+1", "1.0", "1,000", " 1"] {
            complains(&with(option, value, b"1 2 3\n"), 3, &words);
        }
    }
    for value in ["4294967296", huge] {
        let words = "ticks go from 0 to 4294967295";
        complains(&with("--t0", value, b"1 2 3\n"), 3, words);
    }
}

#[test]
fn wrong_use_is_status_3() {
    for (more, words) in [
        (&["--json"][..], "to-file takes no --json"),
        (&["--at", "5"], "to-file takes no --at"),
        (&["--total", "5"], "to-file takes no --total"),
        (&["--n", "3"], "--n stands twice"),
        (&["-o"], "-o wants a value"),
        (&["-o", "x", "-o", "y"], "-o stands twice"),
        (&["-o=x"], "there is no option -o=x"),
        (&["--out", "x"], "there is no option --out"),
        (
            &["samples/document.txt", "samples/document.txt"],
            "to-file takes one file",
        ),
    ] {
        complains(&kerb(&to_file(more)), 3, words);
    }
    complains(&kerb(&["to-text", "--json"]), 3, "to-text takes no --json");
    complains(&kerb(&["to-text", "--n", "3"]), 3, "to-text takes no --n");
}

/// Each as the second of three lines: the number, the line's, and the words.
#[test]
fn each_fault_of_a_line_is_told_in_words() {
    let stray = "digits, and a blank between two numbers, are all it may have";
    for (line, words) in [
        (&b"1 2 3\r\n"[..], "the line ends with a carriage return, as Windows has it: save the text with line feeds alone"),
        (b"\n", "the line is empty"),
        (b"\r\n", "the line ends with a carriage return"),
        (b"1\t2\t3\n", "the line has a tab: between two numbers stands one blank"),
        (b"1 2 3\t\n", "the line has a tab"),
        (b" 1 2 3\n", "the line begins with a blank"),
        (b" \n", "the line begins with a blank"),
        (b"1 2 3 \n", "the line ends with a blank"),
        (b"1  2 3\n", "the line has two blanks together: between two numbers stands one"),
        (b"1 2   3\n", "the line has two blanks together"),
        (b"1\n", "the line has 1 number: a link is two cells and a tick"),
        (b"1 2\n", "the line has 2 numbers: a link is two cells and a tick"),
        (b"1 2 3 4\n", "the line has 4 numbers: a link is two cells and a tick"),
        (b"+1 2 3\n", "the first cell has a sign"),
        (b"1 -2 3\n", "the second cell has a sign"),
        (b"1 2 -0\n", "the tick has a sign"),
        (b"1 2 +\n", "the tick has a sign"),
        (b"00 2 3\n", "the first cell has a leading zero"),
        (b"1 02 3\n", "the second cell has a leading zero"),
        (b"1 2 0000000000003\n", "the tick has a leading zero"),
        (b"65536 2 3\n", "the first cell is too large: a cell is a number up to 65535"),
        (b"1 99999999999999999999999 3\n", "the second cell is too large: a cell is a number up to 65535"),
        (b"1 2 4294967296\n", "the tick is too large: a tick is a number up to 4294967295"),
        (b"1 2 18446744073709551616\n", "the tick is too large: a tick is a number up to 4294967295"),
        (b"1,2,3\n", &format!("the line has ',': {stray}")),
        (b"1 2 1,000\n", &format!("the line has ',': {stray}")),
        (b"1;2;3\n", "the line has ';': "),
        (b"\"1 2 3\"\n", "the line has '\"': "),
        (b"1.0 2 3\n", "the line has '.': "),
        (b"1 2 4.29E+09\n", "the line has '.': "),
        (b"1 2 3-4\n", "the line has '-': "),
        (b"one two three\n", "the line has 'o': "),
        (b"1 2 1\xC2\xA0000\n", "the line has '\\u{a0}': "),
        (b"1 2 1\xA0000\n", "the line has '\u{FFFD}': "),
        (b"1 2 3\0\n", "the line has '\\0': "),
        (b"1 2\r 3\n", "the line has '\\r': "),
        (b"\xEF\xBB\xBF1 2 3\n", "the line begins with a byte order mark: save the text without one"),
        (b"\xFF\xFE1\0 \x002\0 \x003\0\n", "the line begins with a byte order mark"),
    ] {
        let text = [b"0 0 0\n", line, b"7 8 9\n"].concat();
        let words = format!("refused 13 at line 1 (counted from 0): {words}");
        complains(&kerb_fed(TO_FILE, &text), 2, &words);
    }
    for end in [&b"4 5 6"[..], b"4 5 ", b"4", b"\x1A", b" "] {
        let text = [b"1 2 3\n", end].concat();
        let words = "refused 13 at line 1 (counted from 0): the line has no line feed after it, and the last line needs one too";
        complains(&kerb_fed(TO_FILE, &text), 2, words);
    }
    complains(
        &kerb_fed(TO_FILE, b"1 2 3\r4 5 6\r"),
        2,
        "refused 13 at line 0 (counted from 0): the line ends with a carriage return",
    );
    // the first of several
    complains(
        &kerb_fed(TO_FILE, b"1 2 3\n1 2\n1\n"),
        2,
        "refused 13 at line 1 (counted from 0): the line has 2 numbers",
    );
}

/// 13 before 2 before 9: a bad line is found past the 8,000th, however many there are.
#[test]
fn a_text_is_read_to_its_end() {
    let lines = |count: usize| "94 95 400\n".repeat(count);
    let bad_n = to_file_but("--n", Some("--n=17"));
    for count in [8_001, 300_000] {
        let good = lines(count);
        let words = format!(
            "refused 9 in the text: it has {count} lines, and a link file takes at most 8000"
        );
        complains(&kerb_fed(TO_FILE, good.as_bytes()), 2, &words);
        complains(&kerb_fed(&bad_n, good.as_bytes()), 2, SETTINGS);
        let bad = good + "94 95 1024 \n";
        let words =
            format!("refused 13 at line {count} (counted from 0): the line ends with a blank");
        complains(&kerb_fed(TO_FILE, bad.as_bytes()), 2, &words);
        complains(&kerb_fed(&bad_n, bad.as_bytes()), 2, &words);
    }
}

/// A cell that is none is for playing to refuse; the record's place is the line's number.
#[test]
fn cells_are_judged_when_the_file_is_played() {
    let output = output_fed(TO_FILE, b"1 2 3\n1023 1024 5\n");
    assert_eq!(output.status.code(), Some(0));
    let ran = kerb_fed(&["list"], &output.stdout);
    assert_eq!((ran.status, ran.out.as_str()), (2, "refused 3 1\n"));
}

#[test]
fn standard_input_is_a_dash_or_no_file() {
    let (list, file) = (sample("document.txt"), sample("document.kerb"));
    let named = "samples/document.txt";
    for more in [&[][..], &["-"], &["-o", "-"], &[named], &["--", named]] {
        assert_eq!(output_fed(&to_file(more), &list).stdout, file);
    }
    let named = "samples/document.kerb";
    for more in [&[][..], &["-"], &["-o", "-"], &[named], &["--", named]] {
        let args = [&["to-text"], more].concat();
        assert_eq!(output_fed(&args, &file).stdout, list);
    }
}

#[test]
fn what_cannot_be_read_is_status_3() {
    for (name, why) in [
        ("no/such.txt", "No such file"),
        ("samples", "Is a directory"),
    ] {
        let words = format!("{name} cannot be read: {why}");
        complains(&kerb(&to_file(&[name])), 3, &words);
    }
    let words = "standard input cannot be read: it is closed";
    complains(&through_a_shell("", "<&-", TO_FILE), 3, words);
}
