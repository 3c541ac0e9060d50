//! The lamps: the samples, what keeps a dark one dark and until when, every form of the bodywork's list, and lists that are wrong.

mod common;

use common::{complains, kerb, kerb_fed, recording, sample, word, Ran};
use kerb::{Mounting, Settings};
use std::fs;
use std::path::{Path, PathBuf};

const LIFT: &str = "samples/tail_lift_and_walker.kerb";
const LATER: &str = "samples/tail_lift_and_walker_later.kerb";
const BODY: &str = "samples/tail_lift.body";

const LEFT_LIT: &str = "The left lamp is lit, by cell 161: ring 2, sector 33.\n";
const RIGHT_BODYWORK: &str =
    "The right lamp is dark: each linked cell of its zone is bodywork or tied to it.\n  2 cells of bodywork: 94 95\n";

/// Plain, from tick 0 on, with slides of 10 ticks.
fn settings(n: u8) -> Settings {
    Settings {
        t0: 0,
        b: 10,
        n,
        mounting: Mounting::Plain,
    }
}

/// A file with this text.
fn file(name: &str, text: impl AsRef<[u8]>) -> PathBuf {
    let path = Path::new(env!("CARGO_TARGET_TMPDIR")).join(name);
    fs::write(&path, text).expect("the file");
    path
}

/// What is said on standard output, where all is well.
fn said(ran: Ran) -> String {
    assert_eq!((ran.status, ran.err.as_str()), (0, ""), "{}", ran.out);
    ran.out
}

/// One old link makes the walker bodywork: both lamps are dark, and the chain says why.
#[test]
fn a_dark_lamp_is_told_with_the_chain_that_keeps_it_dark() {
    let expected = format!(
        "The lamps at tick 450, in slide 4, with 3 cells of bodywork:\n\
         \nThe left lamp is dark: each linked cell of its zone is bodywork or tied to it.\n\
         \x20 3 cells tied to bodywork: 161 162 227\n\
         \nCell 161, the smallest of these, is tied to cell 96, which is bodywork, by this chain:\n\
         \n  cell 161: ring 2, sector 33\n\
         \x20     linked with cell 96, last at tick 20, in slide 0\n\
         \x20 cell 96: ring 1, sector 32\n\
         \nL is slide 0, ticks 0 to 99: links from it on tie the two, and links from the next slide on do not.\n\
         Hold 0: if nothing more is seen, they stay joined up to and including tick 499.\n\
         If nothing more is seen, the lamp comes on at tick 500, in slide 5, by cell 161: ring 2, sector 33.\n\
         \n{RIGHT_BODYWORK}"
    );
    assert_eq!(said(kerb(&["lamps", LIFT, "--body", BODY])), expected);
}

#[test]
fn two_slides_later_the_lamp_is_lit() {
    assert_eq!(
        said(kerb(&["lamps", LATER, "--body", BODY])),
        format!("The lamps at tick 650, in slide 6, with 3 cells of bodywork:\n\n{LEFT_LIT}\n{RIGHT_BODYWORK}")
    );
}

/// Nothing but the lift; its link with the walker; the walker; and the first tick without that link.
#[test]
fn at_a_tick_the_lamps_are_what_they_were_then() {
    let unlinked = "The left lamp is dark: no cell of its zone is linked.\n";
    for (tick, left) in [
        ("19", unlinked),
        ("49", "  1 cell tied to bodywork: 161\n"),
        ("50", "  3 cells tied to bodywork: 161 162 227\n"),
        ("499", "  3 cells tied to bodywork: 161 162 227\n"),
        ("500", LEFT_LIT),
        ("2147483647", unlinked),
    ] {
        for file in [LIFT, LATER] {
            let text = said(kerb(&["lamps", file, "--body", BODY, "--at", tick]));
            assert!(text.contains(left), "{file} at {tick}: {text}");
            assert!(text.starts_with(&format!("The lamps at tick {tick}, in slide ")));
        }
    }
}

#[test]
fn both_lamps_as_json() {
    assert_eq!(
        said(kerb(&["lamps", LIFT, "--body", BODY, "--json"])),
        "{\"tick\":450,\"total\":450,\"slide\":4,\"body\":[94,95,96],\
         \"left\":{\"lit\":false,\"reason\":\"tied\",\"bodywork\":[],\"tied\":[161,162,227],\
         \"chain\":[{\"cell\":161,\"ring\":2,\"sector\":33},{\"cell\":96,\"ring\":1,\"sector\":32}],\
         \"links\":[{\"one\":161,\"other\":96,\"tick\":20,\"total\":20,\"slide\":0}],\
         \"newest\":{\"slide\":0,\"first\":0,\"last\":99,\"first_total\":0,\"last_total\":99},\
         \"hold\":0,\"until\":499,\"until_total\":499,\
         \"lights\":{\"tick\":500,\"total\":500,\"slide\":5,\"cell\":161,\"ring\":2,\"sector\":33}},\
         \"right\":{\"lit\":false,\"reason\":\"bodywork\",\"bodywork\":[94,95]}}\n"
    );
    assert_eq!(
        said(kerb(&["lamps", LATER, "--body", "96", "--json"])),
        "{\"tick\":650,\"total\":650,\"slide\":6,\"body\":[96],\"left\":{\"lit\":true,\"cell\":161,\"ring\":2,\"sector\":33},\
         \"right\":{\"lit\":false,\"reason\":\"tied\",\"bodywork\":[],\"tied\":[94,95],\
         \"chain\":[{\"cell\":94,\"ring\":1,\"sector\":30},{\"cell\":95,\"ring\":1,\"sector\":31},\
         {\"cell\":96,\"ring\":1,\"sector\":32}],\
         \"links\":[{\"one\":94,\"other\":95,\"tick\":600,\"total\":600,\"slide\":6},\
         {\"one\":95,\"other\":96,\"tick\":600,\"total\":600,\"slide\":6}],\
         \"newest\":{\"slide\":6,\"first\":600,\"last\":699,\"first_total\":600,\"last_total\":699},\
         \"hold\":4,\"until\":1099,\"until_total\":1099,\"lights\":null}}\n"
    );
    assert_eq!(
        said(kerb_fed(&["lamps", "--body=none", "--json"], &recording(settings(3), &[]))),
        "{\"tick\":0,\"total\":0,\"slide\":0,\"body\":[],\"left\":{\"lit\":false,\"reason\":\"unlinked\",\"bodywork\":[]},\
         \"right\":{\"lit\":false,\"reason\":\"unlinked\",\"bodywork\":[]}}\n"
    );
}

/// Links arrive in the unit's numbers; the bodywork and the answers are in the lorry's.
#[test]
fn a_mirrored_unit_has_the_lamps_of_the_lorry() {
    assert_eq!(
        said(kerb(&["lamps", "samples/mirrored.kerb", "--body", "none"])),
        "The lamps at tick 1130, in slide 2, with 0 cells of bodywork:\n\
         \nThe left lamp is lit, by cell 63: ring 0, sector 63.\n\
         \nThe right lamp is lit, by cell 344: ring 5, sector 24.\n"
    );
    let text = said(kerb(&["lamps", "samples/mirrored.kerb", "--body", "0"]));
    assert!(
        text.contains("2 cells tied to bodywork: 63 126\n"),
        "{text}"
    );
}

/// Several cells of the bodywork are joined with the cell: the newest L, then the fewest links, then the first cell numbers.
#[test]
fn the_chain_leads_to_the_bodywork_that_ties_for_longest() {
    // 40 to 42 are in the left zone, and 104 and 105, which touch 40, are one ring further
    let mut links = vec![(0, 40, 104), (10, 40, 41), (10, 41, 42)];
    for (more, chain) in [
        (None, "[40, 41, 42]"),
        (Some((10, 40, 105)), "[40, 105]"),
        (Some((19, 104, 40)), "[40, 104]"),
    ] {
        links.extend(more);
        let args = ["lamps", "--body", "42,104-105", "--json"];
        let text = said(kerb_fed(&args, &recording(settings(3), &links)));
        let (_, told) = text.split_once("\"chain\":[").expect("a chain");
        let (told, _) = told.split_once(']').expect("its end");
        let cells: Vec<u16> = told
            .split("\"cell\":")
            .skip(1)
            .map(|from| from.split(',').next().expect("a number"))
            .map(|number| number.parse().expect("a cell"))
            .collect();
        assert_eq!(format!("{cells:?}"), chain, "{text}");
        assert!(text.contains("\"bodywork\":[42,104"), "{text}");
    }
}

/// The cell whose chain is told parts later than another, which lights the lamp.
#[test]
fn the_lamp_comes_on_for_the_first_cell_that_parts() {
    let links = [(0, 20, 21), (10, 19, 20), (10, 5, 6)];
    let file = recording(settings(2), &links);
    let text = said(kerb_fed(&["lamps", "--body", "6,21"], &file));
    let dark = "The right lamp is dark: each linked cell of its zone is bodywork or tied to it.\n  \
                2 cells of bodywork: 6 21\n  3 cells tied to bodywork: 5 19 20\n\n\
                Cell 5, the smallest of these, is tied to cell 6, which is bodywork, by this chain:\n";
    assert!(text.contains(dark), "{text}");
    let end = "Hold 1: if nothing more is seen, they stay joined up to and including tick 29.\n\
               If nothing more is seen, the lamp comes on at tick 20, in slide 2, by cell 19: ring 0, sector 19.\n";
    assert!(text.ends_with(end), "{text}");
    let text = said(kerb_fed(&["lamps", "--body", "6,21", "--at", "20"], &file));
    assert!(text.contains("The right lamp is lit, by cell 19"), "{text}");
}

/// The cells leave the window with what ties them.
#[test]
fn a_lamp_may_stay_dark() {
    let file = recording(settings(4), &[(0, 5, 6), (9, 4, 5)]);
    let text = said(kerb_fed(&["lamps", "--body", "6"], &file));
    assert!(text.contains("2 cells tied to bodywork: 4 5\n"), "{text}");
    assert!(
        text.ends_with("\nIf nothing more is seen, the lamp stays dark.\n"),
        "{text}"
    );
}

#[test]
fn the_bodywork_is_a_list_a_file_or_none() {
    let named = said(kerb(&["lamps", LIFT, "--body", BODY]));
    let lines = file("lines.body", "94,\n95 # lift\r\n\n96");
    let latin = file("latin.body", b"\xef\xbb\xbf94-96 # B\xfchne"); // a mark in front, and a remark that is not UTF-8
    for list in [
        "94,95,96",
        "94-96",
        "95-96,94,95",
        "94, 95, 96,",
        "94 95\n96",
        word(&lines),
        word(&latin),
    ] {
        assert_eq!(
            said(kerb(&["lamps", LIFT, "--body", list])),
            named,
            "{list}"
        );
    }
    assert_eq!(said(kerb(&["lamps", "--body=94-96", "--", LIFT])), named);
    let from_standard_input = kerb_fed(&["lamps", LIFT, "--body", "-"], &sample("tail_lift.body"));
    assert_eq!(said(from_standard_input), named);
    let recording_so = kerb_fed(
        &["lamps", "--body", BODY, "-"],
        &sample("tail_lift_and_walker.kerb"),
    );
    assert_eq!(said(recording_so), named);

    let none = said(kerb(&["lamps", LIFT, "--body", "none"]));
    assert_eq!(
        none,
        format!(
            "The lamps at tick 450, in slide 4, with 0 cells of bodywork:\n\n{LEFT_LIT}\n\
             The right lamp is lit, by cell 94: ring 1, sector 30.\n"
        )
    );
    for empty in ["", "\n# nothing\n"] {
        let empty = file("empty.body", empty);
        assert_eq!(said(kerb(&["lamps", LIFT, "--body", word(&empty)])), none);
    }
}

#[test]
fn a_list_that_is_wrong_is_status_3() {
    for (list, words) in [
        ("", "--body has no cell; --body none says"),
        (" , ", "--body has no cell"),
        ("1024", "--body: 1024 goes beyond 1023, the last cell"),
        ("94,1000-1024", "--body: 1000-1024 goes beyond 1023"),
        (
            "94,70-64",
            "--body: 70-64 runs backwards: the smaller cell comes first",
        ),
        ("94-", "--body: 94- is neither a cell nor a range of cells"),
        ("-5", "--body: -5 is neither"),
        ("94--96", "--body: 94--96 is neither"),
        ("94-95-96", "--body: 94-95-96 is neither"),
        (
            "five",
            "five, taken for the file of --body, cannot be read: No such file",
        ),
        (
            "94..96",
            "94..96, taken for the file of --body, cannot be read",
        ),
        ("94,x", "94,x, taken for the file of --body, cannot be read"),
        (
            "samples",
            "samples, taken for the file of --body, cannot be read: Is a directory",
        ),
        (
            "samples/document.kerb",
            "samples/document.kerb, line 1 (counted from 1): \\0\\0",
        ),
    ] {
        complains(&kerb(&["lamps", LIFT, "--body", list]), 3, words);
        // the list is looked at before the recording
        complains(&kerb(&["lamps", "no/such.kerb", "--body", list]), 3, words);
    }
    let spoilt = file("spoilt.body", "# lift\n94-96\n\n70-64 1024\n");
    let words = format!(
        "{}, line 4 (counted from 1): 70-64 runs backwards",
        word(&spoilt)
    );
    complains(&kerb(&["lamps", LIFT, "--body", word(&spoilt)]), 3, &words);
    let words = "standard input, line 2 (counted from 1): x is neither a cell nor a range";
    complains(
        &kerb_fed(&["lamps", LIFT, "--body", "-"], b"94\nx"),
        3,
        words,
    );
}

#[test]
fn wrong_use_is_status_3() {
    for (args, words) in [
        (
            &["lamps", LIFT][..],
            "lamps wants --body LIST, the cells of the lorry's own bodywork; --body none says",
        ),
        (&["lamps", LIFT, "--body"], "--body wants a value"),
        (
            &["lamps", LIFT, "--body", "5", "--body=6"],
            "--body stands twice",
        ),
        (
            &["lamps", LIFT, LATER, "--body", "5"],
            "lamps takes one file",
        ),
        (
            &["lamps", LIFT, "--body", "5", "--at", "x"],
            "x is not a number: a tick",
        ),
        (
            &["lamps", LIFT, "--body", "5", "--total", "x"],
            "x is not a number: a total",
        ),
        (
            &["lamps", LIFT, "--body", "5", "--total=1", "--at=1"],
            "--at and --total name a moment each",
        ),
        (
            &["lamps", LIFT, "--body", "5", "--n", "3"],
            "lamps takes no --n",
        ),
        (&["groups", LIFT, "--body", "5"], "groups takes no --body"),
        (
            &["lamps", "--body", "-"],
            "the recording and the bodywork cannot both be standard input",
        ),
        (
            &["lamps", "-", "--body", "-"],
            "the recording and the bodywork cannot both be standard input",
        ),
    ] {
        complains(&kerb(args), 3, words);
    }
}
