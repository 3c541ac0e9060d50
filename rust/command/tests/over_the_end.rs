//! The counter passes its end: after 4,294,967,295 comes 0. The sample, where the totals stand beside the ticks, and recordings that go
//! round more than once.

mod common;

use common::{kerb, kerb_fed, recording, Ran};
use kerb::{Mounting, Settings};

const SAMPLE: &str = "samples/over_the_end.kerb";
const BODY: &str = "samples/tail_lift.body";

/// The last tick before the counter begins anew.
const END: u32 = u32::MAX;

/// How far ahead of the book's time a tick may be.
const REACH: u32 = (1 << 31) - 1;

fn settings(t0: u32, b: u32, n: u8) -> Settings {
    Settings {
        t0,
        b,
        n,
        mounting: Mounting::Plain,
    }
}

/// What is said on standard output, where all is well.
fn said(ran: Ran) -> String {
    assert_eq!((ran.status, ran.err.as_str()), (0, ""), "{}", ran.out);
    ran.out
}

/// Links from before the end and after it are one window, and each is in the slide of its total.
#[test]
fn a_chain_over_the_end_has_the_totals_beside_the_ticks() {
    assert_eq!(
        said(kerb(&["why", SAMPLE, "94", "162"])),
        "Cells 94 and 162 are joined at tick 154, total 450, in slide 4, by this chain:\n\
         \n  cell 94: ring 1, sector 30\n\
         \x20     linked with cell 95, last at tick 104, total 400, in slide 4\n\
         \x20 cell 95: ring 1, sector 31\n\
         \x20     linked with cell 96, last at tick 104, total 400, in slide 4\n\
         \x20 cell 96: ring 1, sector 32\n\
         \x20     linked with cell 161, last at tick 4294967250, total 250, in slide 2\n\
         \x20 cell 161: ring 2, sector 33\n\
         \x20     linked with cell 162, last at tick 154, total 450, in slide 4\n\
         \x20 cell 162: ring 2, sector 34\n\
         \nL is slide 2, ticks 4294967200 to 3, totals 200 to 299: \
         links from it on tie the two, and links from the next slide on do not.\n\
         Hold 2: if nothing more is seen, they stay joined up to and including tick 403, total 699.\n"
    );
    let ran = kerb(&["why", SAMPLE, "94", "162", "--json"]);
    for field in [
        "\"tick\":154,\"total\":450,\"slide\":4",
        "{\"one\":96,\"other\":161,\"tick\":4294967250,\"total\":250,\"slide\":2}",
        "{\"one\":161,\"other\":162,\"tick\":154,\"total\":450,\"slide\":4}",
        "\"newest\":{\"slide\":2,\"first\":4294967200,\"last\":3,\"first_total\":200,\"last_total\":299}",
        "\"hold\":2,\"until\":403,\"until_total\":699}\n",
    ] {
        assert!(ran.out.contains(field), "{field}: {}", ran.out);
    }
}

#[test]
fn groups_and_lamps_have_the_totals_too() {
    assert_eq!(
        said(kerb(&["groups", SAMPLE])),
        "1 group at tick 154, total 450, in slide 4; 14 links in the window, the last 5 slides.\n\
         \n5 cells, least hold 2: if nothing more is seen, all stay together up to and including tick 403, total 699\n\
         \x20 94 95 96 161 162\n"
    );
    assert_eq!(
        said(kerb(&["groups", SAMPLE, "--json"])),
        "{\"tick\":154,\"total\":450,\"slide\":4,\
         \"groups\":[{\"cells\":[94,95,96,161,162],\"hold\":2,\"until\":403,\"until_total\":699}],\"links\":14}\n"
    );
    let text = said(kerb(&["lamps", SAMPLE, "--body", BODY]));
    for line in [
        "The lamps at tick 154, total 450, in slide 4, with 3 cells of bodywork:",
        "      linked with cell 96, last at tick 4294967250, total 250, in slide 2",
        "If nothing more is seen, the lamp comes on at tick 404, total 700, in slide 7, by cell 161: ring 2, sector 33.",
    ] {
        assert!(text.lines().any(|of| of == line), "{line}\n{text}");
    }
    let text = said(kerb(&["lamps", SAMPLE, "--body", BODY, "--json"]));
    let lights =
        "\"lights\":{\"tick\":404,\"total\":700,\"slide\":7,\"cell\":161,\"ring\":2,\"sector\":33}";
    assert!(text.contains(lights), "{text}");
}

/// What was said to hold up to a moment does, by its tick and by its total, and one later it does not; as before the link.
#[test]
fn a_moment_is_asked_by_its_tick_or_its_total() {
    for (tick, total, moment, status) in [
        ("4294967000", "0", "at tick 4294967000, in slide 0", 1),
        ("4294967289", "289", "at tick 4294967289, in slide 2", 1),
        (
            "4294967290",
            "290",
            "at tick 4294967290, total 290, in slide 2",
            0,
        ),
        (
            "4294967295",
            "295",
            "at tick 4294967295, total 295, in slide 2",
            0,
        ),
        ("0", "296", "at tick 0, total 296, in slide 2", 0),
        ("4", "300", "at tick 4, total 300, in slide 3", 0),
        ("403", "699", "at tick 403, total 699, in slide 6", 0),
        ("404", "700", "at tick 404, total 700, in slide 7", 1),
        // as far ahead of the last record as a clock call reaches
        (
            "2147483801",
            "2147484097",
            "at tick 2147483801, total 2147484097, in slide 21474840",
            1,
        ),
    ] {
        let by_tick = kerb(&["why", SAMPLE, "94", "162", "--at", tick]);
        assert_eq!(by_tick.status, status, "{tick}: {}", by_tick.err);
        assert!(by_tick.out.contains(moment), "{moment}: {}", by_tick.out);
        let by_total = kerb(&["why", SAMPLE, "94", "162", "--total", total]);
        assert_eq!(by_total.out, by_tick.out);
        for question in [&["groups", SAMPLE][..], &["lamps", SAMPLE, "--body", BODY]] {
            let by_tick = said(kerb(&[question, &["--at", tick]].concat()));
            assert!(by_tick.contains(&format!(" at tick {tick}, ")), "{by_tick}");
            let by_total = said(kerb(&[question, &["--total", total]].concat()));
            assert_eq!(by_total, by_tick);
        }
    }
    // one further than that; and a tick before T0, which is the same
    for tick in ["2147483802", "4294966999"] {
        let ran = kerb(&["groups", SAMPLE, "--at", tick]);
        assert_eq!((ran.status, ran.out.as_str()), (2, ""));
        let words = format!("refused 4 at tick {tick}: ");
        assert!(ran.err.starts_with(&words), "{}", ran.err);
    }
    // by more calls than one
    let ran = kerb(&["groups", SAMPLE, "--total", "2147484098"]);
    let start = "0 groups at tick 2147483802, total 2147484098, in slide 21474840; 0 links";
    assert!(ran.out.starts_with(start), "{}", ran.out);
}

/// An answer has all totals or none. It has them as soon as something that it tells is past the end, if only until when two stay joined.
#[test]
fn totals_are_told_from_the_first_moment_past_the_end_on() {
    // slide 0 ends with the counter, and the next tick is past its end
    let b = 10;
    let t0 = END - 9;
    for (n, mid, end) in [
        (1, "", "up to and including tick 4294967295.\n"),
        (2, ", total 0", "up to and including tick 9, total 19.\n"),
    ] {
        let file = recording(settings(t0, b, n), &[(t0, 1, 2)]);
        let text = said(kerb_fed(&["why", "1", "2"], &file));
        assert!(text.ends_with(end), "{text}");
        let linked = format!("linked with cell 2, last at tick {t0}{mid}, in slide 0\n");
        assert!(text.contains(&linked), "{text}");
        let text = said(kerb_fed(&["lamps", "--body", "2"], &file));
        assert!(text.contains(&linked), "{text}");
        let text = said(kerb_fed(&["groups"], &file));
        let now = format!("1 group at tick {t0}{mid}, in slide 0; ");
        assert!(text.starts_with(&now), "{text}");
    }
    // nothing to tell but now
    let file = recording(settings(t0, b, 2), &[(t0, 1, 2)]);
    for (total, now) in [
        ("0", "at tick 4294967286, in slide 0"),
        ("9", "at tick 4294967295, in slide 0"),
        ("10", "at tick 0, total 10, in slide 1"),
    ] {
        let text = kerb_fed(&["why", "1", "3", "--total", total], &file).out;
        assert!(text.contains(&format!("not joined {now}: ")), "{text}");
        let text = said(kerb_fed(&["why", "3", "3", "--total", total], &file));
        assert_eq!(text, "Cell 3 is joined with itself, always.\n");
    }
}

/// When a lamp comes on is told too: it may be the one moment past the end.
#[test]
fn a_lamp_that_comes_on_after_the_end_brings_the_totals() {
    // two slides of 10 ticks, and the counter is at its end
    let t0 = END - 19;
    let stays_dark = [(t0, 6, 7), (t0, 5, 6)];
    let comes_on = [(t0, 6, 7), (t0 + 10, 5, 6)];
    for (links, end) in [
        (
            stays_dark,
            "stay joined up to and including tick 4294967295.\n\
             If nothing more is seen, the lamp stays dark.\n",
        ),
        (
            comes_on,
            "stay joined up to and including tick 4294967295, total 19.\n\
             If nothing more is seen, the lamp comes on at tick 0, total 20, in slide 2, by cell 5: ring 0, sector 5.\n",
        ),
    ] {
        let file = recording(settings(t0, 10, 2), &links);
        let text = said(kerb_fed(&["lamps", "--body", "7"], &file));
        assert!(text.ends_with(end), "{text}");
        let totals = text.contains("L is slide 0, ticks 4294967276 to 4294967285, totals 0 to 9: ");
        assert_eq!(totals, text.contains("total"), "{text}");
    }
}

/// The same tick, one turn later: `--at` is the first moment, and `--total` any.
#[test]
fn a_recording_may_go_round_more_than_once() {
    let links = [
        (100, 1, 2),
        (100 + REACH, 2, 3),
        (98, 3, 4), // past the end, and as far ahead as it may be
        (1000, 4, 5),
    ];
    let file = recording(settings(0, 1000, 2), &links);
    let second = said(kerb_fed(&["groups"], &file));
    let start = "1 group at tick 1000, total 4294968296, in slide 4294968; 2 links ";
    assert!(second.starts_with(start), "{second}");
    let first = said(kerb_fed(&["groups", "--at", "1000"], &file));
    let start = "1 group at tick 1000, in slide 1; 1 link ";
    assert!(first.starts_with(start), "{first}");
    for (total, text) in [("4294968296", &second), ("1000", &first)] {
        let of_total = said(kerb_fed(&["groups", "--total", total], &file));
        assert_eq!(&of_total, text);
    }
    let before = said(kerb_fed(&["groups", "--total", "4294968295"], &file));
    let start = "1 group at tick 999, total 4294968295, in slide 4294968; 1 link ";
    assert!(before.starts_with(start), "{before}");

    // one tick further ahead, and the record is refused; up to the one before it all is as it was
    let mut far = links;
    far[2].0 += 1;
    let file = recording(settings(0, 1000, 2), &far);
    let ran = kerb_fed(&["list"], &file);
    assert_eq!((ran.status, ran.out.as_str()), (2, "refused 4 2\n"));
    let until_then = said(kerb_fed(&["groups", "--at", "1000"], &file));
    assert_eq!(until_then, first);
    let ran = kerb_fed(&["groups", "--total", "4294968296"], &file);
    assert_eq!(ran.status, 2, "{}", ran.out);
}

/// A slide may be longer than a clock call reaches: what is told of later ones takes several.
#[test]
fn slides_that_are_longer_than_a_clock_call_reaches() {
    let links = [
        (0, 5, 6),
        (REACH, 5, 6),
        (2 * REACH, 5, 6),
        (END, 4, 5), // the first tick of slide 1
    ];
    let file = recording(settings(0, END, 2), &links);
    let text = said(kerb_fed(&["lamps", "--body", "6"], &file));
    let end = "L is slide 0, ticks 0 to 4294967294, totals 0 to 4294967294: \
               links from it on tie the two, and links from the next slide on do not.\n\
               Hold 0: if nothing more is seen, they stay joined up to and including tick 4294967293, total 8589934589.\n\
               If nothing more is seen, the lamp comes on at tick 4294967294, total 8589934590, in slide 2, \
               by cell 4: ring 0, sector 4.\n";
    assert!(text.ends_with(end), "{text}");
    for (total, status) in [("8589934589", 0), ("8589934590", 1)] {
        let ran = kerb_fed(&["why", "4", "6", "--total", total], &file);
        assert_eq!(ran.status, status, "{}", ran.out);
    }
}
