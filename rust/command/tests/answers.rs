//! What the command answers: the samples, and recordings written here.

mod common;

use common::{kerb, kerb_fed, recording, root};
use kerb::{Mounting, Settings};
use streams::files::{damage, edge_files, valid_file};
use streams::Dice;

const LIFT: &str = "samples/tail_lift_and_walker.kerb";
const LATER: &str = "samples/tail_lift_and_walker_later.kerb";

/// The statuses 0 and 2 tell a listing from a refusal, and the text is kerblist's.
#[test]
fn list_prints_each_samples_listing() {
    let mut seen = 0;
    for entry in std::fs::read_dir(root().join("samples")).expect("samples") {
        let path = entry.expect("a sample").path();
        if path.extension().is_none_or(|extension| extension != "kerb") {
            continue;
        }
        let listing = std::fs::read_to_string(path.with_extension("listing")).expect("its listing");
        let ran = kerb(&["list", path.to_str().expect("text")]);
        assert_eq!(ran.out, listing, "{}", path.display());
        let refused = listing.starts_with("refused ");
        assert_eq!(
            ran.status,
            if refused { 2 } else { 0 },
            "{}",
            path.display()
        );
        assert_eq!(ran.err.is_empty(), !refused, "{}", path.display());
        seen += 1;
    }
    assert!(seen >= 6);
}

/// The independent program's text, for drawn files, good and damaged.
#[test]
fn list_prints_what_the_oracle_prints() {
    let mut files = edge_files();
    let mut dice = Dice::new(14);
    for at in 0..20 {
        let mut file = valid_file(&mut dice);
        if at % 2 == 1 && file.len() >= 24 {
            damage(&mut dice, &mut file);
        }
        files.push(file);
    }
    for file in files {
        let ran = kerb_fed(&["list"], &file);
        assert_eq!(ran.out, oracle::listing(&file));
        let refused = ran.out.starts_with("refused ");
        assert_eq!(ran.status, if refused { 2 } else { 0 });
    }
}

#[test]
fn why_tells_the_chain_its_links_and_until_when() {
    let ran = kerb(&["why", LIFT, "94", "227"]);
    assert_eq!((ran.status, ran.err.as_str()), (0, ""));
    for line in [
        "Cells 94 and 227 are joined at tick 450, in slide 4, by this chain:",
        "  cell 94: ring 1, sector 30",
        "      linked with cell 95, last at tick 400, in slide 4",
        "      linked with cell 161, last at tick 20, in slide 0",
        "  cell 227: ring 3, sector 35",
        "L is slide 0, ticks 0 to 99: links from it on tie the two, and links from the next slide on do not.",
        "Hold 0: if nothing more is seen, they stay joined up to and including tick 499.",
    ] {
        assert!(ran.out.lines().any(|of| of == line), "{line}\n{}", ran.out);
    }

    let ran = kerb(&["why", LATER, "94", "227"]);
    assert_eq!(ran.status, 1);
    assert_eq!(
        ran.out,
        "Cells 94 and 227 are not joined at tick 650, in slide 6: nothing in the window, the last 5 slides, ties them.\n"
    );

    let ran = kerb(&["why", LIFT, "7", "7"]);
    assert_eq!(
        (ran.status, ran.out.as_str()),
        (0, "Cell 7 is joined with itself, always.\n")
    );
}

/// What was said to hold up to a tick does, and at the next tick it does not; before the last of its links there was no chain.
#[test]
fn at_a_tick_the_book_is_what_it_was_then() {
    for (tick, status) in [
        ("49", 1),
        ("50", 0),
        ("499", 0),
        ("500", 1),
        ("2147483647", 1),
    ] {
        for file in [LIFT, LATER] {
            for option in ["--at", "--total"] {
                // T0 is 0: as long as the counter has not passed its end the total is the tick
                let ran = kerb(&["why", file, "94", "227", option, tick]);
                assert_eq!(ran.status, status, "{file} at {tick}");
            }
        }
    }
    // as the shorter recording, with the clock moved
    let whole = [(0, 1, 2), (7, 2, 3), (7, 3, 4), (12, 5, 6)];
    let settings = Settings {
        t0: 0,
        b: 10,
        n: 2,
        mounting: Mounting::Plain,
    };
    let groups = |links: &[(u32, u16, u16)], at: &str| {
        kerb_fed(&["groups", "--at", at], &recording(settings, links)).out
    };
    assert_eq!(groups(&whole, "6"), groups(&whole[..1], "6"));
    assert_eq!(groups(&whole, "7"), groups(&whole[..3], "7"));
    assert_ne!(groups(&whole, "6"), groups(&whole, "7"));
    // a record after the tick is not played, so what is wrong with it is not met
    let wrong = [(0, 1, 2), (20, 2, 3), (10, 3, 4)];
    let file = recording(settings, &wrong);
    assert_eq!(kerb_fed(&["groups"], &file).status, 2);
    assert_eq!(kerb_fed(&["groups", "--at", "19"], &file).status, 0);
    // one before the book's time comes after no tick: it is met as soon as the record before it is
    for option in ["--at", "--total"] {
        for tick in ["20", "25", "2147483647"] {
            let ran = kerb_fed(&["groups", option, tick], &file);
            let words = "refused 4 at record 2: ";
            assert!(ran.status == 2 && ran.err.starts_with(words), "{ran:?}");
        }
    }
}

/// A mirrored unit, a link in the other direction, and a newer detour: the newest slide of each link of the chain.
#[test]
fn why_finds_the_newest_slide_of_each_link() {
    let settings = Settings {
        t0: 1000,
        b: 10,
        n: 4,
        mounting: Mounting::Mirrored,
    };
    // the lorry's 63, 62 and 61; 62-61 is seen in slide 0 and, the other way round, in slide 1
    let links = [(1000, 1, 2), (1005, 2, 3), (1019, 3, 2), (1020, 20, 21)];
    let ran = kerb_fed(&["why", "63", "61", "--json"], &recording(settings, &links));
    assert_eq!(
        ran.out,
        "{\"joined\":true,\"one\":63,\"other\":61,\"tick\":1020,\"total\":20,\"slide\":2,\
         \"chain\":[{\"cell\":63,\"ring\":0,\"sector\":63},{\"cell\":62,\"ring\":0,\"sector\":62},{\"cell\":61,\"ring\":0,\"sector\":61}],\
         \"links\":[{\"one\":63,\"other\":62,\"tick\":1000,\"total\":0,\"slide\":0},\
         {\"one\":62,\"other\":61,\"tick\":1019,\"total\":19,\"slide\":1}],\
         \"newest\":{\"slide\":0,\"first\":1000,\"last\":1009,\"first_total\":0,\"last_total\":9},\
         \"hold\":1,\"until\":1039,\"until_total\":39}\n"
    );
}

#[test]
fn a_cell_and_itself_never_part() {
    let ran = kerb(&["why", LIFT, "7", "7", "--json"]);
    assert_eq!(
        ran.out,
        "{\"joined\":true,\"one\":7,\"other\":7,\"tick\":450,\"total\":450,\"slide\":4,\
         \"chain\":[{\"cell\":7,\"ring\":0,\"sector\":7}],\"links\":[],\
         \"newest\":{\"slide\":5,\"first\":500,\"last\":599,\"first_total\":500,\"last_total\":599},\
         \"hold\":5,\"until\":null,\"until_total\":null}\n"
    );
}

#[test]
fn groups_tells_all_cells() {
    let ran = kerb(&["groups", LATER]);
    assert_eq!(ran.status, 0);
    assert_eq!(
        ran.out,
        "2 groups at tick 650, in slide 6; 20 links in the window, the last 5 slides.\n\
         \n3 cells, least hold 4: if nothing more is seen, all stay together up to and including tick 1099\n  94 95 96\n\
         \n3 cells, least hold 4: if nothing more is seen, all stay together up to and including tick 1099\n  161 162 227\n"
    );
    let ran = kerb(&["groups", LIFT, "--json"]);
    assert_eq!(
        ran.out,
        "{\"tick\":450,\"total\":450,\"slide\":4,\
         \"groups\":[{\"cells\":[94,95,96,161,162,227],\"hold\":0,\"until\":499,\"until_total\":499}],\"links\":21}\n"
    );
    let ran = kerb(&["list", LATER, "--json"]);
    assert_eq!(
        ran.out,
        "{\"n\":5,\"b\":100,\"mounting\":1,\"slide\":6,\"groups\":[{\"first\":94,\"size\":3,\"hold\":4},\
         {\"first\":161,\"size\":3,\"hold\":4}],\"links\":20}\n"
    );
}

#[test]
fn cell_tells_ring_sector_and_both_numbers() {
    let ran = kerb(&["cell", "127"]);
    assert_eq!(
        ran.out,
        "cell 127: ring 1, sector 63\n\
         mounting 1, plain: the unit's 127 is the lorry's 127 (ring 1, sector 63); the lorry's 127 is the unit's 127\n\
         mounting 2, mirrored: the unit's 127 is the lorry's 65 (ring 1, sector 1); the lorry's 127 is the unit's 65\n"
    );
    for mounting in ["2", "mirrored"] {
        let ran = kerb(&["cell", "1023", "--mounting", mounting, "--json"]);
        assert_eq!(ran.status, 0);
        assert_eq!(
            ran.out,
            "{\"cell\":1023,\"ring\":15,\"sector\":63,\"mountings\":[{\"mounting\":2,\
             \"lorry\":{\"cell\":961,\"ring\":15,\"sector\":1},\"unit\":961}]}\n"
        );
    }
}

/// A cell, its ring and its sector.
type Place = [u32; 3];

/// Every cell of a mirrored unit and of the lorry, by the independent program's rule.
fn mirrored_places() -> Vec<(Place, Place)> {
    let place = |cell| [cell, cell / oracle::SECTORS, cell % oracle::SECTORS];
    let cells = 0..oracle::CELLS;
    cells
        .map(|cell| (place(cell), place(oracle::mirrored(cell))))
        .collect()
}

#[test]
fn mirror_table_prints_every_cell_by_the_oracles_rule() {
    let ran = kerb(&["mirror-table"]);
    assert_eq!((ran.status, ran.err.as_str()), (0, ""));
    let rings: Vec<&str> = ran.out.split("\n\n").collect();
    assert_eq!(rings.len() as u32, oracle::RINGS);
    let mut printed = Vec::new();
    for ring in rings {
        let (heading, lines) = ring.split_once('\n').expect("a heading");
        assert_eq!(
            heading,
            "unit's cell  ring  sector  lorry's cell  ring  sector"
        );
        let before = printed.len();
        for line in lines.lines() {
            assert_eq!(line.len(), heading.len(), "{line}");
            let numbers: Vec<u32> = line
                .split_whitespace()
                .map(|word| word.parse().expect("a number"))
                .collect();
            let [cell, ring, sector, lorry, on_ring, at_sector] = numbers[..] else {
                panic!("not six numbers: {line}");
            };
            printed.push(([cell, ring, sector], [lorry, on_ring, at_sector]));
        }
        assert_eq!((printed.len() - before) as u32, oracle::SECTORS);
    }
    assert_eq!(printed, mirrored_places());
}

#[test]
fn mirror_table_is_json_too() {
    let object = |[cell, ring, sector]: Place| {
        format!("{{\"cell\":{cell},\"ring\":{ring},\"sector\":{sector}}}")
    };
    let pair = |(unit, lorry): (Place, Place)| {
        format!("{{\"unit\":{},\"lorry\":{}}}", object(unit), object(lorry))
    };
    let pairs: Vec<String> = mirrored_places().into_iter().map(pair).collect();
    let ran = kerb(&["mirror-table", "--json"]);
    assert_eq!((ran.status, ran.err.as_str()), (0, ""));
    assert_eq!(
        ran.out,
        format!("{{\"mounting\":2,\"cells\":[{}]}}\n", pairs.join(","))
    );
}

#[test]
fn standard_input_is_a_dash_or_no_file() {
    let file = std::fs::read(root().join(LIFT)).expect("the sample");
    let named = kerb(&["list", LIFT]).out;
    assert_eq!(kerb_fed(&["list"], &file).out, named);
    assert_eq!(kerb_fed(&["list", "-"], &file).out, named);
    assert_eq!(kerb_fed(&["list", "--", LIFT], &[]).out, named);
    let named = kerb(&["why", LIFT, "94", "95"]).out;
    assert_eq!(kerb_fed(&["why", "94", "95"], &file).out, named);
    assert_eq!(kerb_fed(&["why", "-", "94", "95"], &file).out, named);
}

#[test]
fn help_and_version_are_answers() {
    let all = kerb(&["help"]);
    assert_eq!((all.status, all.err.as_str()), (0, ""));
    assert_eq!(kerb(&["--help"]).out, all.out);
    for command in [
        "list",
        "why",
        "groups",
        "lamps",
        "cell",
        "mirror-table",
        "to-file",
        "to-text",
    ] {
        assert!(all.out.contains(&format!("  kerb {command} ")), "{command}");
        let help = kerb(&["help", command]);
        assert!(
            help.out.starts_with(&format!("kerb {command} ")),
            "{command}"
        );
        assert_eq!(kerb(&[command, "--help"]).out, help.out);
    }
    let version = kerb(&["--version"]);
    assert_eq!(version.status, 0);
    assert!(version.out.starts_with("kerb "), "{}", version.out);
}
