//! The calls beside those of the streams, compared with the oracle: groups, playing, the time, the open slide and the ticks of slides,
//! cells and records. All but the last two for altered books too, with docs/BOOK.md in the oracle's place.

mod common;

use common::{opened, settings};
use compare::altered::order::disorder;
use compare::altered::{books, calls as altered_calls, said};
use compare::{library, run, Difference, Lockstep, State};
use kerb::calls::{self, Clock};
use oracle::{tick_after, History, Record, Refusal, CELLS, LOG_PLACES, MOST_TOTAL};
use streams::files::{edge_files, every_field, file_of, valid_file, Files};
use streams::hops::distance;
use streams::{built, draw_settings, lent_bytes, lent_places, Call, Dice, Kind, Random};

const ALL: usize = CELLS as usize;
/// Numbers that a call can give are 0 to 15; 8 is none of them.
const NUMBERS: usize = Refusal::Mask as usize + 1;

// Cells.

#[test]
fn cells_follow_the_mirror_rule_for_every_number_and_mounting() {
    for mounting in 0..=u8::MAX {
        for cell in 0..=u16::MAX {
            let expected = match mounting {
                2 if u32::from(cell) < CELLS => oracle::mirrored(u32::from(cell)) as u16,
                _ => cell,
            };
            assert_eq!(calls::lorry_cell(mounting, cell), expected);
            assert_eq!(calls::unit_cell(mounting, cell), expected);
        }
    }
}

#[test]
fn rings_and_sectors_of_every_number() {
    for cell in 0..=u16::MAX {
        assert_eq!(
            (calls::ring(cell), calls::sector(cell)),
            (cell / 64, cell % 64)
        );
    }
}

#[test]
fn version_and_size() {
    assert_eq!(calls::version(), 3);
    assert_eq!(calls::book_size(), kerb::RawBook::BYTES);
    assert_eq!(calls::book_size(), std::mem::size_of::<kerb::RawBook>());
}

// Records.

#[test]
fn records_are_packed_as_the_oracle_writes_them_and_unpacked_again() {
    let mut dice = Dice::new(run::seed());
    for _ in 0..10_000 {
        let (tick, a, b) = (dice.bits() as u32, dice.bits() as u16, dice.bits() as u16);
        let expected = oracle::record_bytes(Record { tick, a, b });
        let room = dice.below(20) as usize;
        let mut out = lent_bytes(room);
        let number = calls::pack(tick, a, b, &mut out);
        let mut left = lent_bytes(room);
        if room >= expected.len() {
            left[..expected.len()].copy_from_slice(&expected);
        }
        assert_eq!((number, out), (if room < 8 { 6 } else { 0 }, left));
        let record = calls::unpack(&expected, 0);
        assert_eq!(
            (record.tick, record.one, record.other, record.number),
            (tick, a, b, 0)
        );
    }
}

#[test]
fn records_are_unpacked_where_there_are_eight_bytes() {
    let mut dice = Dice::new(run::seed());
    for length in 0..70_usize {
        let bytes: Vec<u8> = (0..length).map(|_| dice.bits() as u8).collect();
        for i in [0, 1, 2, 7, 8, 9, 1 << 29, (1 << 29) + 1, u32::MAX] {
            let given = calls::unpack(&bytes, i);
            let given = (given.tick, given.one, given.other, given.number);
            let expected = if (i as usize) < length / 8 {
                let record = oracle::record(&bytes, i as usize);
                (record.tick, record.a, record.b, 0)
            } else {
                (0, 0, 0, 9)
            };
            assert_eq!(given, expected, "record {i} of {length} bytes");
        }
    }
}

// Slides and groups.

/// How the three buffers of a groups call are lent, and what they are afterwards.
#[derive(Clone, PartialEq, Eq, Debug)]
struct Told {
    first: Vec<u16>,
    size: Vec<u16>,
    hold: Vec<u8>,
    links: u32,
    number: u32,
}

impl Told {
    fn lent(places: [usize; 3]) -> Told {
        Told {
            first: lent_places(places[0]),
            size: lent_places(places[1]),
            hold: lent_bytes(places[2]),
            links: 0,
            number: 0,
        }
    }
}

fn ask_groups(state: &State, log_places: usize, places: [usize; 3]) -> Told {
    let mut told = Told::lent(places);
    let (first, size, hold) = (&mut told.first, &mut told.size, &mut told.hold);
    let answer = calls::groups(&state.book, &state.log[..log_places], first, size, hold);
    told.links = answer.links;
    told.number = u32::from(answer.number);
    told
}

/// What the oracle says of the window; none for a book that gives 1.
fn groups_of(history: Option<&History>, log_places: usize, places: [usize; 3]) -> Told {
    let mut told = Told::lent(places);
    let history = match history {
        None => {
            told.number = 1;
            return told;
        }
        Some(_) if log_places < LOG_PLACES || places.iter().any(|&places| places < ALL) => {
            told.number = 6;
            return told;
        }
        Some(history) => history,
    };
    told.links = history.window().len() as u32;
    for cell in 0..ALL {
        told.first[cell] = cell as u16;
    }
    told.size[..ALL].fill(1);
    told.hold[..ALL].fill(history.n() as u8);
    for group in history.groups() {
        let first = group.cells().next().expect("a group has cells");
        let hold = history.least_hold(&group);
        for cell in group.cells() {
            told.first[cell as usize] = first as u16;
            told.size[cell as usize] = group.count() as u16;
            told.hold[cell as usize] = hold as u8;
        }
    }
    told
}

/// Buffers that are long enough, mostly; else one of them is too short.
fn draw_places(dice: &mut Dice) -> (usize, [usize; 3]) {
    let mut log_places = LOG_PLACES + dice.below(3) as usize;
    let mut places = [0; 3].map(|_| ALL + dice.below(3) as usize);
    match dice.below(16) {
        0 => log_places = dice.pick(&[0, LOG_PLACES - 1]),
        short @ 1..=3 => places[short as usize - 1] = dice.pick(&[0, ALL - 1]),
        _ => {}
    }
    (log_places, places)
}

/// Asks for the groups and the slides of a book, and compares.
fn compare_questions(dice: &mut Dice, state: &State, history: Option<&History>) -> u32 {
    let (log_places, places) = draw_places(dice);
    let told = ask_groups(state, log_places, places);
    assert_eq!(told, groups_of(history, log_places, places));
    compare_clock(dice, &state.book);
    if let Some(history) = history {
        let told = library::told(&state.book);
        assert_eq!(
            (told.time, told.open_slide),
            (history.time, history.open_slide())
        );
        let open = calls::slide_ticks(&state.book, told.open_slide);
        assert!(open.exists);
        let totals = u128::from(open.first_total)..=u128::from(open.last_total);
        assert!(totals.contains(&history.total));
    }
    told.number
}

/// The time, the open slide and the ticks of slides, of a book in order or not.
fn compare_clock(dice: &mut Dice, book: &kerb::RawBook) {
    assert_eq!(library::told(book), said::told(book));
    let open = calls::open_slide(book);
    let last = (MOST_TOTAL as u64).checked_div(book.clock.b.into());
    let last = last.unwrap_or(0);
    let any = dice.bits() >> dice.below(64);
    for slide in [0, 1, open, last, 1 << 32, 1 << 63, any, u64::MAX] {
        for slide in [slide.saturating_sub(1), slide, slide.saturating_add(1)] {
            let ticks = calls::slide_ticks(book, slide);
            assert_eq!(ticks, said::slide_ticks(&book.clock, slide), "{slide}");
            assert_eq!(ticks.exists, book.clock.b != 0 && slide <= last);
            if ticks.exists {
                look_at_ticks(&book.clock, slide, ticks);
            }
        }
    }
}

/// The totals are those of the slide, all of them, and the ticks are those of the totals.
fn look_at_ticks(clock: &Clock, slide: u64, ticks: calls::SlideAnswer) {
    let settings = settings(1, clock.b, 1, clock.t0);
    let [first, last] = [ticks.first_total, ticks.last_total].map(u128::from);
    assert_eq!(settings.slide_of(first), slide);
    assert_eq!(settings.slide_of(last), slide);
    assert!(first == 0 || settings.slide_of(first - 1) == slide - 1);
    assert!(last == MOST_TOTAL || settings.slide_of(last + 1) == slide + 1);
    assert_eq!(ticks.first, tick_after(clock.t0, first));
    assert_eq!(ticks.last, tick_after(clock.t0, last));
}

#[test]
fn groups_and_slides_of_random_streams() {
    let mut dice = Dice::new(run::seed());
    let mut numbers = [0; NUMBERS];
    for kind in [
        Kind::Few,
        Kind::All,
        Kind::Touching,
        Kind::FarLinks,
        Kind::SelfLinks,
        Kind::HugeJumps,
    ] {
        for _ in 0..4 {
            let mut books = Lockstep::new();
            for call in Random::new(dice.bits(), kind).take(2_000) {
                books
                    .put(&call)
                    .unwrap_or_else(|difference| panic!("{difference}"));
                if dice.one_in(20) {
                    let number = compare_questions(&mut dice, books.library(), books.history());
                    numbers[number as usize] += 1;
                }
            }
        }
    }
    println!(
        "groups of random streams, number 0: {}, 1: {}, 6: {}",
        numbers[0], numbers[1], numbers[6]
    );
    assert!(
        numbers[0] > 0 && numbers[1] > 0 && numbers[6] > 0,
        "{numbers:?}"
    );
}

/// Two streams of each kind.
#[test]
fn groups_and_slides_of_built_streams() {
    let mut dice = Dice::new(run::seed());
    let streams = built::all(dice.bits());
    for kind in compare::seen::STREAMS {
        let of_kind = streams.iter().filter(|(name, _)| name.starts_with(kind));
        for (_, stream) in of_kind.take(2) {
            let mut book = oracle::Book::new();
            let mut state = State::with_new_log(kerb::RawBook::never_opened());
            let last = stream.len() - 1;
            for (place, call) in stream.iter().enumerate() {
                streams::ask(&mut book, call);
                compare::library::ask(&mut state, call);
                if place == last || dice.one_in(1_000) {
                    compare_questions(&mut dice, &state, book.history.as_ref());
                }
            }
        }
    }
}

/// By the log alone, as a chain: docs/BOOK.md.
#[test]
fn groups_and_slides_of_altered_books() {
    let mut dice = Dice::new(run::seed());
    let left = books::left_by_calls(dice.bits());
    let mut numbers = [0; NUMBERS];
    for _ in 0..2_000 {
        let state = books::draw(&mut dice, &left).state;
        let in_order = disorder(&state.book).is_none();
        let history = in_order.then(|| said::logged_window(&state));
        let number = compare_questions(&mut dice, &state, history.as_ref());
        numbers[number as usize] += 1;
    }
    println!(
        "groups of altered books, number 0: {}, 1: {}, 6: {}",
        numbers[0], numbers[1], numbers[6]
    );
    assert!(
        numbers[0] > 0 && numbers[1] > 0 && numbers[6] > 0,
        "{numbers:?}"
    );
}

/// RULES 2.15: the questions about the clock answer for every clock. All numbers at the ends of their widths, and any.
#[test]
fn the_clock_of_any_numbers() {
    let mut dice = Dice::new(run::seed());
    let mut totals = vec![0, 1, u64::MAX - 1, u64::MAX];
    for power in [31, 32, 63] {
        totals.extend([(1 << power) - 1, 1 << power, (1 << power) + 1]);
    }
    totals.extend((0..50).map(|_| dice.bits()));
    let mut book = kerb::RawBook::never_opened();
    for total in totals {
        for t0 in [0, 1, 1 << 31, u32::MAX - 1, u32::MAX, dice.bits() as u32] {
            for b in [0, 1, 2, 1_000, 1 << 31, u32::MAX - 1, u32::MAX] {
                book.clock.total = total;
                book.clock.t0 = t0;
                book.clock.b = b;
                compare_clock(&mut dice, &book);
            }
        }
    }
}

/// The time of a book that was never opened is 0, and so is its open slide; it has no slides.
#[test]
fn the_clock_of_a_book_that_was_never_opened() {
    let book = kerb::RawBook::never_opened();
    assert_eq!((book.time(), book.total(), book.open_slide()), (0, 0, 0));
    for slide in [0, 1, u64::MAX] {
        assert_eq!(book.slide_ticks(slide), None);
    }
}

// Playing.

/// The answer of playing: how many records were taken, and the number.
type Played = (u32, u32);

fn ask_play(state: &mut State, log_places: usize, file: &[u8]) -> Played {
    let answer = calls::play(&mut state.book, &mut state.log[..log_places], file);
    (answer.taken, u32::from(answer.number))
}

/// Playing as the rules have it: the reader's number, or the link call with one record after the other up to one that is refused.
fn played(file: &[u8], log_places: usize, mut put: impl FnMut(&Call) -> u32) -> Played {
    let m = match oracle::read(file) {
        Ok(head) => head.m,
        Err(refusal) => return (0, refusal.number()),
    };
    for place in 0..m {
        let Record { tick, a, b } = oracle::record(file, place as usize);
        let link = Call::Link {
            tick,
            a: u32::from(a),
            b: u32::from(b),
            log_places,
        };
        let number = put(&link);
        if number != 0 {
            return (place, number);
        }
    }
    (m, 0)
}

/// Plays a file into a book, and compares the answer and the state with those of the link calls, put to the oracle too.
fn compare_play(books: &mut Lockstep, file: &[u8], log_places: usize) -> Played {
    let mut state = books.library().clone();
    let given = ask_play(&mut state, log_places, file);
    let expected = played(file, log_places, |link| {
        let answer = books.put(link);
        answer
            .unwrap_or_else(|difference| panic!("{difference}"))
            .number()
    });
    assert_eq!(given, expected, "a file of {} bytes", file.len());
    let call = Call::Read { file: Vec::new() };
    Difference::of_states(&call, books.library(), &state)
        .unwrap_or_else(|difference| panic!("after playing: {difference}"));
    given
}

fn opened_for(file: &[u8]) -> Lockstep {
    let head = oracle::read(file);
    head.map_or_else(|_| Lockstep::new(), |head| opened(head.settings))
}

#[test]
fn playing_random_files() {
    let mut dice = Dice::new(run::seed());
    let mut numbers = [0; NUMBERS];
    for call in Files::new(dice.bits()).take(300) {
        if let Call::Read { file } = call {
            let (_, number) = compare_play(&mut opened_for(&file), &file, LOG_PLACES);
            numbers[number as usize] += 1;
        }
    }
    println!("playing random files, by number: {numbers:?}");
    for number in [0, 2, 3, 4, 9, 10, 11, 12, 14] {
        assert!(numbers[number] > 0, "number {number} never seen");
    }
}

#[test]
fn playing_edge_files_and_files_with_each_field_damaged() {
    for file in edge_files() {
        compare_play(&mut opened_for(&file), &file, LOG_PLACES);
    }
    for (_, file) in every_field(run::seed()) {
        compare_play(&mut opened_for(&file), &file, LOG_PLACES);
    }
}

/// A file goes into a book that has other settings, a history of its own, or none: playing does not open it.
#[test]
fn playing_into_any_book() {
    let mut dice = Dice::new(run::seed());
    let mut numbers = [0; NUMBERS];
    for round in 0..60 {
        let file = valid_file(&mut dice);
        let mut books = match round % 3 {
            0 => Lockstep::new(),
            1 => opened(draw_settings(&mut dice)),
            _ => opened_for(&file),
        };
        let (_, number) = compare_play(&mut books, &file, LOG_PLACES + 1);
        numbers[number as usize] += 1;
        let (_, number) = compare_play(&mut books, &file, LOG_PLACES + 2);
        numbers[number as usize] += 1;
    }
    println!("playing into any book, by number: {numbers:?}");
    assert!(
        numbers[0] > 0 && numbers[1] > 0 && numbers[4] > 0,
        "{numbers:?}"
    );
}

#[test]
fn playing_with_a_log_that_is_too_short() {
    let file = file_of(settings(3, 10, 1, 0), &common::records(&common::LISTING));
    for log_places in [0, LOG_PLACES - 1] {
        let mut books = opened(settings(3, 10, 1, 0));
        assert_eq!(compare_play(&mut books, &file, log_places), (0, 6));
        assert_eq!(compare_play(&mut books, &file[1..], log_places), (0, 9));
    }
    let empty = file_of(settings(3, 10, 1, 0), &[]);
    assert_eq!(compare_play(&mut Lockstep::new(), &empty, 0), (0, 0));
}

#[test]
fn playing_keeps_what_stands_before_a_refused_record() {
    let mut records = common::records(&common::LISTING);
    records[3].tick = 19;
    let file = file_of(settings(3, 10, 1, 0), &records);
    let mut books = opened(settings(3, 10, 1, 0));
    assert_eq!(compare_play(&mut books, &file, LOG_PLACES), (3, 4));
    // 3 → 1 and 4 → 1 in the forward forest of 1-2, 2-3 and 3-4
    assert_eq!(common::joined(&mut books, 3, 4), (0, true, 2));
}

/// Into altered books: the link calls of docs/BOOK.md.
#[test]
fn playing_into_altered_books() {
    let mut dice = Dice::new(run::seed());
    let left = books::left_by_calls(dice.bits());
    let mut numbers = [0; NUMBERS];
    for _ in 0..3_000 {
        let altered = books::draw(&mut dice, &left);
        let mut state = altered.state;
        let mut records = Vec::new();
        while records.len() < 6 {
            if let Call::Link { tick, a, b, .. } =
                altered_calls::draw(&mut dice, &state, &altered.cells)
            {
                let (a, b) = (a as u16, b as u16);
                records.push(Record { tick, a, b });
            }
        }
        let time = said::time(&state.book.clock);
        records.sort_by_key(|record| distance(time, record.tick));
        let file = file_of(draw_settings(&mut dice), &records);
        let mut given = state.clone();
        let answer = ask_play(&mut given, LOG_PLACES, &file);
        let expected = played(&file, LOG_PLACES, |link| {
            said::ask(&mut state, link).number()
        });
        assert_eq!(answer, expected, "{}", altered.kind);
        let call = Call::Read { file: Vec::new() };
        Difference::of_states(&call, &state, &given)
            .unwrap_or_else(|difference| panic!("after playing: {difference}"));
        numbers[answer.1 as usize] += 1;
    }
    println!("playing into altered books, by number: {numbers:?}");
    for number in [0, 1, 3, 4, 5, 14] {
        assert!(numbers[number] > 0, "number {number} never seen");
    }
}
