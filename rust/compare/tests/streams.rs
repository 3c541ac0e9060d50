//! A million calls and more, put to the oracle and to the proved library: random
//! streams, built streams and link files. Prints the seed and how often each
//! class was seen; fails on the first difference of a stream, and where a class
//! stayed empty. Another seed: `KERB_SEED=1 cargo test --test streams`.

use compare::{run, seen, Lockstep, Tally};
use std::process::ExitCode;
use std::time::Instant;
use streams::files::{edge_files, every_field, Files};
use streams::{built, Call, Dice, Kind, Random, LISTING_BYTES};

/// Of each kind so many random streams, and so many calls in each. There are
/// fewer of those that are named for far links, self links and huge jumps.
const STREAMS: u64 = 100;
const FEWER_STREAMS: u64 = 25;
const CALLS: usize = 4_000;

/// A stream of calls, with the row of the tally that it is counted in.
struct Stream {
    kind: &'static str,
    name: String,
    calls: Box<dyn Iterator<Item = Call> + Send>,
}

fn main() -> ExitCode {
    let start = Instant::now();
    let seed = run::seed();
    println!("compared with the oracle, seed {seed}");
    let mut dice = Dice::new(seed);
    let mut streams = random_streams(&mut dice);
    streams.extend(built_streams(&mut dice));
    streams.extend(file_streams(&mut dice));

    let mut tally = seen::tally();
    let mut wrong = run::add_up(&mut tally, run::on_all_cores(streams, compare));
    let calls: u64 = tally.seen("stream, calls").iter().sum();
    if calls < 1_000_000 {
        wrong.push("fewer than a million calls".to_string());
    }
    let seconds = start.elapsed().as_secs_f64();
    println!("{calls} calls, each with its whole answer, book and log, in {seconds:.1} s");
    run::verdict(seed, &tally, wrong)
}

/// Puts a stream to both, and gives what its calls were.
fn compare(stream: Stream) -> Result<Tally, String> {
    let mut books = Lockstep::new();
    let mut tally = seen::tally();
    for (place, call) in stream.calls.enumerate() {
        let before = books.history().map(seen::Moment::of);
        let answer = books
            .put(&call)
            .map_err(|difference| format!("{}, call {place}: {difference}", stream.name))?;
        seen::count(&mut tally, before, books.history(), &call, &answer);
        tally.count("stream, calls", stream.kind);
    }
    Ok(tally)
}

fn random_streams(dice: &mut Dice) -> Vec<Stream> {
    let mut streams = Vec::new();
    for (kind, name, count) in [
        (Kind::Few, "few cells", STREAMS),
        (Kind::All, "all cells", STREAMS),
        (Kind::Touching, "touching cells", STREAMS),
        (Kind::FarLinks, "far links", FEWER_STREAMS),
        (Kind::SelfLinks, "self links", FEWER_STREAMS),
        (Kind::HugeJumps, "huge jumps", FEWER_STREAMS),
    ] {
        for place in 0..count {
            let calls = Random::new(dice.bits(), kind).take(CALLS);
            streams.push(Stream {
                kind: name,
                name: format!("random stream {place} of {name}"),
                calls: Box::new(calls),
            });
        }
    }
    streams
}

fn built_streams(dice: &mut Dice) -> Vec<Stream> {
    let kind = |name: &str| {
        let mut kinds = seen::STREAMS.into_iter();
        kinds
            .find(|kind| name.starts_with(kind))
            .expect("a kind of stream")
    };
    built::all(dice.bits())
        .into_iter()
        .map(|(name, calls)| Stream {
            kind: kind(&name),
            name: format!("built stream {name}"),
            calls: Box::new(calls.into_iter()),
        })
        .collect()
}

/// Random files, files at the ends of the lengths, and each field damaged.
fn file_streams(dice: &mut Dice) -> Vec<Stream> {
    let mut streams = Vec::new();
    for place in 0..20 {
        let calls = Files::new(dice.bits()).take(150);
        streams.push(file_stream(format!("random files {place}"), calls));
    }
    let edges = edge_files().into_iter().flat_map(read_and_list);
    streams.push(file_stream("edge files".to_string(), edges));
    let damaged = every_field(dice.bits())
        .into_iter()
        .flat_map(|(_, file)| read_and_list(file));
    streams.push(file_stream("every field damaged".to_string(), damaged));
    streams
}

fn file_stream(name: String, calls: impl Iterator<Item = Call> + Send + 'static) -> Stream {
    Stream {
        kind: "files",
        name,
        calls: Box::new(calls),
    }
}

fn read_and_list(file: Vec<u8>) -> [Call; 2] {
    let list = Call::List {
        file: file.clone(),
        output_bytes: LISTING_BYTES,
    };
    [Call::Read { file }, list]
}
