//! How long a million calls of each kind of random stream take the oracle.
//! `cargo run --release --example million [calls]`

use oracle::Book;
use std::time::Instant;
use streams::{ask, built, Kind, Random};

fn main() {
    let calls = std::env::args()
        .nth(1)
        .map_or(1_000_000, |text| text.parse().expect("a number of calls"));
    for kind in [Kind::Few, Kind::Touching, Kind::All, Kind::Mixed] {
        let start = Instant::now();
        let mut book = Book::new();
        let mut refused = 0u64;
        for call in Random::new(1, kind).take(calls) {
            refused += u64::from(ask(&mut book, &call).number() != 0);
        }
        let seconds = start.elapsed().as_secs_f64();
        println!(
            "{:?}: {} calls, {} refused, {:.1} s",
            kind, calls, refused, seconds
        );
    }
    let start = Instant::now();
    let mut book = Book::new();
    let mut asked = 0;
    for (_, calls) in built::all(1) {
        for call in &calls {
            ask(&mut book, call);
        }
        asked += calls.len();
    }
    let seconds = start.elapsed().as_secs_f64();
    println!("built: {} calls, {:.1} s", asked, seconds);
}
