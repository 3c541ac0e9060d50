//! Times. All take turns in several rounds, and of each batch of a workload the least time counts. What other programs do to
//! one round then hardly shows.

use crate::any_book::AnyBook;
use crate::clocks::taken;
use crate::contenders::Contender;
use crate::workload::{Calls, Kind, Workload};
use kerb::CHAIN_PLACES;
use std::hint::black_box;
use std::time::{Duration, Instant};

/// Plays a workload into a book of its own, and lowers the least time of each batch. Opening alone clears the log, and is not
/// timed; the chain buffer is lent to call after call and never cleared.
pub fn play<C: AnyBook>(workload: &Workload, least: &mut [u64]) {
    let mut book = C::opened(workload.settings);
    let mut lent = [0; CHAIN_PLACES];
    for (batch, least) in workload.batches.iter().zip(least) {
        let taken = taken(|| call(&mut book, &batch.calls, &mut lent));
        *least = taken.min(*least);
    }
}

fn call<C: AnyBook>(book: &mut C, calls: &Calls, lent: &mut [u16]) {
    match calls {
        Calls::Clock(tick) => {
            black_box(book.clock(black_box(*tick)));
        }
        Calls::Links(tick, pairs) => {
            for &(one, other) in pairs {
                black_box(book.link(black_box(*tick), black_box(one), black_box(other)));
            }
        }
        Calls::Joined(pairs) => {
            for &(one, other) in pairs {
                black_box(book.joined(black_box(one), black_box(other)));
            }
        }
        Calls::Chains(pairs) if C::FINDS_CHAINS => {
            for &(one, other) in pairs {
                black_box(book.chain(black_box(one), black_box(other), lent));
                black_box(&lent);
            }
        }
        Calls::Chains(_) => {}
        Calls::Lamps(masks) => {
            for mask in masks {
                black_box(book.lamps(black_box(mask)));
            }
        }
    }
}

/// Rounds over all workloads, in which all contenders take turns.
const ROUNDS: usize = 9;
/// A short workload is played again and again for so long in each round.
const TURN: Duration = Duration::from_millis(50);

/// The least time of each batch, by workload and contender. A round goes over all workloads, so that a slow spell of the machine
/// does not fall on one of them alone.
pub fn least_times(workloads: &[Workload], contenders: &[Contender]) -> Vec<Vec<Vec<u64>>> {
    let unknown = |workload: &Workload| vec![u64::MAX; workload.batches.len()];
    let mut least: Vec<Vec<Vec<u64>>> = workloads
        .iter()
        .map(|workload| vec![unknown(workload); contenders.len()])
        .collect();
    for _ in 0..ROUNDS {
        for (workload, least) in workloads.iter().zip(&mut least) {
            take_turns(workload, contenders, least);
        }
    }
    least
}

fn take_turns(workload: &Workload, contenders: &[Contender], least: &mut [Vec<u64>]) {
    let start = Instant::now();
    loop {
        for (contender, least) in contenders.iter().zip(&mut *least) {
            (contender.play)(workload, least);
        }
        if TURN <= start.elapsed() {
            return;
        }
    }
}

/// Nanoseconds a call of one kind, if the workload has such calls.
pub fn per_call(workload: &Workload, least: &[u64], kind: Kind) -> Option<f64> {
    let (mut calls, mut taken) = (0, 0);
    for (batch, least) in workload.batches.iter().zip(least) {
        if batch.kind == Some(kind) {
            calls += batch.count();
            taken += least;
        }
    }
    (calls > 0).then(|| taken as f64 / calls as f64)
}
