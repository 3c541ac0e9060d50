//! What the runs share: the seed, the cores, the verdict.

use crate::tally::Tally;
use std::process::ExitCode;
use std::sync::Mutex;
use std::thread;

/// The seed of a run: the environment's KERB_SEED, or else a fixed one.
pub fn seed() -> u64 {
    match std::env::var("KERB_SEED") {
        Ok(text) => text.parse().expect("KERB_SEED is a number"),
        Err(_) => 240_606_754,
    }
}

/// Does all jobs, on all cores; gives what they gave, in the order of the jobs.
pub fn on_all_cores<J: Send, R: Send>(jobs: Vec<J>, work: impl Fn(J) -> R + Sync) -> Vec<R> {
    let cores = thread::available_parallelism().map_or(1, |cores| cores.get());
    let queue = Mutex::new(jobs.into_iter().enumerate());
    let next = || queue.lock().expect("a queue that no one broke").next();
    let worker = || {
        let mut done = Vec::new();
        while let Some((place, job)) = next() {
            done.push((place, work(job)));
        }
        done
    };
    let mut done: Vec<(usize, R)> = thread::scope(|scope| {
        let workers: Vec<_> = (0..cores).map(|_| scope.spawn(worker)).collect();
        let all = workers.into_iter();
        all.flat_map(|worker| worker.join().expect("a worker that did not panic"))
            .collect()
    });
    done.sort_by_key(|of| of.0);
    done.into_iter().map(|of| of.1).collect()
}

/// Adds up what the jobs saw; gives what was wrong with the others.
pub fn add_up(tally: &mut Tally, results: Vec<Result<Tally, String>>) -> Vec<String> {
    let mut wrong = Vec::new();
    for result in results {
        match result {
            Ok(seen) => tally.add(&seen),
            Err(difference) => wrong.push(difference),
        }
    }
    wrong
}

/// Prints what a run saw and what was wrong, and says whether it has passed: it
/// has where nothing was wrong and no class stayed empty.
pub fn verdict(seed: u64, tally: &Tally, mut wrong: Vec<String>) -> ExitCode {
    print!("{tally}");
    if wrong.is_empty() {
        let never_seen = |class| format!("never seen: {class}");
        wrong = tally.empty().into_iter().map(never_seen).collect();
    }
    for text in wrong.iter().take(5) {
        println!("WRONG, seed {seed}: {text}");
    }
    if wrong.len() > 5 {
        println!("WRONG: {} more", wrong.len() - 5);
    }
    if wrong.is_empty() {
        ExitCode::SUCCESS
    } else {
        ExitCode::FAILURE
    }
}
