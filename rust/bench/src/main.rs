//! The benchmark: the library against baselines, everyone in turns in one run. It is a report and no test: nothing fails by time.
//! The head of docs/BENCH.md says what it measures. With the word `stack` it prints the stack of each call alone. With the name
//! of a contender and that of a workload it only plays the one into the other, for callgrind.

mod agreement;
mod any_book;
mod cells;
mod clocks;
mod components;
mod contenders;
mod library;
mod machine;
mod neighbours;
mod peer;
mod report;
mod scenes;
mod script;
mod search;
mod stack;
mod stacks;
mod table;
mod timing;
mod whole_files;
mod window;
mod workload;

use contenders::Contender;
use scenes::{deep_crossing, dense, file, lidar, long_chain, mirrored};
use workload::Workload;

fn main() {
    let words: Vec<String> = std::env::args().skip(1).collect();
    match words.as_slice() {
        [] => report(&contenders::all(), &workloads()),
        [word] if word == "stack" => report::print_stacks(),
        [contender, workload] => play(contender, workload),
        _ => panic!("no words, or stack, or a contender and the first word of a workload"),
    }
}

fn workloads() -> [Workload; 4] {
    [
        lidar(8, 80),
        dense(16, 256),
        long_chain(1024),
        deep_crossing(1024),
    ]
}

/// One contender plays one workload.
fn play(contender: &str, workload: &str) {
    let contenders = contenders::all();
    let workloads = workloads();
    let contender = contenders.iter().find(|one| one.name == contender);
    let workload = workloads.iter().find(|one| one.name.starts_with(workload));
    let workload = workload.expect("a workload");
    let mut least = vec![u64::MAX; workload.batches.len()];
    (contender.expect("a contender").play)(workload, &mut least);
}

fn report(contenders: &[Contender], workloads: &[Workload]) {
    print_head(contenders);
    let file_of_dense = dense(16, 250);
    let files = [
        ("lidar, 8,000 records", file(&workloads[0], 8_000)),
        ("dense, 8,000 records", file(&file_of_dense, 8_000)),
    ];
    report::compare(contenders, workloads);
    agreement::check_texts();
    println!("\n## The peer of each call\n");
    report::print_methods();
    println!("\n## The library's time over that of each baseline\n");
    report::print_ratios(contenders, workloads, &files);

    let growing = growing();
    report::compare(contenders, &growing);
    println!("\n## Growth: the library's nanoseconds a call (and over (a))\n");
    report::print_growth(contenders, &growing);
    println!();
    let files = [
        ("dense, 1,000 records", file(&file_of_dense, 1_000)),
        ("dense, 2,000 records", file(&file_of_dense, 2_000)),
        ("dense, 4,000 records", file(&file_of_dense, 4_000)),
        ("dense, 8,000 records", file(&file_of_dense, 8_000)),
    ];
    report::print_file_growth(&files);

    println!("\n## Cells of a mirrored unit\n");
    report::print_cells();
    println!();
    let mirrored = [mirrored(lidar(8, 80))];
    report::compare(contenders, &mirrored);
    report::print_ratios(contenders, &mirrored, &[]);

    println!("\n## Stack of each call\n");
    report::print_stacks();
}

/// Where it runs, how it measures, and who is compared.
fn print_head(contenders: &[Contender]) {
    machine::print();
    println!("times: the least of several rounds in which all take turns, batch by batch of calls");
    println!("log: cleared by opening alone, which is not timed");
    println!("chain buffer, outputs of whole files: lent to call after call, not cleared");
    for contender in contenders {
        println!("{}: {}", contender.name, contender.what);
    }
}

/// n from 1 to 16, links of a slide from 16 to 256, chains and crossings from 128 cells to all.
fn growing() -> Vec<Workload> {
    let mut workloads = Vec::new();
    workloads.extend([1, 2, 4, 8, 16].map(|n| dense(n, 256)));
    workloads.extend([16, 64, 128].map(|links| dense(16, links)));
    workloads.extend([128, 256, 512, 1024].map(long_chain));
    workloads.extend([128, 256, 512, 1024].map(deep_crossing));
    workloads
}
