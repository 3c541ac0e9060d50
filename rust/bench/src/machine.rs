//! Where and when the benchmark ran, for the head of its report.

use std::fs::read_to_string;
use std::process::Command;

pub fn print() {
    println!("machine: {}", processor());
    println!("load before the run (1, 5, 15 minutes): {}", load());
    println!(
        "compiler of the baselines: {}",
        said(&["rustc", "--version"])
    );
    println!("kit of the library: {}", said(&["rt", "version"]));
    println!("date: {}", said(&["date", "-u", "+%Y-%m-%d %H:%M UTC"]));
}

/// The processor's name and the number of cores.
fn processor() -> String {
    let text = read_to_string("/proc/cpuinfo").unwrap_or_default();
    let names = text
        .lines()
        .filter_map(|line| line.strip_prefix("model name\t: "));
    let names: Vec<&str> = names.collect();
    format!(
        "{}, {} cores",
        names.first().unwrap_or(&"unknown"),
        names.len()
    )
}

fn load() -> String {
    let text = read_to_string("/proc/loadavg").unwrap_or_default();
    let three: Vec<&str> = text.split(' ').take(3).collect();
    three.join(" ")
}

/// What a command says.
fn said(words: &[&str]) -> String {
    match Command::new(words[0]).args(&words[1..]).output() {
        Ok(output) => String::from_utf8_lossy(&output.stdout).trim().to_string(),
        Err(_) => "unknown".to_string(),
    }
}
