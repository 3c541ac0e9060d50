//! What is measured for each table, and its rows.

use crate::cells;
use crate::contenders::{Contender, METHODS};
use crate::stack::LEAST;
use crate::stacks;
use crate::table::{print, three_digits, whole};
use crate::timing::{least_times, per_call};
use crate::whole_files::{text_of, Named, WHOLES};
use crate::workload::{Kind, Workload, KINDS};

/// Nanoseconds a call, for each contender that has such a call; the library comes first and (a) second.
type Times = Vec<Option<f64>>;

/// A workload that everyone has played.
struct Measured<'a> {
    contenders: &'a [Contender],
    workload: &'a Workload,
    least: Vec<Vec<u64>>,
}

/// Everyone plays all workloads.
fn measure<'a>(contenders: &'a [Contender], workloads: &'a [Workload]) -> Vec<Measured<'a>> {
    let least = least_times(workloads, contenders);
    let workloads = workloads.iter().zip(least);
    workloads
        .map(|(workload, least)| Measured {
            contenders,
            workload,
            least,
        })
        .collect()
}

impl Measured<'_> {
    /// Times of the calls of one kind, as far as the workload has such calls.
    fn times(&self, kind: Kind) -> Times {
        let contenders = self.contenders.iter().zip(&self.least);
        contenders
            .map(|(contender, least)| {
                let time = per_call(self.workload, least, kind);
                time.filter(|_| contender.kinds.contains(&kind))
            })
            .collect()
    }
}

/// By which method the peer makes each call.
pub fn print_methods() {
    let row = |&(call, method): &(&str, &str)| vec![call.to_string(), method.to_string()];
    let rows: Vec<Vec<String>> = METHODS.iter().map(row).collect();
    print(&["call", "the peer's method"], 2, &rows);
}

/// Stops where someone's answers differ from the library's.
pub fn compare(contenders: &[Contender], workloads: &[Workload]) {
    for workload in workloads {
        for contender in &contenders[1..] {
            (contender.check)(workload, contender.name);
        }
    }
}

/// The library's time over everyone else's, on workloads and on whole files.
pub fn print_ratios(contenders: &[Contender], workloads: &[Workload], files: &[Named]) {
    let mut rows = Vec::new();
    for measured in measure(contenders, workloads) {
        let name = &measured.workload.name;
        for kind in KINDS {
            let times = measured.times(kind);
            rows.extend(ratio_row(contenders, name, kind.name(), &times));
        }
        let links = measured.times(Kind::Link);
        let both = links.iter().zip(measured.times(Kind::Joined));
        let both: Times = both
            .map(|(link, joined)| Some((*link)? + joined?))
            .collect();
        rows.extend(ratio_row(contenders, name, "link and joined, sum", &both));
    }
    for whole in WHOLES {
        for ((name, _), times) in files.iter().zip(whole.times(files)) {
            rows.extend(ratio_row(contenders, name, whole.name, &times));
        }
    }
    let mut head = vec!["workload", "call", "library, ns"];
    head.extend(contenders[1..].iter().map(|contender| contender.name));
    head.push("quickest");
    print(&head, 2, &rows);
}

/// A row of the ratios, if the workload has such calls.
fn ratio_row(
    contenders: &[Contender],
    workload: &str,
    call: &str,
    times: &[Option<f64>],
) -> Option<Vec<String>> {
    let library = times[0]?;
    let mut row = vec![workload.to_string(), call.to_string(), whole(library)];
    for time in &times[1..] {
        row.push(time.map_or("-".to_string(), |time| three_digits(library / time)));
    }
    row.push(quickest(contenders, times).to_string());
    Some(row)
}

fn quickest(contenders: &[Contender], times: &[Option<f64>]) -> &'static str {
    let mut best = (f64::INFINITY, "");
    for (contender, time) in contenders.iter().zip(times) {
        if let Some(time) = *time {
            if time < best.0 {
                best = (time, contender.name);
            }
        }
    }
    best.1
}

/// The library's times on workloads that grow, each with its ratio to (a).
pub fn print_growth(contenders: &[Contender], workloads: &[Workload]) {
    let mut rows = Vec::new();
    for measured in measure(&contenders[..2], workloads) {
        let mut row = vec![measured.workload.name.clone()];
        row.extend(KINDS.iter().map(|&kind| growth_cell(&measured.times(kind))));
        rows.push(row);
    }
    let mut head = vec!["workload"];
    head.extend(KINDS.iter().map(|kind| kind.name()));
    print(&head, 1, &rows);
}

/// The same for whole files.
pub fn print_file_growth(files: &[Named]) {
    let bytes = |file: &[u8]| whole(text_of(file).len() as f64);
    let mut rows: Vec<Vec<String>> = files
        .iter()
        .map(|(name, file)| vec![name.to_string(), bytes(file)])
        .collect();
    let mut head = vec!["file", "bytes of text"];
    for whole in WHOLES {
        for (row, times) in rows.iter_mut().zip(whole.times(files)) {
            row.push(growth_cell(&times));
        }
        head.push(whole.name);
    }
    print(&head, 1, &rows);
}

fn growth_cell(times: &[Option<f64>]) -> String {
    match (times[0], times[1]) {
        (Some(library), Some(same)) => {
            format!("{} ({})", whole(library), three_digits(library / same))
        }
        _ => "-".to_string(),
    }
}

/// The call for one cell of a mirrored unit: the library's time over everyone else's.
pub fn print_cells() {
    let times = cells::times();
    let (library, others) = (times[0].1, &times[1..]);
    let mut head = vec!["call", "library, ns"];
    let mut row = vec!["lorry_cell, mirrored".to_string(), three_digits(library)];
    for (name, time) in others {
        head.push(name);
        row.push(three_digits(library / time));
    }
    print(&head, 1, &[row]);
}

pub fn print_stacks() {
    let row = |&(call, bytes): &stacks::Stack| {
        let bytes = if bytes <= LEAST {
            format!("at most {LEAST}")
        } else {
            whole(bytes as f64)
        };
        vec![call.to_string(), bytes]
    };
    let rows: Vec<Vec<String>> = stacks::measured().iter().map(row).collect();
    print(&["call", "stack, bytes"], 1, &rows);
}

#[cfg(test)]
mod tests {
    use crate::contenders;
    use crate::scenes::{deep_crossing, dense, lidar, long_chain, mirrored};

    #[test]
    fn all_give_the_answers_of_the_library() {
        let workloads = [
            lidar(3, 20),
            mirrored(lidar(3, 20)),
            dense(1, 40),
            dense(4, 256),
            long_chain(300),
            deep_crossing(1024),
        ];
        super::compare(&contenders::all(), &workloads);
        crate::agreement::check_texts();
    }
}
