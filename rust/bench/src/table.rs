//! Tables as they stand in docs/BENCH.md.

/// A table under its head; all columns but the first so many are numbers.
pub fn print(head: &[&str], words: usize, rows: &[Vec<String>]) {
    let head: Vec<String> = head.iter().map(|cell| cell.to_string()).collect();
    print_row(&head);
    let rule = |column| if column < words { "---" } else { "---:" };
    let rules: Vec<String> = (0..head.len())
        .map(|column| rule(column).to_string())
        .collect();
    print_row(&rules);
    for row in rows {
        print_row(row);
    }
}

fn print_row(cells: &[String]) {
    println!("| {} |", cells.join(" | "));
}

/// A whole number, its thousands parted by commas.
pub fn whole(number: f64) -> String {
    let digits = format!("{number:.0}");
    let mut text = String::new();
    for (place, digit) in digits.chars().enumerate() {
        if place > 0 && (digits.len() - place) % 3 == 0 {
            text.push(',');
        }
        text.push(digit);
    }
    text
}

/// A number to about three digits, as ratios are.
pub fn three_digits(number: f64) -> String {
    if number < 9.995 {
        format!("{number:.2}")
    } else if number < 99.95 {
        format!("{number:.1}")
    } else {
        whole(number)
    }
}
