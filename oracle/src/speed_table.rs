//! How times are printed: a line a call, and the rows of docs/PERFORMANCE.md.

use crate::speed::{Column, Times, FORMATS, SIZES};
use crate::speed_calls::Call;

/// One column, call by call.
pub fn lines(what: &str, calls: &[&Call], column: &Column) {
    println!("{what}");
    for (call, times) in calls.iter().zip(&column.times) {
        let name = call.name.strip_prefix("reconstruction, ").unwrap_or(call.name);
        match times.source {
            Some(theirs) => {
                println!("  {name:24} source 000 {theirs:7.2} µs, port {:7.2} µs, ratio {:.2}", times.port, times.port / theirs)
            }
            None => println!("  {name:24} port {:7.2} µs", times.port),
        }
    }
    println!("  {} runs and {} bins a block", column.counts[0], column.counts[1]);
}

/// Three figures, or all before the point.
fn figure(x: f64) -> String {
    match x {
        _ if x < 10.0 => format!("{x:.2}"),
        _ if x < 100.0 => format!("{x:.1}"),
        _ => format!("{x:.0}"),
    }
}

/// Source 000's and the port's, or the port's alone.
fn pair(source: Option<f64>, port: f64, told: impl Fn(f64) -> String) -> String {
    source.map_or_else(|| told(port), |source| format!("{} / {}", told(source), told(port)))
}

fn speed(call: &Call, column: &Column, times: &Times) -> String {
    let cells = call.cells(column.size);
    let rates = pair(times.source, times.port, |time| figure(cells / time));
    match times.source {
        Some(theirs) => format!("{rates}, {:.2}", times.port / theirs),
        None => rates,
    }
}

/// What a cell takes in the last column over what it takes in the first.
fn growth(call: &Call, k: usize, columns: &[Column]) -> String {
    let (small, large) = (&columns[0], &columns[columns.len() - 1]);
    let more = call.cells(large.size) / call.cells(small.size);
    let (one, other) = (&small.times[k], &large.times[k]);
    let source = one.source.zip(other.source).map(|(one, other)| other / one / more);
    pair(source, other.port / one.port / more, |growth| format!("{growth:.2}"))
}

fn row(cells: impl IntoIterator<Item = String>) {
    println!("| {} |", cells.into_iter().collect::<Vec<String>>().join(" | "));
}

/// A kind's columns, of each format the sizes in order.
pub fn print(kind: &str, calls: &[&Call], columns: &[Column]) {
    let formats = || columns.chunks(SIZES.len());
    let heads = FORMATS.iter().flat_map(|(_, name)| SIZES.iter().map(move |size| format!("{name}, {size}")).chain(["growth".into()]));
    let heads: Vec<String> = [kind.to_string()].into_iter().chain(heads).collect();
    let rule = format!("|{}", "---|".repeat(heads.len()));
    row(heads);
    println!("{rule}");
    for (k, call) in calls.iter().enumerate() {
        let cells =
            formats().flat_map(|sizes| sizes.iter().map(|column| speed(call, column, &column.times[k])).chain([growth(call, k, sizes)]));
        row([call.name.to_string()].into_iter().chain(cells));
    }
    let counts = |column: &Column| column.counts.map(|count| count.to_string()).join(", ");
    let cells = formats().flat_map(|sizes| sizes.iter().map(counts).chain([String::new()]));
    row(["runs, bins, escapes a block".to_string()].into_iter().chain(cells));
    println!();
}
