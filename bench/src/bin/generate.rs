//! generate N LINES SEED [incomplete | column | one-more | stalled | crowded | scans]: a schedule on standard output.

use std::io::Write;
use ticket_bench::generate::{crowded, scans, schedule, stalled, Ending};

fn usage() -> ! {
    eprintln!("generate N LINES SEED [incomplete | column | one-more | stalled | crowded | scans]");
    std::process::exit(2);
}

fn main() -> std::io::Result<()> {
    let arguments: Vec<String> = std::env::args().skip(1).collect();
    let number = |i: usize| arguments.get(i).and_then(|a| a.parse().ok());
    let (Some(n @ 2..=32), Some(lines), Some(seed)) = (number(0), number(1), number(2)) else { usage() };
    let bytes = match arguments.get(3).map(String::as_str) {
        None => schedule(n, lines, seed, Ending::Plain),
        Some("incomplete") => schedule(n, lines, seed, Ending::Incomplete),
        Some("column") => schedule(n, lines, seed, Ending::Column),
        Some("one-more") => schedule(n, lines, seed, Ending::OneMore),
        Some("stalled") => stalled(n, lines, seed),
        Some("crowded") => crowded(n, lines, seed),
        Some("scans") => scans(n, lines, seed),
        Some(_) => usage(),
    };
    std::io::stdout().lock().write_all(&bytes)
}
