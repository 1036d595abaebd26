//! Logs in plain Rust, written from documents 01 and 02 (Card 7) and not from the Rattle code: a schedule file, the numbers that its snaps were given, and
//! the report lines of its scans. Files are read as `numbers` does, and run on the table of `unbounded`.

use crate::numbers::{print as print_numbers, Reading, NUMBER_LINE};
use crate::plain::{column, MAX_STATIONS, REPORT_LINE};
use crate::unbounded::Table;
use std::fs::{self, File};
use std::io::{self, Write};
use std::path::Path;

/// Whether the numbers and the report are those of the unbounded table, or the refusal of the schedule.
pub fn check(schedule: &[u8], numbers: &[u64], report: &[u8]) -> Result<bool, u64> {
    Reading::of(schedule).map(|reading| is_right(&reading, numbers, report))
}

fn is_right(reading: &Reading, numbers: &[u64], mut report: &[u8]) -> bool {
    let mut table = Table::fresh(reading.table.n);
    let mut numbers = numbers.iter();
    let mut lines = [0; MAX_STATIONS * REPORT_LINE];
    for (line, &step) in (2..).zip(&reading.steps) {
        let Ok(served) = table.serve(line, step, &mut numbers.by_ref().copied(), &mut lines) else { return false };
        // A refused step has no line in a log.
        let Some(rest) = report.strip_prefix(&lines[..served.unwrap_or(0)]) else { return false };
        report = rest;
    }
    report.is_empty() && numbers.len() == 0
}

/// The same of a log whose numbers are in a file.
pub fn check_file(schedule: &[u8], numbers: &[u8], report: &[u8]) -> Result<bool, u64> {
    Reading::of(schedule).map(|reading| has_right_file(&reading, numbers, report))
}

fn has_right_file(reading: &Reading, numbers: &[u8], report: &[u8]) -> bool {
    read_numbers(numbers).is_some_and(|numbers| is_right(reading, &numbers, report))
}

/// A right log: the numbers and the report of a schedule, if it is not refused. A snap by another station than the newest gets what `above` makes of the top
/// number.
pub fn draw(schedule: &[u8], mut above: impl FnMut(u32) -> u32) -> Result<(Vec<u64>, Vec<u8>), u64> {
    let reading = Reading::of(schedule)?;
    let mut table = Table::fresh(reading.table.n);
    let (mut numbers, mut report) = (Vec::new(), Vec::new());
    let mut lines = [0; MAX_STATIONS * REPORT_LINE];
    for (line, &step) in (2..).zip(&reading.steps) {
        let (newest, top) = table.top();
        let number = if step.0 == newest { 0 } else { above(top) };
        let mut given = Some(number.into()).into_iter();
        let served = table.serve(line, step, &mut given, &mut lines).expect("a number above the top");
        numbers.extend(given.next().is_none().then_some(u64::from(number)));
        report.extend_from_slice(&lines[..served.unwrap_or(0)]);
    }
    Ok((numbers, report))
}

/// The numbers of a file that holds each on a line of its own, as they are printed.
pub fn read_numbers(file: &[u8]) -> Option<Vec<u64>> {
    let (lines, rest) = file.as_chunks::<NUMBER_LINE>();
    let number = |line: &[u8; NUMBER_LINE]| match line {
        [digits @ .., b'\n'] => column(digits).ok(),
        _ => None,
    };
    rest.is_empty().then(|| lines.iter().map(number).collect())?
}

/// What the program prints.
pub fn print(answer: Result<bool, u64>) -> Vec<u8> {
    match answer {
        Ok(true) => b"yes\n".to_vec(),
        Ok(false) => b"no\n".to_vec(),
        Err(number) => print_numbers(number, &[]),
    }
}

/// The program.
pub fn run([schedule, numbers, report]: [&Path; 3], output: &mut impl Write) -> io::Result<()> {
    let named = |path: &Path, error: io::Error| io::Error::new(error.kind(), format!("{}: {error}", path.display()));
    let read = |path| fs::read(path).map_err(|error| named(path, error));
    let reading = File::open(schedule).and_then(|mut file| Reading::of_input(&mut file)).map_err(|error| named(schedule, error))?;
    let (numbers, report) = (read(numbers)?, read(report)?);
    output.write_all(&print(reading.map(|reading| has_right_file(&reading, &numbers, &report))))?;
    output.flush()
}
