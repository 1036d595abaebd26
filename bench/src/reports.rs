//! What a report says of its file.

use crate::plain::{refusal, REPORT_LINE};

/// Line number and refusal of a report line.
pub fn numbers(line: &[u8; REPORT_LINE]) -> (u64, u64) {
    let number = |column: &[u8]| column.iter().filter(|b| b.is_ascii_digit()).fold(0, |number, b| number * 10 + u64::from(b - b'0'));
    (number(&line[..8]), number(&line[8..11]))
}

/// The refusal that ended the file, 0 if it was read to its end: every refusal of the header does, and of step lines 8, 9 and 12.
pub fn final_refusal(report: &[u8]) -> u64 {
    match report.last_chunk().map(numbers) {
        Some((1, number)) => number,
        Some((_, number @ (refusal::INCOMPLETE | refusal::COLUMN | refusal::TOO_MANY))) => number,
        _ => 0,
    }
}

/// The lines of scans, without those of refusals: what a log has of a report.
pub fn scans(report: &[u8]) -> Vec<u8> {
    report.as_chunks().0.iter().filter(|line| numbers(line).1 == 0).flatten().copied().collect()
}
