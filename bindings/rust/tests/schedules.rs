//! Whole schedules: those of tests/ and examples/ that have a report, and one at its limit, in buffers of all lengths. What ended a file is read off the
//! report that it must give.

use std::fs;
use std::path::Path;
use ticket_bench::generate::{schedule, Ending};
use ticket_bench::plain;
use ticket_bench::reports::final_refusal;
use tickets::{refusal, Refusal, Reported, REPORT_LINE};

const GUARD: usize = 64;

/// Runs a file in a buffer of that length, in the midst of bytes that the call may not touch.
fn check_buffer(schedule: &[u8], report: &[u8], len: usize) {
    let untouched: Vec<u8> = (0..GUARD + len + GUARD).map(|i| i as u8 ^ 0x33).collect();
    let mut buffer = untouched.clone();
    let answer = tickets::report_into(schedule, &mut buffer[GUARD..GUARD + len]);
    let mut expected = untouched;
    let (refusal, written) = if len < report.len() {
        (refusal::SHORT_REPORT, 0)
    } else {
        expected[GUARD..GUARD + report.len()].copy_from_slice(report);
        (0, report.len() as u64)
    };
    let expected_answer = Reported { refusal, ended: final_refusal(report), written, length: report.len() as u64 };
    assert_eq!(answer, expected_answer, "a buffer of {len} bytes");
    assert!(buffer == expected, "a buffer of {len} bytes");
}

/// Runs a file in room for any report, and in buffers around the length of its own. What ended it is returned.
fn check(schedule: &[u8], report: &[u8]) -> Refusal {
    let ended = final_refusal(report);
    assert!(tickets::report(schedule) == (report.to_vec(), ended));
    let exact = report.len();
    if exact < 600 {
        (0..=exact + REPORT_LINE).for_each(|len| check_buffer(schedule, report, len));
    }
    for len in [0, 1, exact / 2, exact.saturating_sub(REPORT_LINE), exact.saturating_sub(1), exact, exact + 1, exact + 928, 2 * exact + 10_000] {
        check_buffer(schedule, report, len);
    }
    ended
}

/// Runs the vectors of a folder, and counts them by what ended them.
fn run(folder: &Path, counts: &mut [usize; 14]) {
    for entry in fs::read_dir(folder).expect("the folder of vectors") {
        let path = entry.expect("an entry").path();
        if path.extension().is_some_and(|e| e == "in") {
            println!("{}", path.display());
            let schedule = fs::read(&path).expect("a schedule");
            let report = fs::read(path.with_extension("out")).expect("its report");
            counts[check(&schedule, &report) as usize] += 1;
        }
    }
}

#[test]
fn vectors() {
    let root = Path::new(env!("CARGO_MANIFEST_DIR")).join("../..");
    let mut counts = [0; 14];
    ["tests/outside", "tests/own", "examples"].iter().for_each(|folder| run(&root.join(folder), &mut counts));
    assert!(counts.iter().sum::<usize>() >= 270, "{counts:?}");
    assert!([0, 1, 8, 9, 10, 11].iter().all(|&number| counts[number] > 0), "{counts:?}");
}

#[test]
fn no_bytes() {
    assert_eq!(tickets::report(b""), (b"       1  8  0  0          0\n".to_vec(), refusal::INCOMPLETE));
}

#[test]
fn no_report() {
    for len in [0, 1, 29] {
        check_buffer(b"  2  0          0\n", b"", len);
    }
}

#[test]
fn too_many_lines() {
    let schedule = schedule(3, 1_000_000, 1, Ending::OneMore);
    let mut report = Vec::new();
    plain::run(&mut &schedule[..], &mut report).unwrap();
    assert_eq!(check(&schedule, &report), refusal::TOO_MANY);
}
