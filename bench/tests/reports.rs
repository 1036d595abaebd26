//! What ended a file, read off its report, and a report without its refusals.

use ticket_bench::generate::{schedule, Ending};
use ticket_bench::plain::run;
use ticket_bench::reports::{final_refusal, scans};

fn ended_by(mut schedule: &[u8]) -> u64 {
    let mut report = Vec::new();
    run(&mut schedule, &mut report).unwrap();
    final_refusal(&report)
}

#[test]
fn headers() {
    let headers: [(&[u8], u64); 8] = [
        (b"", 8),
        (b" 33 01", 8),
        (b"  2  0          0", 8),
        (b"  2  0         00\n", 9),
        (b" 33  1          1\n", 10),
        (b" 33  0          1\n", 1),
        (b"  2  0          1\n", 11),
        (b"  2  0          0\n", 0),
    ];
    for (bytes, number) in headers {
        assert_eq!(ended_by(bytes), number, "{}", bytes.escape_ascii());
    }
}

#[test]
fn step_lines() {
    let lines: [(&[u8], u64); 12] = [
        (b"  3  1          1\n", 0),
        (b"  1  3          0\n", 0),
        (b"  1  4          0\n", 0),
        (b"  1  5          0\n", 0),
        (b"  1  0          0\n", 0),
        (b"  1  1          0\n", 0),
        (b"  1  2          0\n", 0),
        (b"  1  6          0\n", 0),
        (b"  1  6          0\n  1  2          0\n", 0),
        (b"  1  7          0\n", 0),
        (b"  1  1", 8),
        (b"  1 01          1\n", 9),
    ];
    for (bytes, number) in lines {
        assert_eq!(ended_by(&[b"  2  0          0\n", bytes].concat()), number, "{}", bytes.escape_ascii());
    }
    for (lines, ending, number) in
        [(500, Ending::Plain, 0), (500, Ending::Incomplete, 8), (500, Ending::Column, 9), (500, Ending::OneMore, 0), (1_000_000, Ending::OneMore, 12)]
    {
        assert_eq!(ended_by(&schedule(2, lines, 1, ending)), number, "{lines} lines, {ending:?}");
    }
}

#[test]
fn refusals_struck_out() {
    let lines =
        ["       6  0  1  1         70\n", "       7  4  0  0          0\n", "      10 10  0  0          0\n", "      11  0  1  2          9\n"];
    assert_eq!(scans(lines.concat().as_bytes()), [lines[0], lines[3]].concat().into_bytes());
    assert_eq!(scans(lines[1].as_bytes()), b"");
    assert_eq!(scans(b""), b"");
}
