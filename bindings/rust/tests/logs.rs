//! Whole logs, right and wrong, against the plain Rust routine.

use std::fs;
use std::path::Path;
use ticket_bench::generate::{crowded, scans, schedule, stalled, Ending, Random};
use ticket_bench::logs::{check, draw, read_numbers};
use ticket_bench::numbers::numbers;
use ticket_bench::{plain, reports};
use tickets::{check_log, refusal, verdict, Verdict, MAX_STEPS, REPORT_LINE};

const LARGEST: u64 = u32::MAX as u64;

/// Stations 2 and 3 take labels. Then 1 and 2 snap before either updates, and the label of 2 is below that of 1.
const CROSSING: &[u8] = b"  3  0          0
  2  1         70
  2  3          0
  2  4          0
  2  5          0
  3  1         71
  3  3          0
  3  4          0
  3  5          0
  1  1         72
  1  3          0
  2  1         73
  2  3          0
  1  4          0
  2  4          0
  3  2          0
  3  5          0
";
const BY_LABELS: &[u8] = b"      17  0  1  3         71
      17  0  2  2         73
      17  0  3  1         72
";
const BY_STATIONS: &[u8] = b"      17  0  1  3         71
      17  0  2  1         72
      17  0  3  2         73
";

/// What plain Rust says of a log, in both forms, and that the log is left as it is. The answer is returned.
#[track_caller]
fn check_both(schedule: &[u8], numbers: &[u64], report: &[u8]) -> Result<bool, u64> {
    let before = (schedule.to_vec(), numbers.to_vec(), report.to_vec());
    let expected = check(schedule, numbers, report);
    let answer = verdict(schedule, numbers, report);
    assert_eq!(answer, Verdict { refusal: expected.err().unwrap_or(0), right: u64::from(expected == Ok(true)) });
    assert_eq!(check_log(schedule, numbers, report), expected);
    assert!((schedule, numbers, report) == (&before.0, &before.1, &before.2), "something is written");
    expected
}

/// The numbers of a schedule and its report without the refusals.
fn log(schedule: &[u8]) -> (Vec<u64>, Vec<u8>) {
    let mut list = [0; MAX_STEPS];
    let (refusal, count) = numbers(schedule, &mut list);
    assert_eq!(refusal, 0);
    let mut report = Vec::new();
    plain::run(&mut &schedule[..], &mut report).expect("a report");
    (list[..count].iter().map(|&number| number.into()).collect(), reports::scans(&report))
}

#[test]
fn the_order_of_the_numbers() {
    for (numbers, by_labels) in [([1, 2, 4, 3], true), ([1, 2, 3, 3], false), ([1, 2, 3, 4], false), ([5, 70, LARGEST, 71], true)] {
        assert_eq!(check_log(CROSSING, &numbers, BY_LABELS), Ok(by_labels), "{numbers:?}");
        assert_eq!(check_log(CROSSING, &numbers, BY_STATIONS), Ok(!by_labels), "{numbers:?}");
    }
    assert_eq!(verdict(CROSSING, &[1, 2, 4, 3], BY_LABELS), Verdict { refusal: 0, right: 1 });
    assert_eq!(verdict(CROSSING, &[1, 2, 4, 3], BY_STATIONS), Verdict { refusal: 0, right: 0 });
    assert_eq!(verdict(&CROSSING[1..], &[1, 2, 4, 3], BY_LABELS), Verdict { refusal: refusal::INCOMPLETE, right: 0 });
}

#[test]
fn numbers_out_of_range() {
    for number in [0, 1, 2, 3, 4, LARGEST - 1, LARGEST, LARGEST + 1, LARGEST + 5, 99_999_999_999, 1 << 63, u64::MAX] {
        for at in 0..4 {
            let mut numbers = [1, 2, 4, 3];
            numbers[at] = number;
            let right = check_both(CROSSING, &numbers, BY_LABELS).expect("no refusal");
            assert!(!right || number <= LARGEST, "{numbers:?}");
        }
    }
    assert_eq!(check_both(CROSSING, &[1, 2, LARGEST, 3], BY_LABELS), Ok(true));
    assert_eq!(check_both(CROSSING, &[1, 2, LARGEST + 1, 3], BY_LABELS), Ok(false));
    for numbers in [&[][..], &[1, 2, 4], &[1, 2, 4, 3, 5], &[1, 2, 4, 3, 0], &[1; 10_000]] {
        assert_eq!(check_both(CROSSING, numbers, BY_LABELS), Ok(false), "{} numbers", numbers.len());
    }
}

#[test]
fn every_byte_of_a_report() {
    for at in 0..BY_LABELS.len() {
        for other in [BY_LABELS[at] ^ 1, BY_LABELS[at] ^ 128, b' ', b'0', b'\n'] {
            let mut report = BY_LABELS.to_vec();
            report[at] = other;
            assert_eq!(check_both(CROSSING, &[1, 2, 4, 3], &report), Ok(report == BY_LABELS), "byte {at}: {other}");
        }
        assert_eq!(check_both(CROSSING, &[1, 2, 4, 3], &BY_LABELS[..at]), Ok(false), "{at} bytes");
    }
    for more in [&b"\n"[..], b" ", b"\0", BY_LABELS] {
        assert_eq!(check_both(CROSSING, &[1, 2, 4, 3], &[BY_LABELS, more].concat()), Ok(false));
        assert_eq!(check_both(CROSSING, &[1, 2, 4, 3], &[more, BY_LABELS].concat()), Ok(false));
    }
}

/// Logs of a folder by what is answered: yes, no, refused. A file of numbers that cannot be read is none for the library.
fn run(folder: &str) -> [usize; 3] {
    let mut counts = [0; 3];
    for entry in fs::read_dir(Path::new(env!("CARGO_MANIFEST_DIR")).join("../../tests").join(folder)).expect("the folder of logs") {
        let path = entry.expect("an entry").path();
        if path.extension().is_some_and(|e| e == "schedule") {
            let [schedule, list, report, expected] =
                ["schedule", "numbers", "report", "out"].map(|part| fs::read(path.with_extension(part)).expect("a part"));
            if let Some(list) = read_numbers(&list) {
                println!("{}", path.display());
                let (printed, at) = match check_both(&schedule, &list, &report) {
                    Ok(true) => ("yes\n".to_string(), 0),
                    Ok(false) => ("no\n".to_string(), 1),
                    Err(number) => (format!("       0{number:3}  0  0          0\n"), 2),
                };
                assert_eq!(printed.as_bytes(), expected);
                counts[at] += 1;
            }
        }
    }
    counts
}

#[test]
fn vectors() {
    let [yes, no, refused] = run("own-logs");
    assert!(yes >= 30 && no >= 25 && refused >= 5, "{yes} {no} {refused}");
    assert_eq!(run("outside-logs"), [33, 81, 5]);
}

#[test]
fn schedules_of_every_size() {
    for n in 2..=32 {
        for (lines, seed) in [(50, 1), (400, 2)] {
            let random = &mut Random(seed);
            for file in [schedule(n, lines, seed, Ending::Plain), stalled(n, lines, seed), scans(n, lines, seed)] {
                let (numbers, report) = log(&file);
                assert_eq!(check_both(&file, &numbers, &report), Ok(true));
                let (drawn, by_drawn) = draw(&file, |top| top + 1 + random.below(3) as u32).expect("no refusal");
                assert_eq!(check_both(&file, &drawn, &by_drawn), Ok(true));
                assert_eq!(check_both(&file, &drawn, &report), Ok(by_drawn == report));
                for _ in 0..numbers.len().min(9) {
                    let at = random.below(numbers.len() as u64) as usize;
                    let mut other = numbers.clone();
                    other[at] = [0, 1, other[at] + 1, other[at].saturating_sub(1), LARGEST, LARGEST + 1][random.below(6) as usize];
                    check_both(&file, &other, &report).expect("no refusal");
                    other = numbers.clone();
                    other.remove(at);
                    assert_eq!(check_both(&file, &other, &report), Ok(false));
                }
                for _ in 0..report.len().min(9) {
                    let at = random.below(report.len() as u64) as usize;
                    let mut other = report.clone();
                    other[at] ^= 1 << random.below(8);
                    assert_eq!(check_both(&file, &numbers, &other), Ok(false), "byte {at}");
                    let line = at / REPORT_LINE * REPORT_LINE;
                    let struck = [&report[..line], &report[line + REPORT_LINE..]].concat();
                    assert_eq!(check_both(&file, &numbers, &struck), Ok(false), "byte {line}");
                }
            }
            for (ending, number) in [(Ending::Incomplete, refusal::INCOMPLETE), (Ending::Column, refusal::COLUMN)] {
                assert_eq!(check_both(&schedule(n, lines, seed, ending), &[1; 9], BY_LABELS), Err(number));
            }
        }
    }
}

#[test]
fn limits() {
    for n in [2, 3, 8, 32] {
        for kind in [stalled, crowded, scans] {
            let file = kind(n, MAX_STEPS as u64, 4);
            let (numbers, report) = log(&file);
            assert_eq!(check_both(&file, &numbers, &report), Ok(true));
            assert_eq!(check_both(&file, &numbers, &[&report[..], b"\n"].concat()), Ok(false));
            let more = [&file[..], b"  1  1          0\n"].concat();
            assert_eq!(check_both(&more, &numbers, &report), Err(refusal::TOO_MANY_STEPS));
            assert_eq!(check_both(&[&more[..], b"  1"].concat(), &numbers, &report), Err(refusal::INCOMPLETE));
        }
    }
    for (ending, number) in [(Ending::Plain, refusal::TOO_MANY_STEPS), (Ending::OneMore, refusal::TOO_MANY), (Ending::Column, refusal::TOO_MANY)] {
        assert_eq!(check_both(&schedule(2, 1_000_000, 1, ending), &[], b""), Err(number));
    }
    let good = schedule(2, 899_999, 1, Ending::Plain);
    assert_eq!(check_both(&[&good[..], b"  1 03          0\n"].concat(), &[1], b"x"), Err(refusal::COLUMN));
}

#[test]
fn headers() {
    let headers: [(&[u8], u64); 6] = [
        (b"", refusal::INCOMPLETE),
        (b"  2  0          0", refusal::INCOMPLETE),
        (b"  2  0         00\n", refusal::COLUMN),
        (b" 33  1          1\n", refusal::CODE),
        (b" 33  0          1\n", refusal::COUNT),
        (b"  2  0          1\n", refusal::JOB),
    ];
    for (header, number) in headers {
        for (numbers, report) in [(&[][..], &b""[..]), (&[1, 2, 4, 3], BY_LABELS)] {
            assert_eq!(check_both(header, numbers, report), Err(number));
        }
    }
    assert_eq!(check_both(b"  2  0          0\n", &[], b""), Ok(true));
    assert_eq!(check_both(b"  2  0          0\n", &[0], b""), Ok(false));
    assert_eq!(check_both(b"  2  0          0\n", &[], b"\n"), Ok(false));
}
