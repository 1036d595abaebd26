//! Logs: right ones of every kind of schedule, what makes them wrong, and the refusals of their schedules.

use std::fs;
use std::path::{Path, PathBuf};
use std::process::Command;
use ticket_bench::generate::{crowded, scans, schedule, stalled, Ending, Random};
use ticket_bench::logs::{check, check_file, draw, print, read_numbers, run};
use ticket_bench::numbers::{self, numbers, MAX_STEPS};
use ticket_bench::plain::{self, LINE, REPORT_LINE};
use ticket_bench::reports;

const MAX: u64 = u32::MAX as u64;

/// Stations 2 and 3 take labels; then 1 snaps and 2 snaps, both update, and 3 scans. The label of 2 is below that of 1.
const CROSSING: &[u8] = b"  3  0          0
  2  1         70
  2  3          0
  2  4          0
  2  5          0
  3  1         71
  3  3          0
  3  4          0
  3  5          0
  1  1         72
  1  3          0
  2  1         73
  2  3          0
  1  4          0
  2  4          0
  3  2          0
  3  5          0
";
const BY_LABELS: &[u8] = b"      17  0  1  3         71
      17  0  2  2         73
      17  0  3  1         72
";
const BY_STATIONS: &[u8] = b"      17  0  1  3         71
      17  0  2  1         72
      17  0  3  2         73
";

/// The numbers of a schedule as Card 6 gives them, and its report without the refusals.
fn log(file: &[u8]) -> (Vec<u64>, Vec<u8>) {
    let mut list = [0; MAX_STEPS];
    let (refusal, count) = numbers(file, &mut list);
    assert_eq!(refusal, 0);
    let mut report = Vec::new();
    plain::run(&mut &file[..], &mut report).unwrap();
    (list[..count].iter().map(|&number| number.into()).collect(), reports::scans(&report))
}

/// Logs with their answers from a folder of the tests, by what is answered: yes, no, refused.
fn vectors(folder: &str) -> [usize; 3] {
    let folder = Path::new(env!("CARGO_MANIFEST_DIR")).join("../tests").join(folder);
    let mut counts = [0; 3];
    for entry in fs::read_dir(folder).unwrap() {
        let path = entry.unwrap().path();
        if path.extension().is_some_and(|e| e == "schedule") {
            let paths = ["schedule", "numbers", "report"].map(|part| path.with_extension(part));
            let expected = fs::read(path.with_extension("out")).unwrap();
            let mut printed = Vec::new();
            run(paths.each_ref().map(PathBuf::as_path), &mut printed).unwrap();
            assert!(printed == expected, "{}: {}", path.display(), printed.escape_ascii());
            let [schedule, list, report] = paths.map(|path| fs::read(path).unwrap());
            assert!(print(check_file(&schedule, &list, &report)) == expected, "{}", path.display());
            if let Some(list) = read_numbers(&list) {
                assert!(print(check(&schedule, &list, &report)) == expected, "{}", path.display());
            }
            counts[if expected == b"yes\n" { 0 } else { 1 + usize::from(expected != b"no\n") }] += 1;
        }
    }
    counts
}

/// From a model in Python.
#[test]
fn own_vectors() {
    let [yes, no, refused] = vectors("own-logs");
    assert!(yes >= 30 && no >= 30 && refused >= 8, "{yes} {no} {refused}");
}

#[test]
fn outside_vectors() {
    assert_eq!(vectors("outside-logs"), [33, 81, 5]);
}

/// The order is that of the numbers, whatever the labels say.
#[test]
fn the_order_of_the_numbers() {
    for (numbers, by_labels) in [([1, 2, 4, 3], true), ([1, 2, 3, 3], false), ([1, 2, 3, 4], false), ([5, 70, MAX, 71], true)] {
        assert_eq!(check(CROSSING, &numbers, BY_LABELS), Ok(by_labels), "{numbers:?}");
        assert_eq!(check(CROSSING, &numbers, BY_STATIONS), Ok(!by_labels), "{numbers:?}");
    }
    // Then 1 or 2 is the newest, and has 0 for the next snap.
    let again =
        |station: u64| [CROSSING, format!("{station:3}  5          0\n{station:3}  1          9\n{station:3}  3          0\n").as_bytes()].concat();
    for (numbers, newest, other, report) in [([1, 2, 4, 3], 1, 2, BY_LABELS), ([1, 2, 3, 4], 2, 1, BY_STATIONS)] {
        for (station, number, right) in [(newest, 0, true), (newest, 5, false), (other, 0, false), (other, 4, false), (other, 5, true)] {
            assert_eq!(check(&again(station), &[&numbers[..], &[number]].concat(), report), Ok(right), "station {station}, number {number}");
        }
    }
}

#[test]
fn numbers_out_of_range() {
    for (at, low, right) in [(0, 1, true), (0, 0, false), (1, 1, false), (2, 2, false), (3, 2, false), (3, 0, false)] {
        let mut numbers = [1, 2, 4, 3];
        numbers[at] = low;
        assert_eq!(check(CROSSING, &numbers, BY_LABELS), Ok(right), "{numbers:?}");
    }
    for (number, right) in
        [(MAX - 1, true), (MAX, true), (MAX + 1, false), (MAX + 5, false), (99_999_999_999, false), (1 << 63, false), (u64::MAX, false)]
    {
        assert_eq!(check(CROSSING, &[1, 2, number, 3], BY_LABELS), Ok(right), "{number}");
    }
    // Nothing is above the largest, once it is current.
    for number in [0, 1, MAX, MAX + 1] {
        assert_eq!(check(CROSSING, &[1, MAX, number, number], BY_STATIONS), Ok(false), "{number}");
    }
}

/// Logs made of numbers and reports, of each kind of schedule, and of wrong ones: in each number, and in bytes of the report.
#[test]
fn logs_of_any_schedule() {
    let kinds: [fn(u64, u64, u64) -> Vec<u8>; 4] = [|n, lines, seed| schedule(n, lines, seed, Ending::Plain), stalled, crowded, scans];
    let (mut reported, mut refused) = (0, 0);
    for kind in kinds {
        for n in 2..=32 {
            // The longest for some n.
            for (lines, seed) in [(60, 1), (60, 2), (300, 3), (4096, 4)].into_iter().filter(|&(lines, _)| lines < 4096 || n % 6 == 2) {
                let file = kind(n, lines, seed);
                let (numbers, report) = log(&file);
                let random = &mut Random(seed);
                let right = |numbers: &[u64], report: &[u8]| check(&file, numbers, report).expect("no refusal ends the file");
                assert!(right(&numbers, &report), "n = {n}, {lines} lines, seed {seed}");
                reported += report.len();
                // With gaps, the last of which may be as high as can be.
                let apart: Vec<u64> = numbers.iter().map(|number| number * 1_000_003).collect();
                assert!(right(&apart, &report));
                let top = numbers.iter().copied().max().unwrap_or(0);
                let highest: Vec<u64> = numbers.iter().map(|&number| if number == top && top > 0 { MAX } else { number }).collect();
                assert!(right(&highest, &report));
                for at in 0..numbers.len().min(if lines > 300 { 20 } else { usize::MAX }) {
                    let with = |number: &[u64]| [&numbers[..at], number, &numbers[at + 1..]].concat();
                    assert!(!right(&with(&[if numbers[at] == 0 { 1 } else { 0 }]), &report), "place {at}");
                    assert!(!right(&with(&[MAX + 1]), &report) && !right(&with(&[]), &report) && !right(&with(&[numbers[at], 0, 0]), &report));
                }
                assert!(!right(&[&numbers[..], &[0]].concat(), &report) && !right(&[&numbers[..], &[top + 1]].concat(), &report));
                for _ in 0..report.len().min(20) {
                    let at = random.below(report.len() as u64) as usize;
                    let mut other = report.clone();
                    other[at] ^= 1 << random.below(8);
                    assert!(!right(&numbers, &other), "byte {at}");
                    other = report.clone();
                    other.remove(at);
                    assert!(!right(&numbers, &other) && !right(&numbers, &report[..at]) && !right(&numbers, &report[at + 1..]));
                }
                assert!(!right(&numbers, &[&report[..], b" "].concat()) && !right(&numbers, &[b" ", &report[..]].concat()));
                // The lines of refused steps have no place in it.
                let mut all = Vec::new();
                plain::run(&mut &file[..], &mut all).unwrap();
                refused += usize::from(all != report);
                assert_eq!(right(&numbers, &all), all == report);
            }
        }
    }
    assert!(reported > 8_000_000 && refused > 150, "{reported} bytes, {refused} with refused steps");
}

/// Numbers that are drawn, and the lists by them: right, whatever the lists by labels are, which mostly differ.
#[test]
fn numbers_of_any_kind() {
    let mut others = 0;
    for n in 2..=32 {
        for (kind, seed) in [(stalled as fn(u64, u64, u64) -> Vec<u8>, 1), (stalled, 2), (crowded, 3), (scans, 4)] {
            let file = kind(n, 500, seed);
            for most in [1, 3, 1_000_000] {
                let random = &mut Random(seed);
                let (numbers, report) = draw(&file, |top| top + 1 + random.below(most) as u32).unwrap();
                assert_eq!(check(&file, &numbers, &report), Ok(true), "n = {n}, seed {seed}");
                let by_labels = log(&file).1;
                assert_eq!(check(&file, &numbers, &by_labels), Ok(by_labels == report), "n = {n}, seed {seed}");
                others += usize::from(by_labels != report);
            }
        }
    }
    assert!(others > 80, "{others} logs have other lists than by labels");
    assert_eq!(draw(CROSSING, |top| top + 1), Ok((vec![1, 2, 3, 3], BY_STATIONS.to_vec())));
    assert_eq!(draw(b"", |top| top + 1), Err(8));
}

/// Every change of one byte.
#[test]
fn every_byte_of_a_report() {
    for at in 0..BY_LABELS.len() {
        for byte in (0..=u8::MAX).filter(|&byte| byte != BY_LABELS[at]) {
            let other = [&BY_LABELS[..at], &[byte], &BY_LABELS[at + 1..]].concat();
            assert_eq!(check(CROSSING, &[1, 2, 4, 3], &other), Ok(false), "byte {at}: {byte}");
        }
    }
}

#[test]
fn refusals_come_first() {
    let refused = |file: &[u8], number: u64| {
        for list in [&[][..], &[1, 2, 4, 3], &[u64::MAX; 5000]] {
            for report in [&b""[..], BY_LABELS, b"\0"] {
                assert_eq!(check(file, list, report), Err(number));
            }
        }
        assert_eq!(print(Err(number)), format!("       0{number:3}  0  0          0\n").into_bytes());
    };
    let headers: [(&[u8], u64); 6] = [
        (b"", 8),
        (b"  2  0          0", 8),
        (b"  2  0         00\n", 9),
        (b" 33  1          1\n", 10),
        (b" 33  0          1\n", 1),
        (b"  2  0          1\n  1 01          0\n", 11),
    ];
    headers.into_iter().for_each(|(header, number)| refused(header, number));
    refused(&[CROSSING, b"  1"].concat(), 8);
    refused(&[CROSSING, b"  1 03          0\n  1"].concat(), 9);
    for (lines, ending, number) in [
        (4097, Ending::Plain, 16),
        (4096, Ending::Column, 9),
        (4097, Ending::Incomplete, 8),
        (1_000_000, Ending::Plain, 16),
        (1_000_000, Ending::OneMore, 12),
        (1_000_000, Ending::Column, 12),
    ] {
        refused(&schedule(5, lines, 2, ending), number);
    }
}

/// A scan of all stations in as many lines as a log may have.
#[test]
fn the_longest_report() {
    let file = scans(32, 4096, 1);
    let (numbers, report) = log(&file);
    assert_eq!(file.len(), 4097 * LINE);
    assert_eq!((numbers.len(), report.len()), (32, 1999 * 32 * REPORT_LINE));
    assert_eq!(check(&file, &numbers, &report), Ok(true));
    assert_eq!(check(&file, &numbers, &[&report[..], &report[..REPORT_LINE]].concat()), Ok(false));
}

#[test]
fn lines_of_numbers() {
    assert_eq!(read_numbers(b""), Some(vec![]));
    assert_eq!(read_numbers(b"          0\n 4294967295\n99999999999\n"), Some(vec![0, MAX, 99_999_999_999]));
    assert_eq!(read_numbers(&numbers::print(0, &[7, 0, u32::MAX])), Some(vec![7, 0, MAX]));
    for column in [
        &b"           "[..],
        b"         00",
        b"         03",
        b"00000000003",
        b"         3 ",
        b"3          ",
        b"         +3",
        b"         -3",
        b"        3 3",
        b"        3.0",
        b"\t         3",
        b"\n         3",
        b"         3\r",
        b"\0         3",
        b"         \xb3",
        b"         3",
        b"           3",
    ] {
        for (before, after) in [(&b""[..], &b""[..]), (b"          1\n", b"          5\n")] {
            assert_eq!(read_numbers(&[before, column, b"\n", after].concat()), None, "{}", column.escape_ascii());
        }
    }
    for end in [&b""[..], b" ", b"\r", b"\n\n", b"\r\n", b"\0"] {
        assert_eq!(read_numbers(&[b"          3", end].concat()), None);
    }
}

/// One line on standard error, and nothing printed, if one of its three files cannot be read; the answer else.
#[test]
fn the_program() {
    let folder = std::env::temp_dir().join(format!("ticket-bench-test-logs-{}", std::process::id()));
    fs::create_dir(&folder).unwrap();
    let [schedule, list, report] = ["schedule", "numbers", "report"].map(|name| folder.join(name));
    fs::write(&schedule, CROSSING).unwrap();
    fs::write(&list, numbers::print(0, &[1, 2, 4, 3])).unwrap();
    fs::write(&report, BY_LABELS).unwrap();
    let said = |paths: &[&Path]| {
        let output = Command::new(env!("CARGO_BIN_EXE_plain_check_log")).args(paths).output().unwrap();
        (output.status.success(), output.stdout, String::from_utf8(output.stderr).unwrap())
    };
    assert_eq!(said(&[&schedule, &list, &report]), (true, b"yes\n".to_vec(), String::new()));
    assert_eq!(said(&[&schedule, &list, &list]), (true, b"no\n".to_vec(), String::new()));
    assert_eq!(said(&[&schedule, &report, &report]), (true, b"no\n".to_vec(), String::new()));
    assert_eq!(said(&[&report, &report, &report]), (true, b"       0  8  0  0          0\n".to_vec(), String::new()));
    let missing = folder.join("missing");
    let good = [&*schedule, &list, &report];
    let mut bad: Vec<Vec<&Path>> = (0..3).map(|len| good[..len].to_vec()).collect();
    for at in 0..3 {
        for path in [&*folder, &missing, Path::new("")] {
            let mut paths = good;
            paths[at] = path;
            bad.push(paths.to_vec());
        }
    }
    for paths in bad {
        let (_, printed, error) = said(&paths);
        assert!(printed.is_empty() && error.starts_with("plain_check_log: ") && error.lines().count() == 1, "{paths:?}: {error}");
    }
    fs::remove_dir_all(&folder).unwrap();
}
