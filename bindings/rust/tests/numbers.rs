//! Numbers for the snaps of whole schedules, in lists of all lengths, against the plain Rust routine and against the unbounded table.

use std::fs;
use std::path::Path;
use ticket_bench::generate::{crowded, schedule, stalled, Ending};
use ticket_bench::numbers::numbers;
use ticket_bench::unbounded::check;
use tickets::{refusal, Answer, LINE, MAX_STEPS};

const GUARD: usize = 16;

/// Stations 2 and 3 take labels. Then 1 and 2 snap before either updates, and the label of 2 is below that of 1.
const CROSSING: &[u8] = b"  3  0          0
  2  1         70
  2  3          0
  2  4          0
  2  5          0
  3  1         71
  3  3          0
  3  4          0
  3  5          0
  1  1         72
  1  3          0
  2  1         73
  2  3          0
  1  4          0
  2  4          0
  3  2          0
  3  5          0
";

/// How many step lines have the code of a snap.
fn snaps(schedule: &[u8]) -> usize {
    schedule.chunks_exact(LINE).skip(1).filter(|line| &line[3..6] == b"  3").count()
}

/// Numbers a file in a list of that length, in the midst of numbers that the call may not touch: what plain Rust does. The numbers are returned.
#[track_caller]
fn check_list(schedule: &[u8], len: usize) -> (Answer, Vec<u32>) {
    let untouched: Vec<u32> = (0..(GUARD + len + GUARD) as u32).map(|i| i.wrapping_mul(0x9e37_79b9) ^ 0x33).collect();
    let mut list = untouched.clone();
    let answer = tickets::numbers(schedule, &mut list[GUARD..GUARD + len]);
    let mut expected = untouched;
    let (number, count) = numbers(schedule, &mut expected[GUARD..GUARD + len]);
    assert_eq!(answer, Answer { refusal: number, written: count as u64 }, "a list of {len}");
    assert!(list == expected, "a list of {len}");
    (answer, list[GUARD..GUARD + count].to_vec())
}

/// Numbers a file in lists around the length that it needs. What refuses it in a list that is long enough is returned.
#[track_caller]
fn check_file(schedule: &[u8]) -> u64 {
    let exact = snaps(schedule);
    let (answer, found) = check_list(schedule, exact);
    if answer.refusal == 0 {
        assert_eq!(check(schedule, &found), Ok(()));
    }
    for len in [0, exact / 2, exact.saturating_sub(1), exact + 1, exact + 100, MAX_STEPS] {
        let (other, same) = check_list(schedule, len);
        let expected = if answer.refusal == 0 && len < exact { refusal::SHORT_LIST } else { answer.refusal };
        assert_eq!(other.refusal, expected, "a list of {len}");
        assert!(other.refusal != 0 || same == found, "a list of {len}");
    }
    answer.refusal
}

#[test]
fn a_label_below_a_pending_one() {
    let mut list = [9; 6];
    assert_eq!(tickets::numbers(CROSSING, &mut list), Answer { refusal: 0, written: 4 });
    assert_eq!(list, [1, 2, 4, 3, 9, 9]);
    assert_eq!(tickets::numbers(CROSSING, &mut list[..3]), Answer { refusal: refusal::SHORT_LIST, written: 0 });
    assert_eq!(list, [1, 2, 4, 3, 9, 9]);
    assert_eq!(check_file(CROSSING), 0);
}

#[test]
fn no_snaps() {
    for (bytes, number) in [(&b"  2  0          0\n"[..], 0), (b"  2  0          0\n  1  2          0\n", 0), (b"", refusal::INCOMPLETE)] {
        assert_eq!(tickets::numbers(bytes, &mut []), Answer { refusal: number, written: 0 });
        assert_eq!(check_file(bytes), number);
    }
}

/// Numbers the files of a folder, and counts them by what refuses them.
fn run(folder: &Path, counts: &mut [usize; 18]) {
    for entry in fs::read_dir(folder).expect("the folder of files") {
        let path = entry.expect("an entry").path();
        if path.extension().is_some_and(|e| e == "in") {
            println!("{}", path.display());
            counts[check_file(&fs::read(&path).expect("a schedule")) as usize] += 1;
        }
    }
}

#[test]
fn vectors() {
    let root = Path::new(env!("CARGO_MANIFEST_DIR")).join("../..");
    let mut counts = [0; 18];
    ["tests/outside", "tests/own", "tests/own-numbers", "examples"].iter().for_each(|folder| run(&root.join(folder), &mut counts));
    assert!(counts.iter().sum::<usize>() >= 310, "{counts:?}");
    assert!([0, 1, 8, 9, 10, 11].iter().all(|&number| counts[number] > 0), "{counts:?}");
}

#[test]
fn schedules_of_every_size() {
    for n in 2..=32 {
        for (lines, seed) in [(50, 1), (50, 2), (500, 3)] {
            assert_eq!(check_file(&schedule(n, lines, seed, Ending::Plain)), 0);
            assert_eq!(check_file(&stalled(n, lines, seed)), 0);
            assert_eq!(check_file(&schedule(n, lines, seed, Ending::Incomplete)), refusal::INCOMPLETE);
            assert_eq!(check_file(&schedule(n, lines, seed, Ending::Column)), refusal::COLUMN);
        }
    }
}

#[test]
fn limits() {
    for n in [2, 3, 8, 32] {
        for kind in [stalled, crowded] {
            assert_eq!(check_file(&kind(n, MAX_STEPS as u64, 4)), 0);
            assert_eq!(check_file(&kind(n, MAX_STEPS as u64 + 1, 4)), refusal::TOO_MANY_STEPS);
        }
    }
    // What ends a file comes first.
    let good = schedule(2, 899_999, 1, Ending::Plain);
    assert_eq!(check_file(&good), refusal::TOO_MANY_STEPS);
    assert_eq!(check_file(&[&good[..], b"  1 03          0\n"].concat()), refusal::COLUMN);
    assert_eq!(check_file(&[&good[..], b"  1  3"].concat()), refusal::INCOMPLETE);
    for (ending, number) in [(Ending::Plain, refusal::TOO_MANY_STEPS), (Ending::OneMore, refusal::TOO_MANY), (Ending::Column, refusal::TOO_MANY)] {
        assert_eq!(check_file(&schedule(2, 1_000_000, 1, ending)), number);
    }
}
