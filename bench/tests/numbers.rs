//! Numbers for the snaps of a schedule, their refusals, and the check of numbers by the unbounded table.

use std::fs;
use std::io::{self, Read};
use std::path::Path;
use ticket_bench::generate::{crowded, schedule, stalled, Ending, Random};
use ticket_bench::numbers::{numbers, print, run, MAX_STEPS};
use ticket_bench::plain::{self, step, Operation, Phase, Table, LINE, MAX_STATIONS, REPORT_LINE};
use ticket_bench::unbounded::check;

/// What a list holds before a call.
const OLD: u32 = 0xdead_beef;

fn file(n: u64, steps: &[(u64, u64)]) -> Vec<u8> {
    let lines = steps.iter().map(|&(station, code)| format!("{station:3}{code:3}{:11}\n", if code == 1 { 70 } else { 0 }));
    format!("{n:3}  0          0\n{}", lines.collect::<String>()).into_bytes()
}

/// Codes 1, 3, 4, 5 of each station.
fn labels(stations: &[u64]) -> Vec<(u64, u64)> {
    stations.iter().flat_map(|&station| [1, 3, 4, 5].map(|code| (station, code))).collect()
}

/// Stations 2 and 3 take labels; then 1 snaps and 2 snaps, both update, and 3 scans. The label of 2 is below that of 1.
fn crossing() -> Vec<u8> {
    let rest = [(1, 1), (1, 3), (2, 1), (2, 3), (1, 4), (2, 4), (1, 5), (2, 5), (3, 2), (3, 5)];
    file(3, &[&labels(&[2, 3])[..], &rest].concat())
}

/// Two stations of three snap before either updates, and so have the same label.
fn together() -> Vec<u8> {
    file(3, &[(1, 1), (2, 1), (1, 3), (2, 3), (2, 4), (1, 4), (1, 5), (2, 5), (3, 2), (3, 5)])
}

/// How many step lines have the code of a snap.
fn snaps(file: &[u8]) -> usize {
    file.chunks(LINE).skip(1).filter(|line| &line[3..6] == b"  3").count()
}

/// The numbers of a file that is served: the list is just as long as it must be, and what stands past the numbers is kept.
#[track_caller]
fn served(file: &[u8]) -> Vec<u32> {
    let mut list = vec![OLD; snaps(file)];
    let (refusal, count) = numbers(file, &mut list);
    assert_eq!(refusal, 0);
    assert!(list[count..].iter().all(|&number| number == OLD));
    let mut longer = vec![OLD; list.len() + 9];
    assert_eq!(numbers(file, &mut longer), (0, count));
    assert!(longer[..list.len()] == list && longer[list.len()..] == [OLD; 9]);
    list.truncate(count);
    list
}

/// The file is refused by this number with a list of so many entries, and the list is kept.
#[track_caller]
fn refused(file: &[u8], entries: usize, number: u64) {
    let mut list = vec![OLD; entries];
    assert_eq!(numbers(file, &mut list), (number, 0));
    assert!(list.iter().all(|&number| number == OLD));
}

fn printed(mut file: &[u8]) -> Vec<u8> {
    let mut printed = Vec::new();
    run(&mut file, &mut printed).unwrap();
    printed
}

/// Schedules whose numbers come from a model in Python.
#[test]
fn vectors() {
    let folder = Path::new(env!("CARGO_MANIFEST_DIR")).join("../tests/own-numbers");
    let (mut count, mut most) = (0, 0);
    for entry in fs::read_dir(folder).unwrap() {
        let input = entry.unwrap().path();
        if input.extension().is_some_and(|e| e == "in") {
            let bytes = fs::read(&input).unwrap();
            assert!(printed(&bytes) == fs::read(input.with_extension("out")).unwrap(), "{}", input.display());
            let mut list = [0; MAX_STEPS];
            let (refusal, served) = numbers(&bytes, &mut list);
            assert_eq!(check(&bytes, &list[..served]).is_ok(), refusal == 0, "{}", input.display());
            count += 1;
            most = most.max(served);
        }
    }
    assert!(count >= 40 && most > 90, "{count} files, up to {most} numbers");
}

#[test]
fn a_label_below_a_pending_one() {
    assert_eq!(served(&crossing()), [1, 2, 4, 3]);
    assert_eq!(check(&crossing(), &[1, 2, 4, 3]), Ok(()));
    // Before station 2 snaps, station 1 has the number after.
    assert_eq!(served(&crossing()[..12 * LINE]), [1, 2, 3]);
}

#[test]
fn equal_labels_share_a_number() {
    assert_eq!(served(&together()), [1, 1]);
    // A label that is taken again later has a number of its own: 2.1, 2.2, 3.1, and after 5.1 and 5.2 once more 3.1.
    assert_eq!(served(&file(3, &labels(&[1, 2, 3, 1, 2, 3, 1, 2, 3]))), [1, 2, 3, 4, 5, 6, 7, 8, 9]);
    // All but the newest of a fresh table.
    for n in 2..=32 {
        let steps: Vec<(u64, u64)> = (1..=n).flat_map(|station| [(station, 1), (station, 3)]).collect();
        let mut expected = vec![1; n as usize];
        expected[n as usize - 1] = 0;
        assert_eq!(served(&file(n, &steps)), expected);
    }
}

#[test]
fn the_newest_has_0() {
    assert_eq!(served(&file(2, &labels(&[2, 1, 1, 2, 2, 1]))), [0, 1, 0, 2, 0, 3]);
    // Out of service it is the newest all the same.
    let out = [&labels(&[1])[..], &[(1, 6)], &labels(&[2, 2]), &[(1, 7)], &labels(&[1])].concat();
    assert_eq!(served(&file(3, &out)), [1, 2, 0, 3]);
}

/// More than one numbering will do: two stations with the same label may have one number or, by their stations, two.
#[test]
fn two_numberings_of_one_schedule() {
    for numbers in [[1, 1], [1, 2]] {
        assert_eq!(check(&together(), &numbers), Ok(()));
    }
    assert!(check(&together(), &[2, 1]).is_err());
}

#[test]
fn wrong_numbers() {
    let right = [1, 2, 4, 3];
    let wrong: [(&[u32], &str); 9] = [
        // Advances: by how much each is above the top number.
        (&[1, 1, 2, 1], "has number 1, and the top number is 1"),
        // Each the next, as it comes.
        (&[1, 2, 3, 4], "the report by numbers"),
        (&[1, 2, 3, 3], "the report by numbers"),
        // Two swapped.
        (&[2, 1, 4, 3], "has number 1, and the top number is 2"),
        (&[1, 2, 5, 3], "no number is 4"),
        (&[2, 3, 5, 4], "no number is 1"),
        (&[1, 2, 4], "has no number"),
        (&[1, 2, 4, 3, 5], "1 numbers are left over"),
        (&[1, 0, 4, 3], "has number 0, and the top number is 1"),
    ];
    assert_eq!(check(&crossing(), &right), Ok(()));
    for (numbers, what) in wrong {
        let error = check(&crossing(), numbers).expect_err(&format!("{numbers:?}"));
        assert!(error.contains(what), "{numbers:?}: {error}");
    }
    // The newest, with a number; and without one.
    let newest = file(2, &labels(&[2, 1, 1]));
    assert_eq!(check(&newest, &[0, 1, 0]), Ok(()));
    for numbers in [[1, 2, 0], [0, 1, 2], [1, 2, 3], [0, 1, 1], [0, 0, 1]] {
        assert!(check(&newest, &numbers).is_err(), "{numbers:?}");
    }
    // No file to number.
    assert!(check(b"", &[]).is_err() && check(b"  2  0          0\n  1", &[]).is_err());
    assert_eq!(check(b"  2  0          0\n", &[]), Ok(()));
}

/// Of each kind of schedule, with at least so many numbers that are below one before them.
#[test]
fn numbers_of_any_schedule_pass_the_check() {
    let kinds: [(fn(u64, u64, u64) -> Vec<u8>, usize); 3] =
        [(|n, lines, seed| schedule(n, lines, seed, Ending::Plain), 200), (stalled, 200), (crowded, 10_000)];
    for (kind, least) in kinds {
        let mut lower = 0;
        for n in 2..=32 {
            for (lines, seed) in [(60, 1), (60, 2), (60, 3), (400, 4), (400, 5), (4096, 6)] {
                let bytes = kind(n, lines, seed);
                let numbers = served(&bytes);
                assert_eq!(check(&bytes, &numbers), Ok(()), "n = {n}, {lines} lines, seed {seed}");
                // After a higher number.
                lower += (0..numbers.len()).filter(|&i| numbers[i] != 0 && numbers[..i].iter().any(|&before| before > numbers[i])).count();
                // Wrong in one place: a 1 for the newest or a 0 for another; one too few; one too many.
                let mut random = Random(seed);
                let at = random.below(numbers.len().max(1) as u64) as usize;
                let other = numbers.get(at).map(|&number| [&numbers[..at], &[u32::from(number == 0)], &numbers[at + 1..]].concat());
                let fewer = numbers.get(at).map(|_| [&numbers[..at], &numbers[at + 1..]].concat());
                let more = Some([&numbers[..], &[0]].concat());
                for wrong in [other, fewer, more].into_iter().flatten() {
                    assert!(check(&bytes, &wrong).is_err(), "n = {n}, {lines} lines, seed {seed}, place {at}");
                }
            }
        }
        assert!(lower > least, "{lower} numbers are below one before them");
    }
}

/// The numbers are right for what was reached at any line, and depend on no line that is refused.
#[test]
fn refused_lines_have_no_number() {
    for n in [2, 3, 5, 8, 32] {
        let bytes = stalled(n, 1_500, 7);
        let mut report = Vec::new();
        plain::run(&mut &bytes[..], &mut report).unwrap();
        let mut accepted = bytes[..LINE].to_vec();
        let mut table = Table::fresh(n as usize);
        let (mut refused, mut due) = (0, 0);
        for line in bytes.chunks(LINE).skip(1) {
            let column = |from, to| std::str::from_utf8(&line[from..to]).unwrap().trim_start().parse::<u64>().unwrap();
            let (station, code, job) = (column(0, 3), column(3, 6), column(6, 17));
            let before = table.clone();
            if step(&mut table, code, station, job, &mut [0; MAX_STATIONS * REPORT_LINE]).0 == 0 {
                accepted.extend(line);
                due += usize::from(code == 3 && before.stations[station as usize - 1].phase == Phase::Snap);
            } else {
                refused += usize::from(code == 3);
            }
        }
        let numbers = served(&bytes);
        assert!(numbers == served(&accepted) && numbers.len() == due && refused > 0);
        assert_eq!(snaps(&bytes), due + refused);
    }
    // The snap of a scan's own that there is no more: refused by 4.
    let mut table = Table::fresh(2);
    assert_eq!(step(&mut table, 2, 1, 0, &mut []), (0, 0));
    assert_eq!(table.stations[0].phase, Phase::End(Operation::Scan));
    assert_eq!(served(&file(2, &[(1, 2), (1, 3), (1, 5), (1, 1), (1, 3)])), [1]);
}

#[test]
fn refusals_of_the_header_and_of_lines() {
    let headers: [(&[u8], u64); 8] = [
        (b"", 8),
        (b" 33 01", 8),
        (b"  2  0          0", 8),
        (b"  2  0         00\n", 9),
        (b" 33  1          1\n", 10),
        (b" 33  0          1\n", 1),
        (b"  1  0          1\n", 1),
        (b"  2  0          1\n", 11),
    ];
    for (header, number) in headers {
        refused(header, 0, number);
        refused(header, 9, number);
        // The header's comes before a later line's, where the header is whole.
        if header.len() == LINE {
            refused(&[header, b"  1 01          0\n", b"x"].concat(), 9, number);
        }
        assert_eq!(printed(header), format!("       0{number:3}  0  0          0\n").into_bytes());
    }
    // The first in the file; before 17, which the line of code 3 asks for.
    let good = file(2, &[(1, 1), (1, 3)]);
    refused(&[&good[..], b"  1 04          0\n", b"  1"].concat(), 0, 9);
    refused(&[&good[..], b"  1  4          0x", b"  1 04          0\n"].concat(), 0, 8);
    refused(&[&good[..], b"  1"].concat(), 9, 8);
    // 10, 2, 11, 3, 4, 5, 6, 14 and 15 end no file.
    let others = [(1, 0), (1, 8), (3, 1), (1, 1), (1, 3), (1, 1), (1, 3), (2, 4), (2, 5), (2, 6), (2, 6), (2, 7), (2, 7)];
    assert_eq!(served(&file(2, &others)), [1]);
    let jobs = [&good[..], b"  1  3          7\n", b"  1  1          0\n", b"  1  1 4294967296\n"].concat();
    assert_eq!(served(&jobs), [1]);
}

#[test]
fn too_many_steps() {
    for n in [2, 32] {
        for kind in [stalled, crowded] {
            let most = kind(n, MAX_STEPS as u64, 3);
            assert!(served(&most).len() > 800);
            let more = [&most[..], b"  1  1          1\n"].concat();
            // Refused lines count.
            let refused_line = [&most[..], b" 99 99          1\n"].concat();
            for file in [more, refused_line] {
                refused(&file, 10_000, 16);
                // 16 before 17; and after what ends the file.
                refused(&file, 0, 16);
                refused(&[&file[..], b"  1  1"].concat(), 0, 8);
                assert_eq!(printed(&file), b"       0 16  0  0          0\n");
            }
        }
    }
    let good = schedule(2, 900_000, 1, Ending::Plain);
    refused(&good, 1_000_000, 16);
    let column = [&good[..good.len() - LINE], b"  1 03          0\n"].concat();
    refused(&column, 1_000_000, 9);
    assert_eq!(printed(&column), b"       0  9  0  0          0\n");
    for (ending, number) in [(Ending::Plain, 16), (Ending::OneMore, 12), (Ending::Incomplete, 12), (Ending::Column, 12)] {
        let million = schedule(2, 1_000_000, 1, ending);
        refused(&million, 1_000_000, number);
        refused(&million, 0, number);
        assert_eq!(printed(&million), print(number, &[]));
    }
}

#[test]
fn short_lists() {
    // Of five lines of code 3 two are accepted; refused are one by 2, by 4 and by 11.
    let mut bytes = file(2, &[(1, 1), (1, 3), (1, 3), (3, 3), (2, 1), (2, 3), (1, 4)]);
    bytes.extend(b"  1  3          9\n");
    assert_eq!(served(&bytes), [1, 0]);
    (0..5).for_each(|entries| refused(&bytes, entries, 17));
    // A code that only begins with 3.
    bytes.extend(b"  1 30          0\n  1303          0\n");
    assert_eq!(served(&bytes).len(), 2);
    // No such line needs no entry.
    for steps in [&[][..], &[(1, 1), (1, 4), (2, 2)]] {
        assert_eq!(numbers(&file(2, steps), &mut []), (0, 0));
        assert_eq!(printed(&file(2, steps)), b"");
    }
    for n in [2, 7, 32] {
        let bytes = stalled(n, 4096, 11);
        let entries = snaps(&bytes);
        assert!(served(&bytes).len() < entries);
        refused(&bytes, entries - 1, 17);
        refused(&bytes, 0, 17);
    }
}

/// A reader that gives its bytes in pieces of drawn sizes, and an error of no weight now and then.
struct Pieces<'a> {
    left: &'a [u8],
    random: Random,
}

impl Read for Pieces<'_> {
    fn read(&mut self, buffer: &mut [u8]) -> io::Result<usize> {
        if self.random.one_in(8) {
            return Err(io::ErrorKind::Interrupted.into());
        }
        let most = [1, 20, 5_000, 100_000][self.random.below(4) as usize];
        let size = 1 + self.random.below(most) as usize;
        let (piece, rest) = self.left.split_at(size.min(buffer.len()).min(self.left.len()));
        buffer[..piece.len()].copy_from_slice(piece);
        self.left = rest;
        Ok(piece.len())
    }
}

#[test]
fn what_the_program_prints() {
    assert_eq!(printed(&crossing()), b"          1\n          2\n          4\n          3\n");
    assert_eq!(print(0, &[0, 9, 10, u32::MAX]), b"          0\n          9\n         10\n 4294967295\n");
    for (n, lines) in [(2, 0), (2, 1), (3, 4094), (3, 4095), (3, 4096), (8, 4097), (8, 9_000), (32, 4096)] {
        for ending in [Ending::Plain, Ending::Incomplete, Ending::Column] {
            let bytes = schedule(n, lines, 8, ending);
            let mut list = [0; MAX_STEPS];
            let (refusal, count) = numbers(&bytes, &mut list);
            let expected = print(refusal, &list[..count]);
            assert!(printed(&bytes) == expected);
            let mut pieces = Vec::new();
            run(&mut Pieces { left: &bytes, random: Random(lines) }, &mut pieces).unwrap();
            assert!(pieces == expected, "n = {n}, {lines} lines, {ending:?}");
        }
    }
}

/// Lines without an end: the reading ends after 1,000,000 of them.
#[test]
fn endless_input() {
    let mut endless = (&b"  2  0          0\n"[..]).chain(io::repeat(b' '));
    let mut printed = Vec::new();
    run(&mut endless, &mut printed).unwrap();
    assert_eq!(printed, b"       0  8  0  0          0\n");
    struct Lines(usize);
    impl Read for Lines {
        fn read(&mut self, buffer: &mut [u8]) -> io::Result<usize> {
            let line = b"  1  1         70\n";
            buffer.iter_mut().for_each(|byte| {
                *byte = line[self.0 % LINE];
                self.0 += 1;
            });
            Ok(buffer.len())
        }
    }
    let mut lines = Lines(0);
    let mut printed = Vec::new();
    run(&mut (&b"  2  0          0\n"[..]).chain(&mut lines), &mut printed).unwrap();
    assert_eq!(printed, b"       0 12  0  0          0\n");
    assert!(lines.0 < 1_010_000 * LINE);
}

/// The worst that a schedule can ask for: at most 4,096 lines have 1,040 snaps for a label, and here nearly all are numbered apart.
#[test]
fn crowded_schedules() {
    for n in 3..=32 {
        let numbers = served(&crowded(n, 4096, 1));
        assert_eq!(numbers.len() as u64, 1024 + n / 2 - 1 + n % 2, "n = {n}");
        assert!(numbers.iter().all(|&number| number != 0));
        assert_eq!(numbers.iter().max().map(|&number| number as usize), Some(numbers.len()));
    }
}
