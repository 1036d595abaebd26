//! The expert's program against the vectors, document 01's samples, and the plain program.

use std::fs;
use std::io::{self, Read};
use std::path::Path;
use ticket_bench::expert::{before, key, label, run, Table};
use ticket_bench::generate::{schedule, Ending, Random};
use ticket_bench::plain::{self, Label, Operation, Phase, LINE, MAX_DIGITS, MAX_STATIONS, REPORT_LINE};

fn report(mut schedule: &[u8]) -> Vec<u8> {
    let mut report = Vec::new();
    run(&mut schedule, &mut report).unwrap();
    report
}

fn plain_report(mut schedule: &[u8]) -> Vec<u8> {
    let mut report = Vec::new();
    plain::run(&mut schedule, &mut report).unwrap();
    report
}

#[track_caller]
fn as_plain(schedule: &[u8]) -> Vec<u8> {
    let report = report(schedule);
    assert!(report == plain_report(schedule), "{}", schedule[..schedule.len().min(400)].escape_ascii());
    report
}

#[test]
fn vectors() {
    let root = Path::new(env!("CARGO_MANIFEST_DIR")).join("..");
    let mut counts = [0; 3];
    for (folder, count) in ["tests/outside", "tests/own", "examples"].into_iter().zip(&mut counts) {
        for entry in fs::read_dir(root.join(folder)).unwrap() {
            let input = entry.unwrap().path();
            if input.extension().is_some_and(|e| e == "in") {
                let expected = fs::read(input.with_extension("out")).unwrap();
                assert!(report(&fs::read(&input).unwrap()) == expected, "{}", input.display());
                *count += 1;
            }
        }
    }
    assert!(counts[0] == 180 && counts[1] >= 90 && counts[2] >= 4, "{counts:?}");
}

fn line(code: u64, station: u64, job: u64) -> [u8; LINE] {
    format!("{station:3}{code:3}{job:11}\n").into_bytes().try_into().unwrap()
}

#[track_caller]
fn accepted(table: &mut Table, code: u64, station: u64, job: u64) {
    assert_eq!(table.serve(&line(code, station, job)), Ok(None));
}

/// Codes 1, 3, 4, 5 of each station.
fn take_labels(table: &mut Table, stations: &[u64]) {
    for &station in stations {
        accepted(table, 1, station, 7);
        for code in [3, 4, 5] {
            accepted(table, code, station, 0);
        }
    }
}

fn row(digits: &[u8]) -> Label {
    std::array::from_fn(|p| digits.get(p).copied().unwrap_or(1))
}

#[track_caller]
fn labels(table: &Table, expected: &[&[u8]]) {
    for (station, digits) in expected.iter().enumerate() {
        assert_eq!(table.label(station), row(digits));
    }
}

#[track_caller]
fn order(table: &Table, expected: &[u8]) {
    assert!(table.order().iter().map(|i| i + 1).eq(expected.iter().copied()), "{:?}", table.order());
}

#[test]
fn samples() {
    // P1 and P2, whichever station has the label.
    for (i, j) in [(0, 1), (1, 0)] {
        assert!(before(key(&row(&[5]), i), key(&row(&[3]), j)));
        assert!(before(key(&row(&[4, 5, 2]), i), key(&row(&[4, 3, 1]), j)));
    }
    // P3 and P4
    let mut two = Table::fresh(2);
    take_labels(&mut two, &[1]);
    labels(&two, &[&[2]]);
    order(&two, &[2, 1]);
    take_labels(&mut two, &[2, 1, 2, 1]);
    labels(&two, &[&[3], &[5]]);
    order(&two, &[2, 1]);
    // P5
    let mut three = Table::fresh(3);
    take_labels(&mut three, &[3]);
    labels(&three, &[&[1, 1], &[1, 1], &[1, 1]]);
    order(&three, &[1, 2, 3]);
    // P6 to P8
    let mut three = Table::fresh(3);
    take_labels(&mut three, &[1, 2, 3]);
    labels(&three, &[&[2, 1], &[2, 2], &[3, 1]]);
    take_labels(&mut three, &[1, 2, 3]);
    labels(&three, &[&[3, 2], &[4, 1], &[4, 2]]);
    take_labels(&mut three, &[1, 2, 3]);
    labels(&three, &[&[5, 1], &[5, 2], &[3, 1]]);
    order(&three, &[1, 2, 3]);
    // P9
    let mut three = Table::fresh(3);
    for (code, station, job) in [(1, 1, 7), (1, 2, 7), (3, 1, 0), (3, 2, 0), (4, 1, 0), (4, 2, 0)] {
        accepted(&mut three, code, station, job);
    }
    labels(&three, &[&[2, 1], &[2, 1], &[1, 1]]);
    order(&three, &[3, 1, 2]);
    // P10 to P12
    let mut three = Table::fresh(3);
    for (code, station, job) in [(1, 1, 7), (1, 2, 7), (3, 1, 0), (3, 2, 0), (4, 1, 0), (5, 1, 0)] {
        accepted(&mut three, code, station, job);
    }
    take_labels(&mut three, &[3, 1, 3, 1]);
    labels(&three, &[&[2, 5], &[1, 1], &[2, 4]]);
    accepted(&mut three, 4, 2, 0);
    labels(&three, &[&[2, 5], &[2, 1], &[2, 4]]);
    order(&three, &[2, 3, 1]);
    accepted(&mut three, 5, 2, 0);
    take_labels(&mut three, &[2]);
    labels(&three, &[&[2, 5], &[3, 1], &[2, 4]]);
}

#[test]
fn keys_stand_as_labels_do() {
    let mut random = Random(1);
    let mut table = plain::Table::fresh(MAX_STATIONS);
    let mut equal = 0;
    for _ in 0..200_000 {
        let (i, j) = (random.below(32) as usize, random.below(32) as usize);
        let shared = random.below(MAX_DIGITS as u64 + 1) as usize;
        let a: Label = std::array::from_fn(|_| 1 + random.below(5) as u8);
        let b: Label = std::array::from_fn(|p| if p < shared { a[p] } else { 1 + random.below(5) as u8 });
        assert!(label(key(&a, i)) == a && label(key(&b, j)) == b);
        if i != j {
            (table.stations[i].label, table.stations[j].label) = (a, b);
            assert_eq!(before(key(&a, i), key(&b, j)), table.before(i, j), "{a:?} of {i}, {b:?} of {j}");
            equal += u32::from(a == b);
        }
    }
    assert!(equal > 1000, "{equal} pairs of equal labels");
}

/// Labels and order after every line, and the lines that are served.
#[test]
fn tables_as_in_the_plain_program() {
    let number = |bytes: &[u8]| std::str::from_utf8(bytes).unwrap().trim_start().parse::<u64>().unwrap();
    for n in 2..=MAX_STATIONS {
        let schedule = schedule(n as u64, 3_000, n as u64, Ending::Plain);
        let mut table = Table::fresh(n);
        let mut expected = plain::Table::fresh(n);
        for bytes in schedule.chunks(LINE).skip(1) {
            let (station, code, job) = (number(&bytes[..3]), number(&bytes[3..6]), number(&bytes[6..17]));
            let scanning = |i: &usize| expected.stations.get(*i).is_some_and(|s| s.phase == Phase::End(Operation::Scan));
            let ended = (station as usize).checked_sub(1).filter(scanning).filter(|_| code == 5);
            let (refused, _) = plain::step(&mut expected, code, station, job, &mut [0; MAX_STATIONS * REPORT_LINE]);
            assert_eq!(table.serve(bytes), if refused == 0 { Ok(ended) } else { Err(refused) });
            assert!((0..n).all(|i| table.label(i) == expected.stations[i].label));
            assert_eq!(table.order(), &expected.order()[..n]);
        }
    }
}

#[test]
fn generated_schedules() {
    for n in 2..=MAX_STATIONS as u64 {
        for ending in [Ending::Plain, Ending::Incomplete, Ending::Column, Ending::OneMore] {
            let report = as_plain(&schedule(n, 9_000, 3 * n, ending));
            assert!(report.len() > 1 << 15, "n = {n}");
        }
    }
}

/// Gives its bytes in pieces of changing sizes.
struct Pieces<'a> {
    bytes: &'a [u8],
    random: Random,
}

impl Read for Pieces<'_> {
    fn read(&mut self, buffer: &mut [u8]) -> io::Result<usize> {
        let most = [1, 7, 17, 18, 19, 4095, 65537][self.random.below(7) as usize];
        let len = self.bytes.len().min(buffer.len()).min(most);
        let (piece, rest) = self.bytes.split_at(len);
        buffer[..len].copy_from_slice(piece);
        self.bytes = rest;
        Ok(len)
    }
}

#[test]
fn input_in_pieces() {
    for (n, ending) in [(2, Ending::Plain), (9, Ending::Incomplete), (32, Ending::Column)] {
        let schedule = schedule(n, 40_000, 11, ending);
        let mut report = Vec::new();
        run(&mut Pieces { bytes: &schedule, random: Random(n) }, &mut report).unwrap();
        assert!(report.len() > 1 << 16 && report == plain_report(&schedule), "n = {n}");
    }
}

/// Bytes that may and that may not stand in a line.
const BYTES: &[u8; 16] = b"  0123459/:a\n\r\0\xb1";

#[test]
fn damaged_lines() {
    let mut random = Random(17);
    let mut last = [0; 16];
    for round in 0..20_000 {
        let n = 2 + round % 31;
        let mut bytes = schedule(n, random.below(60), round, Ending::Plain);
        for _ in 0..1 + random.below(3) {
            let at = random.below(bytes.len() as u64) as usize;
            match random.below(6) {
                0 => bytes[at] = random.word() as u8,
                1 => bytes.truncate(at + 1),
                2 => bytes.insert(at, b' '),
                3 => bytes[random.below(LINE as u64).min(at as u64) as usize] = BYTES[random.below(16) as usize],
                _ => bytes[at] = BYTES[random.below(16) as usize],
            }
        }
        let report = as_plain(&bytes);
        if let Some(end) = report.last_chunk::<21>() {
            last[std::str::from_utf8(&end[..3]).unwrap().trim().parse::<usize>().unwrap()] += 1;
        }
    }
    assert!([1, 2, 3, 4, 5, 6, 8, 9, 10, 15].iter().all(|&number| last[number] > 10), "how reports end: {last:?}");
}

/// All columns of three bytes out of some, as station and as code, in the header and behind it.
#[test]
fn short_columns() {
    for of in 0..BYTES.len().pow(3) {
        let column: [u8; 3] = std::array::from_fn(|k| BYTES[of / BYTES.len().pow(k as u32) % BYTES.len()]);
        as_plain(&[&column[..], b"  0          0\n"].concat());
        for n in [b" 32", b"  2"] {
            as_plain(&[&n[..], &column, b"          0\n"].concat());
            as_plain(&[&n[..], b"  0          0\n", &column, b"  2          0\n"].concat());
            as_plain(&[&n[..], b"  0          0\n  1", &column, b"          0\n"].concat());
            as_plain(&[&n[..], b"  0          0\n  2", &column, b"          1\n"].concat());
        }
    }
}

/// Jobs of every length and at their limits, and columns that are none: a scan shows what was read.
#[test]
fn jobs() {
    let mut random = Random(23);
    let shown = |column: &[u8]| {
        let report = as_plain(
            &[b"  2  0          0\n  1  1", column, b"\n  1  3          0\n  1  4          0\n  2  2          0\n  2  5          0\n"].concat(),
        );
        report.ends_with(&[b"  0  1  1", column, b"\n"].concat())
    };
    for digits in 0..11 {
        let power = 10u64.pow(digits);
        for job in [power - 1, power, power + 1, 4_294_967_295, 4_294_967_296, 42_949_672_950, 99_999_999_999] {
            assert_eq!(shown(format!("{job:11}").as_bytes()), (1..=4_294_967_295).contains(&job), "{job}");
            assert!(!shown(format!("{job:011}").as_bytes()) || job >= 10_000_000_000, "{job}");
        }
    }
    for _ in 0..20_000 {
        let job = random.word() >> (64 - 1 - random.below(32));
        let mut column = format!("{job:11}").into_bytes();
        assert_eq!(shown(&column), job > 0, "{job}");
        column[random.below(11) as usize] = BYTES[random.below(16) as usize];
        shown(&column);
    }
}

#[test]
fn one_line_too_many() {
    let million = schedule(2, 1_000_000, 1, Ending::Plain);
    let whole = as_plain(&million);
    for more in [&b"  1  1          1\n"[..], b"x", b"  1  1          1\n  1  3          0\n"] {
        let report = as_plain(&[&million, more].concat());
        assert_eq!(report, [&whole[..], b" 1000002 12  0  0          0\n"].concat());
    }
    let one_less = &million[..million.len() - LINE];
    assert!(as_plain(&[one_less, b"x"].concat()).ends_with(b" 1000001  8  0  0          0\n"));
}
