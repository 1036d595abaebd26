//! Logs by index: right ones, and changed ones.

use crate::draw::{pick, source};
use ticket_bench::generate::Random;
use ticket_bench::logs::draw;
use ticket_bench::plain::{self, LINE, REPORT_LINE};
use ticket_bench::{numbers, reports};

const LARGEST: u64 = u32::MAX as u64;

#[derive(Clone)]
pub struct Log {
    pub schedule: Vec<u8>,
    pub numbers: Vec<u64>,
    pub report: Vec<u8>,
}

fn report(schedule: &[u8]) -> Vec<u8> {
    let mut report = Vec::new();
    plain::run(&mut &schedule[..], &mut report).expect("a report in memory");
    report
}

/// A right log of a schedule: with the numbers of Card 6 and the plain report, or with drawn numbers and the lists by these. One that is refused has anything.
fn right(random: &mut Random, schedule: Vec<u8>) -> Log {
    let mut list = [0; numbers::MAX_STEPS];
    let (refusal, count) = numbers::numbers(&schedule, &mut list);
    if refusal != 0 {
        let numbers = (0..random.below(9)).map(|_| random.word() >> random.below(64)).collect();
        let report = (0..random.below(99)).map(|_| random.word() as u8).collect();
        return Log { schedule, numbers, report };
    }
    if random.one_in(2) {
        let report = reports::scans(&report(&schedule));
        return Log { schedule, numbers: list[..count].iter().map(|&number| number.into()).collect(), report };
    }
    // The highest that they can get to is 4,096 times the greatest step.
    let most = pick(random, &[1, 2, 5, 1_000_000]);
    let (numbers, report) = draw(&schedule, |top| top + 1 + random.below(most) as u32).expect("numbers for it were found");
    Log { schedule, numbers, report }
}

/// Any place of so many, which are not none.
fn place(random: &mut Random, len: usize) -> usize {
    random.below(len as u64) as usize
}

fn change_numbers(random: &mut Random, numbers: &mut Vec<u64>) {
    if numbers.is_empty() || random.one_in(8) {
        let at = place(random, numbers.len() + 1);
        return numbers.insert(at, pick(random, &[0, 1, LARGEST, u64::MAX]));
    }
    let at = place(random, numbers.len());
    let other = place(random, numbers.len());
    match random.below(10) {
        0 => {
            numbers.remove(at);
        }
        1 => numbers.truncate(at),
        2 => numbers.swap(at, other),
        3 => numbers[at] = numbers[other],
        4 => numbers[at] = 0,
        5 => numbers[at] = numbers[at].wrapping_add(1 + random.below(3)),
        6 => numbers[at] = numbers[at].wrapping_sub(1 + random.below(3)),
        7 => numbers[at] = pick(random, &[1, LARGEST - 1, LARGEST, LARGEST + 1, 99_999_999_999, 1 << 63, u64::MAX]),
        // The same in its low half.
        8 => numbers[at] = numbers[at].wrapping_add((1 + random.below(3)) << 32),
        // With gaps.
        _ => {
            let factor = 2 + random.below(3);
            numbers.iter_mut().for_each(|number| *number = number.wrapping_mul(factor));
        }
    }
}

/// Another order, left out, twice or changed, line by line or byte by byte.
fn change_report(random: &mut Random, log: &mut Log) {
    let Log { schedule, report: bytes, .. } = log;
    if bytes.len() < REPORT_LINE || random.one_in(16) {
        return bytes.extend(pick(random, &[&b"\n"[..], b" ", b"       2  0  1  1          1\n"]));
    }
    let at = place(random, bytes.len());
    let lines = bytes.len() / REPORT_LINE;
    let (line, other) = (place(random, lines) * REPORT_LINE, place(random, lines) * REPORT_LINE);
    match random.below(9) {
        0 => bytes[at] ^= 1 << random.below(8),
        1 => bytes[at] = pick(random, b" 0123456789\n"),
        2 => {
            bytes.remove(at);
        }
        3 => bytes.insert(at, pick(random, b" 0\n")),
        4 => bytes.truncate(pick(random, &[at, line])),
        5 => {
            bytes.drain(line..line + REPORT_LINE);
        }
        6 => bytes.extend_from_within(line..line + REPORT_LINE),
        7 => (0..REPORT_LINE).for_each(|i| bytes.swap(line + i, other + i)),
        // With the lines of refusals, if it has the order by labels.
        _ => *bytes = report(schedule),
    }
}

fn change_schedule(random: &mut Random, schedule: &mut Vec<u8>) {
    if schedule.len() < 2 * LINE {
        return schedule.extend(b"  1  3          0\n");
    }
    let at = place(random, schedule.len());
    let line = LINE * (1 + place(random, schedule.len() / LINE - 1));
    match random.below(5) {
        0 => schedule[at] = pick(random, b" 0123456789\n"),
        1 => {
            schedule.drain(line..line + LINE);
        }
        2 => schedule.extend_from_within(line..line + LINE),
        3 => schedule[line + 2] = b'1' + random.below(4) as u8,
        _ => schedule[line + 5] = b'1' + random.below(7) as u8,
    }
}

/// The log of a schedule with this index: one in three is right, unless its schedule is refused.
pub fn log(seed: u64, index: u64, schedule: Vec<u8>) -> Log {
    let random = &mut source(seed, 10, index);
    let mut log = right(random, schedule);
    match random.below(6) {
        0 | 1 => {}
        2 => change_numbers(random, &mut log.numbers),
        3 => change_report(random, &mut log),
        4 => change_schedule(random, &mut log.schedule),
        _ => {
            change_numbers(random, &mut log.numbers);
            change_report(random, &mut log);
        }
    }
    log
}

/// Its numbers as a file, which a number of more than 11 digits spoils; one in eight is damaged.
pub fn numbers_file(random: &mut Random, numbers: &[u64]) -> Vec<u8> {
    let mut bytes = numbers.iter().flat_map(|number| format!("{number:11}\n").into_bytes()).collect::<Vec<u8>>();
    if !bytes.is_empty() && random.one_in(8) {
        let at = place(random, bytes.len());
        match random.below(3) {
            0 => bytes.truncate(at),
            1 => bytes[at] = pick(random, b" 0\n+x\r"),
            _ => bytes.insert(at, pick(random, b" 0\n")),
        }
    }
    bytes
}
