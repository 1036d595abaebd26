//! Schedule files by index: valid, refused here and there, and damaged.

use crate::draw::{after, any_step, pick, source, Stations, Step};
use ticket_bench::generate::Random;
use ticket_bench::plain::LINE;

const COLUMNS: [(usize, usize); 3] = [(0, 3), (3, 6), (6, 17)];

/// A number at the right edge of a column; the digits that do not fit are left out.
fn put(column: &mut [u8], mut number: u64) {
    for byte in column.iter_mut().rev() {
        *byte = b'0' + (number % 10) as u8;
        number /= 10;
        if number == 0 {
            break;
        }
    }
}

fn line(station: u64, code: u64, job: u64) -> [u8; LINE] {
    let mut bytes = [b' '; LINE];
    for ((from, to), number) in COLUMNS.into_iter().zip([station, code, job]) {
        put(&mut bytes[from..to], number);
    }
    bytes[LINE - 1] = b'\n';
    // A number whose low digits begin with 0 was too long for its column: show what is left without the needless 0.
    for (from, to) in COLUMNS {
        for i in from..to - 1 {
            if bytes[i] == b'0' && bytes[from..i].iter().all(|&b| b == b' ') {
                bytes[i] = b' ';
            }
        }
    }
    bytes
}

fn header(random: &mut Random, n: u64) -> [u8; LINE] {
    let any = |random: &mut Random, usual: u64, others: &[u64]| if random.one_in(2) { usual } else { pick(random, others) };
    let count = any(random, n, &[0, 1, 2, 32, 33, 34, 64, 99, 100, 255, 256, 258, 288, 512, 514, 999]);
    let code = any(random, 0, &[0, 1, 2, 3, 5, 6, 10, 100, 255, 256, 512, 999]);
    let job = any(random, 0, &[0, 1, 10, 4_294_967_295, 4_294_967_296, 8_589_934_592, 99_999_999_999]);
    line(count, code, job)
}

/// The lines of a file: few are refused, or many, or none.
fn valid(random: &mut Random, n: u64, lines: u64) -> Vec<u8> {
    let mut stations = Stations::new(random, n);
    let refused_in = pick(random, &[1 << 40, 32, 4]);
    let mut control = [[0; 32]; 2];
    let mut bytes = Vec::with_capacity((lines as usize + 2) * LINE);
    bytes.extend(line(n, 0, 0));
    for _ in 0..lines {
        let Step { station, code, job } = if random.one_in(refused_in) { any_step(random, n) } else { stations.step(random, &control) };
        bytes.extend(line(station, code, job));
        // As the line is read, the job aside: what is wrong here only makes the next line a refused one.
        if let Some(i) = (station as usize).checked_sub(1).filter(|&i| i < 32) {
            (control[0][i], control[1][i]) = after((control[0][i], control[1][i]), code);
        }
    }
    bytes
}

/// A column with something that is not a number at its right edge, or just is one.
fn damage_column(random: &mut Random, column: &mut [u8]) {
    let width = column.len();
    column.fill(b' ');
    let last = width - 1;
    match random.below(12) {
        0 => {}
        1 => column[last - 1] = b'1',
        2 => column[last - 1..].copy_from_slice(b"01"),
        3 => column.fill(b'0'),
        4 => column.fill(b'9'),
        5 => column[last - 1..].copy_from_slice(b"00"),
        6 => column[last - 1..].copy_from_slice(pick(random, &[b"+1", b"-1", b"\t1", b"1\t", b"\n1", b"1\n", b"1\r", b"\x001"])),
        7 => {
            column[0] = b'1';
            column[last] = b'1';
        }
        8 => column[last] = pick(random, b"/:aA.\0\n\r\t\xff\xb1\x80\x7f"),
        9 => column[random.below(width as u64) as usize] = random.word() as u8,
        10 => {
            column.fill(b'1');
            column[random.below(width as u64) as usize] = pick(random, b"/: 0a\n\xb1");
        }
        _ => column.iter_mut().for_each(|b| *b = pick(random, b"  00123456789")),
    }
}

fn damage(random: &mut Random, n: u64, bytes: &mut Vec<u8>) {
    let len = bytes.len();
    let at = random.below(len as u64) as usize;
    let lines = len / LINE;
    // A line, the header as often as all others.
    let any_line = if random.one_in(2) { 0 } else { random.below(lines as u64) as usize * LINE };
    match random.below(10) {
        0 => bytes.truncate(at),
        1 => bytes[at] = random.word() as u8,
        2 => bytes[at] ^= 1 << random.below(8),
        3 => bytes[at] = pick(random, b" 0123456789\n"),
        4 => {
            bytes.remove(at);
        }
        5 => bytes.insert(at, pick(random, b" 01\n")),
        6 => {
            let (from, to) = pick(random, &COLUMNS);
            damage_column(random, &mut bytes[any_line + from..any_line + to]);
        }
        7 => bytes[any_line + LINE - 1] = pick(random, b"\r 0\0\x0b"),
        8 => {
            let other = header(random, n);
            bytes[any_line..any_line + LINE].copy_from_slice(&other);
        }
        _ => {
            for _ in 0..1 + random.below(4) {
                let at = random.below(len as u64) as usize;
                bytes[at] = random.word() as u8;
            }
        }
    }
}

/// Bytes with no thought of lines.
fn noise(random: &mut Random) -> Vec<u8> {
    let some = random.below(80);
    let len = pick(random, &[0, 17, 18, 19, some, some]);
    let digits = random.one_in(2);
    (0..len).map(|_| if digits { pick(random, b"    00123456789\n") } else { random.word() as u8 }).collect()
}

/// The file with this index. All numbers of stations come in turn.
pub fn file(seed: u64, index: u64) -> Vec<u8> {
    any(source(seed, 1, index), index, 32, 512)
}

/// A file whose snaps are numbered: more of these are long, and some have too many lines.
pub fn numbered(seed: u64, index: u64) -> Vec<u8> {
    any(source(seed, 6, index), index, 8, 128)
}

/// The schedule of a log, of the same kind.
pub fn logged(seed: u64, index: u64) -> Vec<u8> {
    any(source(seed, 9, index), index, 8, 128)
}

/// One file in so many is long, or very long.
fn any(mut random: Random, index: u64, long_in: u64, very_long_in: u64) -> Vec<u8> {
    let random = &mut random;
    let n = 2 + index % 31;
    if random.one_in(64) {
        return noise(random);
    }
    let lines = if random.one_in(very_long_in) {
        random.below(6000)
    } else if random.one_in(long_in) {
        random.below(600)
    } else {
        random.below(61)
    };
    let mut bytes = valid(random, n, lines);
    match random.below(8) {
        // Any header before the same lines.
        0 => {
            let other = header(random, n);
            bytes[..LINE].copy_from_slice(&other);
        }
        1..=3 => damage(random, n, &mut bytes),
        _ => {}
    }
    bytes
}
