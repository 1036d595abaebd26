//! Boards by index, reached or made up or damaged, and the calls on them.

use crate::boards::{self, LAST_PHASE};
use crate::draw::{any_step, pick, source, Stations, Step};
use ticket_bench::generate::Random;
use ticket_bench::plain::{Table, MAX_DIGITS, MAX_STATIONS, REPORT_LINE};
use tickets::{Board, CURRENT, JOBS, PENDING, PHASES, SERVICE, STATIONS};

/// What is lent for the result of a scan: a report area of so many bytes, or a panel of so many records.
#[derive(Clone, Copy, Debug)]
pub enum Lent {
    Report(usize),
    Panel(usize),
}

/// A step, what is lent to it, and the seed of what that holds before.
pub struct Call {
    pub step: Step,
    pub lent: Lent,
    pub old: u64,
}

/// All calls on the board with this index go by one run of numbers.
pub struct Session {
    random: Random,
    stations: Stations,
    /// One step in so many is of any kind.
    any_in: u64,
    pub n: u64,
    pub board: Board,
    /// Whether the board is first made a fresh one.
    pub fresh: bool,
    pub calls: u64,
}

pub fn noise(random: &mut Random) -> Board {
    let mut board = boards::board(&Table::fresh(MAX_STATIONS));
    board.count = 2 + random.below(31);
    board.labels.iter_mut().flatten().flatten().for_each(|b| *b = random.word() as u8);
    board.jobs.iter_mut().flatten().for_each(|b| *b = random.word() as u32);
    board.control.iter_mut().flatten().for_each(|b| *b = random.word() as u8);
    board.results.iter_mut().flatten().flatten().for_each(|b| *b = random.word() as u32);
    board
}

/// Digits that follow a drawn prefix tree: after each prefix one digit is the usual one and one of 3, 4, 5 is left out, so there is no ring.
fn label(random: &mut Random, n: usize, tree: u64, stray_in: u64) -> [u8; MAX_DIGITS] {
    let mut label = [1; MAX_DIGITS];
    let mut prefix = tree;
    for digit in &mut label[..n - 1] {
        let drawn = Random(prefix).word();
        let usual = 1 + (drawn % 5) as u8;
        let left_out = 3 + (drawn >> 32) as u8 % 3;
        *digit = if random.one_in(stray_in) { 1 + random.below(5) as u8 } else { usual };
        if *digit == left_out {
            *digit = 1 + (drawn >> 40) as u8 % 2;
        }
        prefix = drawn ^ u64::from(*digit);
    }
    label
}

/// How many stations the scan result of a station, from 0, shows: those before the first 0.
fn shown(board: &Board, i: usize) -> usize {
    board.results[i][STATIONS].iter().take_while(|&&station| station != 0).count()
}

/// A job of any length, not 0.
fn job(random: &mut Random) -> u32 {
    (random.word() as u32 >> random.below(32)).max(1)
}

/// A well-formed board that no steps need to reach.
fn made_up(random: &mut Random, n: usize) -> Board {
    let mut board = boards::board(&Table::fresh(n));
    let tree = random.word();
    let stray_in = pick(random, &[2, 4, 16, 64]);
    let no_job_in = pick(random, &[1, 2, 4, 1 << 40]);
    let out_in = pick(random, &[1, 2, 4, 1 << 40]);
    for i in 0..n {
        board.labels[CURRENT][i] = label(random, n, tree, stray_in);
        // A pending label may be any row of digits, and close a ring.
        board.labels[PENDING][i][..n - 1].iter_mut().for_each(|d| *d = 1 + random.below(5) as u8);
        board.jobs[CURRENT][i] = if random.one_in(no_job_in) { 0 } else { random.word() as u32 };
        board.jobs[PENDING][i] = random.word() as u32 >> random.below(32);
        let mut stations: Vec<u32> = (1..=n as u32).collect();
        let some = below(random, n + 1);
        for place in 0..pick(random, &[0, some, some, n]) {
            board.results[i][STATIONS][place] = stations.swap_remove(below(random, stations.len()));
            board.results[i][JOBS][place] = job(random);
        }
        board.control[PHASES][i] = random.below(u64::from(LAST_PHASE) + 1) as u8;
        board.control[SERVICE][i] = u8::from(board.control[PHASES][i] == 0 && random.one_in(out_in));
    }
    board
}

fn below(random: &mut Random, bound: usize) -> usize {
    random.below(bound as u64) as usize
}

/// Changes one thing in a scan result, mostly one that shows stations.
fn damage_result(random: &mut Random, board: &mut Board) {
    let n = board.count as usize;
    let not_empty: Vec<usize> = (0..n).filter(|&i| shown(board, i) > 0).collect();
    let i = if not_empty.is_empty() || random.one_in(4) { below(random, n) } else { pick(random, &not_empty) };
    let shown = shown(board, i);
    let job = job(random);
    // A place with a station, the first without one, and any.
    let place = below(random, shown.max(1));
    let next = shown.min(MAX_STATIONS - 1);
    let any = below(random, MAX_STATIONS);
    let station = 1 + below(random, n) as u32;
    let none = pick(random, &[n as u32 + 1, 33, 64, 65, 255, 256, u32::MAX]);
    let [stations, jobs] = &mut board.results[i];
    match random.below(14) {
        // A hole, unless the last station goes; a station after one, mostly.
        0 => (stations[place], jobs[place]) = (0, 0),
        1 => (stations[any], jobs[any]) = (station, job),
        // A station twice.
        2 => stations[place] = stations[below(random, shown.max(1))],
        3 => (stations[next], jobs[next]) = (stations[place], job),
        // A job without a station.
        4 => stations[place] = 0,
        5 => jobs[next] = job,
        6 => jobs[any] = job,
        // A station without a job.
        7 => jobs[place] = 0,
        8 => stations[next] = station,
        // No station of the board.
        9 => stations[place] = none,
        10 => (stations[next], jobs[next]) = (none, job),
        // A station with a bit more: its low bits are still the station.
        11 => stations[any] ^= 1 << pick(random, &[6, 7, 8, 9, 15, 16, 17, 24, 30, 31]),
        // One station more: well-formed, if it is a new one and not past n.
        12 => (stations[next], jobs[next]) = (station, job),
        // Shorter: well-formed.
        _ => {
            stations[place..].fill(0);
            jobs[place..].fill(0);
        }
    }
}

/// Changes one thing, mostly into something that is not well formed. A change may also leave the board as it was.
fn damage(random: &mut Random, board: &mut Board) {
    let n = board.count as usize;
    let i = below(random, n);
    let past = if n < MAX_STATIONS { n + below(random, MAX_STATIONS - n) } else { i };
    let position = below(random, MAX_DIGITS);
    let digit = pick(random, &[0, 1, 2, 3, 4, 5, 6, 7, 128, 255]);
    let number = job(random);
    match random.below(28) {
        0 => board.labels[CURRENT][i][position] = digit,
        1 => board.labels[PENDING][i][position] = digit,
        2 => board.labels[CURRENT][past][position] = digit,
        3 => board.labels[PENDING][past][position] = digit,
        4 => board.jobs[CURRENT][past] = number,
        5 => board.jobs[PENDING][past] = number,
        6 => board.control[PHASES][past] = random.below(8) as u8,
        7 => board.control[PHASES][i] = pick(random, &[5, 5, 6, 7, 8, 127, 128, 255, 0, 2, 4]),
        8 => board.results[past][STATIONS][below(random, MAX_STATIONS)] = random.below(34) as u32,
        9 => board.results[past][JOBS][below(random, MAX_STATIONS)] = number,
        10 => (board.results[past][STATIONS][0], board.results[past][JOBS][0]) = (1 + random.below(n as u64) as u32, number),
        // Another count: fields that fitted n do not fit it.
        11 => {
            let n = n as u64;
            board.count = pick(random, &[0, 1, n - 1, n + 1, 33, 34, n + 32, n + 256, n + (1 << 32), n | 1 << 63, u64::MAX, 1 << 32]);
        }
        // A ring: three stations with the same digits up to a position and 3, 4, 5 there; sometimes only two of the three.
        12 | 13 => {
            let at = below(random, n - 1);
            let mut three = [i, below(random, n), below(random, n)];
            let labels = &mut board.labels[CURRENT];
            let shared = labels[i];
            let digits = pick(random, &[[3, 4, 5], [3, 5, 4], [5, 3, 4], [3, 4, 4], [2, 4, 5], [1, 3, 5]]);
            if n > 2 && random.below(4) > 0 {
                three = [i, (i + 1) % n, (i + 2) % n];
            }
            for (station, digit) in three.into_iter().zip(digits) {
                labels[station][..at].copy_from_slice(&shared[..at]);
                labels[station][at] = digit;
            }
        }
        // A ring among pending labels is none.
        14 => {
            for (k, digit) in [3, 4, 5].into_iter().enumerate() {
                board.labels[PENDING][(i + k) % n][below(random, n - 1)] = digit;
            }
        }
        15 => board.labels[CURRENT][i] = board.labels[PENDING][below(random, n)],
        // Service numbers that are none, and stations out past n; out of service, which a busy station may not be, and busy, which one out may not be.
        16 => board.control[SERVICE][i] = pick(random, &[2, 3, 4, 127, 128, 129, 254, 255]),
        17 => board.control[SERVICE][past] = pick(random, &[1, 1, 1, 2, 128, 255]),
        18 => board.control[SERVICE][i] ^= 1,
        19 => (board.control[PHASES][i], board.control[SERVICE][i]) = (random.below(5) as u8, 1),
        // Any one number of the small arrays.
        20 => {
            let (row, at) = (below(random, MAX_STATIONS), below(random, MAX_STATIONS));
            match random.below(5) {
                0 => board.labels[CURRENT][row][position] = random.word() as u8,
                1 => board.labels[PENDING][row][position] = random.word() as u8,
                2 => board.results[row][STATIONS][at] = random.word() as u32 >> random.below(32),
                3 => board.control[PHASES][row] = random.word() as u8,
                _ => board.control[SERVICE][row] = random.word() as u8,
            }
        }
        _ => damage_result(random, board),
    }
}

/// Random digits, rings and all, on a board that is else well formed.
fn any_digits(random: &mut Random, n: usize) -> Board {
    let mut board = made_up(random, n);
    let spread = pick(random, &[2, 8, 64]);
    let labels = &mut board.labels[CURRENT];
    for i in 1..n {
        labels[i] = labels[below(random, i)];
        for digit in &mut labels[i][..n - 1] {
            if random.one_in(spread) {
                *digit = 1 + random.below(5) as u8;
            }
        }
    }
    board
}

impl Session {
    /// All numbers of stations come in turn.
    pub fn new(seed: u64, index: u64) -> Session {
        let mut random = source(seed, 2, index);
        let n = 2 + index % 31;
        let (board, calls, fresh) = match random.below(8) {
            0 | 1 => (made_up(&mut random, n as usize), 1 + random.below(40), false),
            2 => (any_digits(&mut random, n as usize), 1, false),
            3 if random.one_in(8) => (noise(&mut random), 1, false),
            _ => (noise(&mut random), 1 + random.below(300), true),
        };
        let stations = Stations::new(&mut random, n);
        let any_in = pick(&mut random, &[1 << 40, 16, 4]);
        Session { random, stations, any_in, n, board, fresh, calls }
    }

    /// A count for `tickets_fresh`, mostly not one of 2 to 32.
    pub fn other_count(&mut self) -> u64 {
        let n = self.n;
        pick(&mut self.random, &[0, 1, 2, 32, 33, 34, 255, n + 32, n + 256, n + (1 << 32), n | 1 << 63, u64::MAX, 1 << 32])
    }

    /// The next call on the board.
    pub fn call(&mut self) -> Call {
        let Session { random, stations, board, n, .. } = self;
        let step = if random.one_in(self.any_in) { any_step(random, *n) } else { stations.step(random, &board.control) };
        // What the station has to show, whichever step this is.
        let records = if (1..=*n).contains(&step.station) { shown(board, step.station as usize - 1) } else { 0 };
        let bytes = records * REPORT_LINE;
        let lent = match random.below(16) {
            0 => Lent::Report(bytes.saturating_sub(1)),
            1 => Lent::Report(bytes + 1),
            2 => Lent::Report(below(random, bytes + 1)),
            3 => Lent::Report(bytes + below(random, 64)),
            4 => Lent::Report(pick(random, &[0, 1, 28, 29, 58, bytes.saturating_sub(29), 928, 929, 1000])),
            5..8 => Lent::Report(bytes),
            8 => Lent::Panel(records.saturating_sub(1)),
            9 => Lent::Panel(records + 1),
            10 => Lent::Panel(below(random, records + 1)),
            11 => Lent::Panel(records + below(random, 40)),
            12 => Lent::Panel(pick(random, &[0, 0, 1, 31, 32, 32, 33, 40])),
            _ => Lent::Panel(records),
        };
        Call { step, lent, old: random.word() }
    }

    /// Now and then a damaged copy of the board, for a call that the board itself does not see.
    pub fn damaged(&mut self) -> Option<Board> {
        if !self.random.one_in(4) {
            return None;
        }
        let mut board = self.board.clone();
        for _ in 0..if self.random.one_in(8) { 3 } else { 1 } {
            if (2..=32).contains(&board.count) {
                damage(&mut self.random, &mut board);
            }
        }
        Some(board)
    }
}
