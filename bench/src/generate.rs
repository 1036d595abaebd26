//! Schedules by a seed. The generator keeps of each station its phase and whether it is in service, and no labels but for schedules that are crowded.

use crate::plain::{put, shared, step, Operation, Phase, Table, LINE};

/// SplitMix64.
pub struct Random(pub u64);

impl Random {
    pub fn word(&mut self) -> u64 {
        self.0 = self.0.wrapping_add(0x9e37_79b9_7f4a_7c15);
        let mut z = self.0;
        z = (z ^ (z >> 30)).wrapping_mul(0xbf58_476d_1ce4_e5b9);
        z = (z ^ (z >> 27)).wrapping_mul(0x94d0_49bb_1331_11eb);
        z ^ (z >> 31)
    }

    /// A number below `bound`; the bounds are small, so the bias does not matter.
    pub fn below(&mut self, bound: u64) -> u64 {
        self.word() % bound
    }

    pub fn one_in(&mut self, bound: u64) -> bool {
        self.below(bound) == 0
    }

    fn pick<T: Copy>(&mut self, from: &[T]) -> T {
        from[self.below(from.len() as u64) as usize]
    }
}

/// How a schedule ends: after its last line, or with one more line that ends the reading.
#[derive(Clone, Copy, PartialEq, Eq, Debug)]
pub enum Ending {
    Plain,
    /// Refusal 8: a line cut short.
    Incomplete,
    /// Refusal 9: a column with a needless 0.
    Column,
    /// Refusal 12 after 1,000,000 lines, and else one line more.
    OneMore,
}

struct Player {
    phase: Phase,
    /// Out of service.
    out: bool,
    /// Stalled, or out of service, up to this line.
    until: u64,
}

fn line(station: u64, code: u64, job: u64) -> [u8; LINE] {
    let mut bytes = [b' '; LINE];
    put(&mut bytes[..3], station as u32);
    put(&mut bytes[3..6], code as u32);
    put_long(&mut bytes[6..17], job);
    bytes[LINE - 1] = b'\n';
    bytes
}

/// `put` for a number past 32 bits.
fn put_long(column: &mut [u8], number: u64) {
    if number < 1_000_000_000 {
        put(column, number as u32);
    } else {
        let (high, low) = column.split_at_mut(column.len() - 9);
        put(high, (number / 1_000_000_000) as u32);
        low.fill(b'0');
        put(low, (number % 1_000_000_000) as u32);
    }
}

/// A job of any length: not 0, below 2 to the power of 1 to 32.
fn job(random: &mut Random) -> u64 {
    let bits = 1 + random.below(32);
    (random.word() >> (64 - bits)).max(1)
}

/// How long a station stalls or is out of service: mostly up to so many rounds of the others, now and then for hundreds of them.
fn stall(random: &mut Random, n: u64, rounds: u64) -> u64 {
    let rounds = if random.one_in(64) { 400 } else { rounds };
    1 + random.below(rounds * n)
}

/// A line that is refused: with 2, 10 or 11, with 14 or 15, or by the phase of its station.
fn refused(random: &mut Random, n: u64, players: &[Player]) -> [u8; LINE] {
    let station = 1 + random.below(n);
    let phase = players[station as usize - 1].phase;
    match random.below(8) {
        0 => line(random.pick(&[0, n + 1, n + 1, n + 256, 999]), 1 + random.below(7), 0),
        1 => line(station, random.pick(&[0, 8, 9, 255, 257, 263, 999]), random.pick(&[0, 0, 7])),
        2 if random.one_in(2) => line(station, 1, random.pick(&[0, 4_294_967_296, 99_999_999_999])),
        2 => line(station, 2 + random.below(6), job(random)),
        // 14 or 15: half of the time of a station that is out of service, if one is.
        3 => {
            let first_out = (0..n).map(|k| 1 + (station - 1 + k) % n).find(|&k| players[k as usize - 1].out);
            let named = first_out.filter(|_| random.one_in(2)).unwrap_or(station);
            match random.pick(&[1, 2, 6]) {
                _ if !players[named as usize - 1].out => line(named, 7, 0),
                1 => line(named, 1, job(random)),
                code => line(named, code, 0),
            }
        }
        // 3 to 6: a code that the phase does not allow.
        _ if phase == Phase::Idle => line(station, 3 + random.below(3), 0),
        _ => {
            let allowed = match phase {
                Phase::Snap => 3,
                Phase::Update => 4,
                _ => 5,
            };
            match random.pick(&[1, 2, 3, 4, 5, 6]) {
                1 => line(station, 1, job(random)),
                code if code == allowed => line(station, 2, 0),
                code => line(station, code, 0),
            }
        }
    }
}

/// A schedule of n stations with so many step lines, and the line of its ending.
pub fn schedule(n: u64, lines: u64, seed: u64, ending: Ending) -> Vec<u8> {
    mixed(n, lines, seed, ending, 16, 20)
}

/// A schedule in which stalls are shorter, but one snap for a label in two is followed by one: so most labels are given with others pending.
pub fn stalled(n: u64, lines: u64, seed: u64) -> Vec<u8> {
    mixed(n, lines, seed, Ending::Plain, 2, 2)
}

/// One snap for a label in `stall_in` is followed by a stall, mostly of up to so many rounds.
fn mixed(n: u64, lines: u64, seed: u64, ending: Ending, stall_in: u64, rounds: u64) -> Vec<u8> {
    assert!((2..=32).contains(&n), "2 to 32 stations");
    let mut random = Random(seed ^ n << 32);
    let mut players: Vec<Player> = (0..n).map(|_| Player { phase: Phase::Idle, out: false, until: 0 }).collect();
    let mut awake = Vec::new();
    let mut bytes = Vec::with_capacity((lines as usize + 2) * LINE);
    bytes.extend(line(n, 0, 0));
    for now in 1..=lines {
        if random.one_in(32) {
            bytes.extend(refused(&mut random, n, &players));
            continue;
        }
        awake.clear();
        awake.extend((0..players.len()).filter(|&i| players[i].until < now));
        // When all stall, the first that would go on does so at once.
        let first = (0..players.len()).min_by_key(|&i| players[i].until);
        let i = if awake.is_empty() { first.unwrap_or(0) } else { random.pick(&awake) };
        let player = &mut players[i];
        let (code, job, next) = match player.phase {
            Phase::Idle if player.out => (7, 0, Phase::Idle),
            Phase::Idle if random.one_in(64) => (6, 0, Phase::Idle),
            Phase::Idle if random.one_in(4) => (2, 0, Phase::End(Operation::Scan)),
            Phase::Idle => (1, job(&mut random), Phase::Snap),
            Phase::Snap => (3, 0, Phase::Update),
            Phase::Update => (4, 0, Phase::End(Operation::Label)),
            Phase::End(_) => (5, 0, Phase::Idle),
        };
        let stalls = match next {
            _ if code == 6 => true,
            // After the begin of either operation.
            Phase::Snap | Phase::End(Operation::Scan) => random.one_in(32),
            Phase::Update => random.one_in(stall_in),
            _ => false,
        };
        if stalls {
            player.until = now + stall(&mut random, n, rounds);
        }
        player.phase = next;
        player.out = code == 6;
        bytes.extend(line(i as u64 + 1, code, job));
    }
    match ending {
        Ending::Plain => {}
        Ending::Incomplete => bytes.extend(&line(1, 1, 1)[..LINE - 1]),
        Ending::Column => bytes.extend(b" 01  1          1\n"),
        Ending::OneMore => bytes.extend(line(1, 1, 1)),
    }
    bytes
}

/// A schedule that makes much work for whoever numbers its snaps: no line is refused, all operations are LABELs, and no snap is by the newest station. One
/// station after another snaps and stalls for good, each with a label that none of those still at work will pass, until two are left. So each snap of
/// these is given a number below those of all that stall.
pub fn crowded(n: u64, lines: u64, seed: u64) -> Vec<u8> {
    assert!((2..=32).contains(&n), "2 to 32 stations");
    let mut random = Random(seed ^ n << 32);
    let mut table = Table::fresh(n as usize);
    let digits = n as usize - 1;
    // Those at work; the first of them is the next to stall.
    let mut at_work: Vec<usize> = (0..n as usize).collect();
    let mut bytes = line(n, 0, 0).to_vec();
    while bytes.len() <= lines as usize * LINE {
        let newest = table.newest();
        let kept = |i: usize| shared(&table.next_label(i, newest), &table.stations[newest].label, digits);
        // It may stall once its new label keeps fewer digits of the top label than those of all others.
        let stalled = table.n - at_work.len();
        let next = at_work[0];
        let ready = at_work.len() > 2 && next != newest && kept(next) == stalled && at_work[1..].iter().all(|&i| i == newest || kept(i) > stalled);
        let (i, codes) = if ready {
            (at_work.remove(0), &[1, 3][..])
        } else {
            let order = table.order();
            let others = if at_work.len() > 2 { &at_work[1..] } else { &at_work[..] };
            let oldest = order.iter().map(|&i| usize::from(i)).find(|i| others.contains(i)).unwrap_or(0);
            (oldest, &[1, 3, 4, 5][..])
        };
        for &code in codes {
            let (station, job) = (i as u64 + 1, if code == 1 { job(&mut random) } else { 0 });
            step(&mut table, code, station, job, &mut []);
            bytes.extend(line(station, code, job));
        }
    }
    bytes.truncate((lines as usize + 1) * LINE);
    bytes
}

/// A schedule with the longest report that so many lines can have: all stations take labels, then the first scans, over and over.
pub fn scans(n: u64, lines: u64, seed: u64) -> Vec<u8> {
    assert!((2..=32).contains(&n), "2 to 32 stations");
    let mut random = Random(seed ^ n << 32);
    let mut bytes = line(n, 0, 0).to_vec();
    for station in 1..=n {
        bytes.extend([line(station, 1, job(&mut random)), line(station, 3, 0), line(station, 4, 0)].as_flattened());
    }
    bytes.extend(line(1, 5, 0));
    while bytes.len() <= lines as usize * LINE {
        bytes.extend([line(1, 2, 0), line(1, 5, 0)].as_flattened());
    }
    bytes.truncate((lines as usize + 1) * LINE);
    bytes
}

/// Schedules with the most lines that are numbered, by their kind and n; one without a step line, and one of 1,000,000, which is refused.
pub fn longest(seed: u64) -> Vec<(String, Vec<u8>)> {
    let steps = crate::numbers::MAX_STEPS as u64;
    let all = u64::from(crate::plain::MAX_STEPS);
    let mut schedules =
        vec![("no step line".to_string(), schedule(2, 0, seed, Ending::Plain)), (format!("{all} lines"), schedule(2, all, seed, Ending::Plain))];
    for n in [2, 4, 8, 16, 32] {
        schedules.push((format!("mixed, n = {n}"), schedule(n, steps, seed, Ending::Plain)));
        schedules.push((format!("stalled, n = {n}"), stalled(n, steps, seed)));
        schedules.push((format!("crowded, n = {n}"), crowded(n, steps, seed)));
    }
    schedules
}
