//! What is drawn for files and for calls alike: steps of stalling stations, and steps of any kind.

use ticket_bench::generate::Random;

/// The generator of the one file or board with this index: any can be made again alone.
pub fn source(seed: u64, kind: u64, index: u64) -> Random {
    let mixed = Random(seed).word() ^ Random(index ^ kind << 56).word();
    Random(mixed)
}

pub fn pick<T: Copy>(random: &mut Random, from: &[T]) -> T {
    from[random.below(from.len() as u64) as usize]
}

#[derive(Clone, Copy, Debug)]
pub struct Step {
    pub station: u64,
    pub code: u64,
    pub job: u64,
}

/// A job of any length up to 32 bits, not 0; often a limit.
fn job(random: &mut Random) -> u64 {
    match random.below(8) {
        0 => pick(random, &[1, 9, 10, 4_294_967_295, 4_294_967_294, 2_147_483_648, 1_000_000_000]),
        _ => {
            let bits = 1 + random.below(32);
            (random.word() >> (64 - bits)).max(1)
        }
    }
}

/// Phase and service number of a station after a step; they stay if the step is refused by them.
pub fn after((phase, service): (u8, u8), code: u64) -> (u8, u8) {
    match (phase, service, code) {
        (0, 0, 1) => (1, 0),
        (0, 0, 2) => (4, 0),
        (1, _, 3) => (2, service),
        (2, _, 4) => (3, service),
        (3 | 4, _, 5) => (0, service),
        (0, 0, 6) => (0, 1),
        (_, 1, 7) => (phase, 0),
        _ => (phase, service),
    }
}

/// Some of the stations at work, some of them stalling, most between their snap and their update, and some out of service.
pub struct Stations {
    at_work: Vec<u64>,
    /// Stalled, or out of service, up to this moment.
    until: Vec<u64>,
    now: u64,
    /// One snap for a label in so many is followed by a stall, which lasts up to so many steps.
    stall_in: u64,
    stall_for: u64,
    scan_in: u64,
    /// One idle station in so many leaves service, for as long as a stall lasts.
    leave_in: u64,
}

impl Stations {
    pub fn new(random: &mut Random, n: u64) -> Stations {
        let few = random.below(3) > 0;
        let size = if few { 1 + random.below(n.min(6)) } else { n };
        let mut stations: Vec<u64> = (1..=n).collect();
        for i in 0..size as usize {
            let j = i + random.below((stations.len() - i) as u64) as usize;
            stations.swap(i, j);
        }
        stations.truncate(size as usize);
        Stations {
            until: vec![0; stations.len()],
            at_work: stations,
            now: 0,
            stall_in: pick(random, &[1, 2, 2, 4, 16, 1 << 40]),
            stall_for: pick(random, &[4, 16, 64, 400]),
            scan_in: pick(random, &[2, 4, 4, 16]),
            leave_in: pick(random, &[4, 16, 64, 1 << 40]),
        }
    }

    /// The next step of a station that does not stall; when all do, the one that would go on first. The phases and service numbers of all stations are
    /// given as they stand.
    pub fn step(&mut self, random: &mut Random, [phases, service]: &[[u8; 32]; 2]) -> Step {
        self.now += 1;
        let start = random.below(self.at_work.len() as u64) as usize;
        let places = (start..self.at_work.len()).chain(0..start);
        let at = places.min_by_key(|&i| self.until[i].max(self.now)).unwrap_or(0);
        let station = self.at_work[at];
        let now = (phases[station as usize - 1], service[station as usize - 1]);
        let code = match now {
            // Some steps that are refused by 14, after which it stays out.
            (_, 1) if random.one_in(4) => pick(random, &[1, 2, 6]),
            (_, 1) => 7,
            (0, _) if random.one_in(self.leave_in) => 6,
            (0, _) if random.one_in(self.scan_in) => 2,
            (0, _) => 1,
            (1, _) => 3,
            (2, _) => 4,
            _ => 5,
        };
        let stalls = match after(now, code) {
            (_, 1) => true,
            (2, _) => random.one_in(self.stall_in),
            (1 | 4, _) => random.one_in(8 * self.stall_in),
            _ => false,
        };
        if stalls {
            self.until[at] = self.now + 1 + random.below(self.stall_for);
        }
        Step { station, code, job: if code == 1 { job(random) } else { 0 } }
    }
}

/// A step of any kind, its numbers small, at limits, or at the extremes of 64 bits.
pub fn any_step(random: &mut Random, n: u64) -> Step {
    const EXTREMES: [u64; 16] = [
        u64::MAX,
        u64::MAX - 1,
        1 << 63,
        (1 << 63) + 1,
        i64::MAX as u64,
        1 << 32,
        (1 << 32) + 1,
        (1 << 32) + 3,
        (1 << 32) + 6,
        (1 << 32) + 7,
        u32::MAX as u64,
        256,
        257,
        259,
        262,
        263,
    ];
    let station = match random.below(8) {
        0 => pick(random, &[0, n + 1, n - 1, 32, 33, 34, 99, 100, 999, 256 + n]),
        1 => pick(random, &EXTREMES),
        _ => 1 + random.below(n),
    };
    let code = match random.below(8) {
        0 => pick(random, &[0, 8, 8, 9, 10, 11, 13, 15, 255, 999]),
        1 => pick(random, &EXTREMES),
        _ => 1 + random.below(7),
    };
    let job = match random.below(8) {
        0 => pick(random, &EXTREMES),
        1 => pick(random, &[4_294_967_296, 4_294_967_297, 9_999_999_999, 10_000_000_000, 42_949_672_950, 99_999_999_999]),
        2 => random.word(),
        3 => job(random),
        // Mostly the job that the code asks for.
        _ if code == 1 => job(random),
        _ => 0,
    };
    Step { station, code, job }
}
