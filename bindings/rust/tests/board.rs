//! The compiled library against the plain Rust table of `bench`, which was written from documents 01 and 02 (Cards 1, 2, 4 and 5) alone.

use std::array::from_fn;
use ticket_bench::generate::Random;
use ticket_bench::plain::{self, Operation, Phase, Station, Table};
use ticket_bench::FOLLOWS;
use tickets::{
    code, refusal, Answer, Board, Holders, Record, CURRENT, JOBS, MAX_DIGITS, MAX_STATIONS, PENDING, PHASES, REPORT_LINE, SERVICE, STATIONS,
};

/// The phases, in the order of their numbers.
const NAMED: [Phase; 5] = [Phase::Idle, Phase::Snap, Phase::Update, Phase::End(Operation::Label), Phase::End(Operation::Scan)];

/// The plain table with the contents of a board; none if a phase is no phase's number, a service number neither 0 nor 1, or a station in a result no
/// number of a byte. Such boards are refused by 13.
fn table(board: &Board) -> Option<Table> {
    let mut table = Table { n: board.count as usize, stations: from_fn(|_| Station::fresh()) };
    for (i, station) in table.stations.iter_mut().enumerate() {
        station.label = board.labels[CURRENT][i];
        station.job = board.jobs[CURRENT][i];
        station.pending_label = board.labels[PENDING][i];
        station.pending_job = board.jobs[PENDING][i];
        for (to, &number) in station.result.iter_mut().zip(&board.results[i][STATIONS]) {
            *to = number.try_into().ok()?;
        }
        station.result_jobs = board.results[i][JOBS];
        station.phase = *NAMED.get(usize::from(board.control[PHASES][i]))?;
        station.out = *[false, true].get(usize::from(board.control[SERVICE][i]))?;
    }
    Some(table)
}

fn board(table: &Table) -> Board {
    let s = &table.stations;
    Board {
        count: table.n as u64,
        jobs: [from_fn(|i| s[i].job), from_fn(|i| s[i].pending_job)],
        results: from_fn(|i| [s[i].result.map(u32::from), s[i].result_jobs]),
        labels: [from_fn(|i| s[i].label), from_fn(|i| s[i].pending_label)],
        control: [from_fn(|i| NAMED.iter().position(|&phase| phase == s[i].phase).unwrap() as u8), from_fn(|i| s[i].out.into())],
    }
}

fn bytes(board: &mut Board) -> &mut [u8; size_of::<Board>()] {
    // SAFETY: a board has no padding, and every pattern of bytes is one.
    unsafe { &mut *(board as *mut Board).cast() }
}

const GUARD: usize = 64;

/// A board in the midst of bytes that no call may touch; report buffers and panels are made for each call, with their own guards.
#[repr(C)]
struct Guarded {
    before: [u8; GUARD],
    board: Board,
    after: [u8; GUARD],
    buffer: Vec<u8>,
    panel: Vec<Record>,
}

/// What a caller lends for the result of a scan: a report buffer of so many bytes, or a panel of so many records.
#[derive(Clone, Copy, Debug)]
enum Lent {
    Report(usize),
    Panel(usize),
}

#[derive(Clone, Copy, Debug)]
struct Call {
    code: u64,
    station: u64,
    job: u64,
    lent: Lent,
}

/// What a record of a panel holds before a call, by its place there: nothing that a call would write.
fn old(at: usize) -> Record {
    Record { place: at as u32 ^ 0x3333_3333, station: u32::MAX - at as u32, job: at as u32 * 0x0101_0101 }
}

fn record(record: plain::Record) -> Record {
    let plain::Record { place, station, job } = record;
    Record { place, station, job }
}

fn plain_record(record: Record) -> plain::Record {
    let Record { place, station, job } = record;
    plain::Record { place, station, job }
}

impl Guarded {
    fn new(board: Board) -> Guarded {
        Guarded { before: [0xa5; GUARD], board, after: [0x5a; GUARD], buffer: Vec::new(), panel: Vec::new() }
    }

    /// Asks how many stations have the newest's label, and holds the answer, board and guards to what plain Rust says. The answer is returned.
    fn ask(&self) -> Result<usize, u64> {
        let before = self.board.clone();
        let (refusal, stations) = table(&before).map_or((refusal::BOARD, 0), |table| plain::top_holders(&table));
        assert_eq!(self.board.told(), Holders { refusal, stations: stations as u64 }, "{before:?}");
        assert!(self.board == before && self.before == [0xa5; GUARD] && self.after == [0x5a; GUARD]);
        self.board.top_holders()
    }

    /// Puts the question, makes the call, and holds answer, board, report buffer or panel, and guards to what the plain step says. The refusal is returned.
    fn call(&mut self, call: Call) -> u64 {
        let asked = self.ask();
        let Call { code, station, job, lent } = call;
        let mut expected = self.board.clone();
        let mut table = table(&expected);
        let (answer, expected_answer) = match lent {
            Lent::Report(room) => {
                self.buffer.clear();
                self.buffer.extend((0..GUARD + room + GUARD).map(|i| i as u8 ^ 0x33));
                let mut buffer = self.buffer.clone();
                let report = &mut buffer[GUARD..GUARD + room];
                let expected = table.as_mut().map_or((refusal::BOARD, 0), |table| plain::step(table, code, station, job, report));
                let answer = self.board.answer(code, station, job, &mut self.buffer[GUARD..GUARD + room]);
                assert!(self.buffer == buffer, "{call:?}");
                (answer, expected)
            }
            Lent::Panel(room) => {
                self.panel.clear();
                self.panel.extend((0..GUARD + room + GUARD).map(old));
                let mut panel: Vec<plain::Record> = self.panel.iter().copied().map(plain_record).collect();
                let records = &mut panel[GUARD..GUARD + room];
                let expected = table.as_mut().map_or((refusal::BOARD, 0), |table| plain::step_panel(table, code, station, job, records));
                let answer = self.board.answer_panel(code, station, job, &mut self.panel[GUARD..GUARD + room]);
                assert!(self.panel.iter().copied().eq(panel.into_iter().map(record)), "{call:?}");
                (answer, expected)
            }
        };
        if let Some(table) = &table {
            expected = board(table);
        }
        let (refusal, written) = expected_answer;
        assert_eq!(asked.is_err(), refusal == refusal::BOARD, "{call:?}");
        assert_eq!(answer, Answer { refusal, written: written as u64 }, "{call:?}");
        assert!(self.board == expected, "{call:?}");
        assert!(self.before == [0xa5; GUARD] && self.after == [0x5a; GUARD]);
        refusal
    }
}

/// How many stations the scan result of a station, from 0, shows: those before the first 0.
fn shown(board: &Board, i: usize) -> usize {
    board.results[i][STATIONS].iter().take_while(|&&station| station != 0).count()
}

/// A call that fits the phase of its station, mostly; now and then one with another code, station or job, also past 32 bits. Stations leave service now
/// and then, and return after some calls that are refused.
fn random_call(random: &mut Random, board: &Board) -> Call {
    let n = board.count.clamp(1, MAX_STATIONS as u64);
    let i = random.below(n);
    let due = match (board.control[PHASES][i as usize], board.control[SERVICE][i as usize]) {
        (0, 0) if random.one_in(8) => code::LEAVE_SERVICE,
        (0, 0) => 1 + random.below(2),
        (0, _) => [1, 2, 6, 7, 7][random.below(5) as usize],
        (1, _) => 3,
        (2, _) => 4,
        _ => 5,
    };
    let code = if random.one_in(16) { [0, 1, 2, 3, 4, 5, 6, 7, 8, 257, 1 << 32 | 1, 1 << 32 | 7][random.below(12) as usize] } else { due };
    let station = if random.one_in(32) { [0, n + 1, n + 256, 1 << 32 | 1, u64::MAX][random.below(5) as usize] } else { i + 1 };
    let job = match random.below(16) {
        0 => [0, 1, u64::from(u32::MAX), 1 << 32, 1 << 32 | 1, u64::MAX][random.below(6) as usize],
        _ if code == 1 => 1 + random.below(1000),
        _ => 0,
    };
    let records = shown(board, i as usize);
    let bytes = records * REPORT_LINE;
    let lent = match random.below(16) {
        0 => Lent::Report([0, 1, bytes.saturating_sub(1), bytes + 1, MAX_STATIONS * REPORT_LINE][random.below(5) as usize]),
        1..8 => Lent::Report(bytes),
        8 | 9 => Lent::Panel([0, 1, records.saturating_sub(1), records + 1, 33, 40][random.below(6) as usize]),
        10 | 11 => Lent::Panel(MAX_STATIONS),
        _ => Lent::Panel(records),
    };
    Call { code, station, job, lent }
}

/// A board that so many calls on a fresh one have led to.
fn reached(random: &mut Random, n: u64, calls: usize) -> Board {
    let mut guarded = Guarded::new(Board::fresh(n).unwrap());
    for _ in 0..calls {
        guarded.call(random_call(random, &guarded.board));
    }
    guarded.board
}

#[test]
fn listing() {
    let mut board = Board::fresh(2).unwrap();
    let mut report = [b'?'; 3 * REPORT_LINE];
    for (code, job) in [(code::BEGIN_LABEL, 70), (code::SNAP, 0), (code::UPDATE, 0), (code::END, 0)] {
        assert_eq!(board.step(code, 1, job, &mut report), Ok(0));
    }
    assert_eq!(board.step(code::SCAN, 2, 0, &mut report), Ok(0));
    assert_eq!(board.step(code::SNAP, 2, 0, &mut report), Err(refusal::NO_SNAP_DUE));
    assert_eq!(board.step(code::END, 2, 0, &mut report), Ok(REPORT_LINE));
    assert_eq!(&report[..REPORT_LINE], b"       0  0  1  1         70\n");
    assert!(report[REPORT_LINE..].iter().all(|&byte| byte == b'?'));
    assert_eq!(board.step(code::SNAP, 3, 0, &mut report), Err(refusal::STATION));
}

#[test]
fn listing_on_a_panel() {
    let mut board = Board::fresh(2).unwrap();
    let mut panel: [Record; MAX_STATIONS] = from_fn(old);
    let untouched = panel;
    for (code, job) in [(code::BEGIN_LABEL, 70), (code::SNAP, 0), (code::UPDATE, 0), (code::END, 0)] {
        assert_eq!(board.step_panel(code, 1, job, &mut panel), Ok(0));
    }
    assert_eq!(board.step_panel(code::SCAN, 2, 0, &mut panel), Ok(0));
    assert_eq!(board.step_panel(code::SNAP, 2, 0, &mut panel), Err(refusal::NO_SNAP_DUE));
    assert_eq!(panel, untouched);
    assert_eq!(board.step_panel(code::END, 2, 0, &mut panel), Ok(1));
    assert_eq!(panel[0], Record { place: 1, station: 1, job: 70 });
    assert_eq!(panel[1..], untouched[1..]);
    let filled = panel;
    assert_eq!(board.step_panel(code::SNAP, 3, 0, &mut panel), Err(refusal::STATION));
    assert_eq!(panel, filled);
}

/// A station takes a ticket for job 70 more than its number.
fn take(board: &mut Board, station: u64) {
    for (code, job) in [(code::BEGIN_LABEL, 70 + station), (code::SNAP, 0), (code::UPDATE, 0), (code::END, 0)] {
        assert_eq!(board.step(code, station, job, &mut []), Ok(0));
    }
}

/// A board of n stations, of which those from 2 on, so many in all, have taken tickets; with the phase of station 1 after each number of these calls: it
/// takes a ticket, and then scans.
fn phases(n: u64, others: u64) -> Vec<Board> {
    let mut board = Board::fresh(n).unwrap();
    (2..2 + others).for_each(|station| take(&mut board, station));
    let mut boards = vec![board.clone()];
    for (code, job) in [(code::BEGIN_LABEL, 70), (code::SNAP, 0), (code::UPDATE, 0), (code::END, 0), (code::SCAN, 0), (code::END, 0)] {
        board.step(code, 1, job, &mut [0; MAX_STATIONS * REPORT_LINE]).unwrap();
        boards.push(board.clone());
    }
    let numbers: Vec<u8> = boards.iter().map(|board| board.control[PHASES][0]).collect();
    assert_eq!(numbers, [0, 1, 2, 3, 0, 4, 0]);
    boards
}

/// Each step of a station in each of its phases, with panels around the number of stations shown: what is answered, and all records.
#[test]
fn panels_of_all_lengths() {
    for (n, shown) in (2..=MAX_STATIONS).flat_map(|n| [(n, 1), (n, n / 2 + 1), (n, n)]) {
        for before in phases(n as u64, shown as u64 - 1) {
            let due = [
                (0, code::BEGIN_LABEL),
                (0, code::SCAN),
                (0, code::LEAVE_SERVICE),
                (1, code::SNAP),
                (2, code::UPDATE),
                (3, code::END),
                (4, code::END),
            ];
            for (code, refused) in [(1, 3), (2, 3), (3, 4), (4, 5), (5, 6), (6, 3), (7, 15)] {
                for len in [0, 1, shown - 1, shown, shown + 1, 32, 33, 40] {
                    let mut guarded = Guarded::new(before.clone());
                    let call = Call { code, station: 1, job: u64::from(code == 1), lent: Lent::Panel(len) };
                    let phase = before.control[PHASES][0];
                    let ends_scan = (phase, code) == (4, code::END);
                    let expected = match due.contains(&(phase, code)) {
                        false => refused,
                        true if ends_scan && len < shown => refusal::SHORT_REPORT,
                        true => 0,
                    };
                    assert_eq!(guarded.call(call), expected, "{call:?}");
                    assert_eq!(guarded.board == before, expected != 0, "{call:?}");
                    // The scan that begins after station 1's ticket has it last.
                    let filled = if ends_scan && expected == 0 { shown } else { 0 };
                    let order = (2..=shown as u32).chain([1]);
                    let records =
                        (1..).zip(order).map(|(place, station)| Record { place, station, job: if station == 1 { 70 } else { 70 + station } });
                    let all: Vec<Record> = records.take(filled).chain((GUARD + filled..GUARD + len).map(old)).collect();
                    assert_eq!(guarded.panel[GUARD..GUARD + len], all, "{call:?}");
                }
            }
        }
    }
}

/// A scan shows the stations with a job, where all are in service, and needs room for them and no more: none if there are none.
#[test]
fn scans_of_some_stations() {
    for n in 2..=MAX_STATIONS as u64 {
        for with_jobs in [0, 1, n / 2, n - 1, n] {
            let mut begun = Board::fresh(n).unwrap();
            // The highest first: they stand in this order.
            let order: Vec<u64> = (1..=with_jobs).rev().collect();
            order.iter().for_each(|&station| take(&mut begun, station));
            begun.step(code::SCAN, n, 0, &mut []).unwrap();
            let records: Vec<Record> =
                (1..).zip(&order).map(|(place, &station)| Record { place, station: station as u32, job: 70 + station as u32 }).collect();
            let lines: Vec<String> = records.iter().map(|r| format!("{:8}{:3}{:3}{:3}{:11}\n", 0, 0, r.place, r.station, r.job)).collect();
            let lines = lines.concat().into_bytes();
            assert_eq!(shown(&begun, n as usize - 1), records.len());
            for less in 0..2.min(records.len() + 1) {
                let expected = if less == 0 { 0 } else { refusal::SHORT_REPORT };
                let mut guarded = Guarded::new(begun.clone());
                let lent = Lent::Panel(records.len() - less);
                assert_eq!(guarded.call(Call { code: code::END, station: n, job: 0, lent }), expected);
                assert_eq!(guarded.panel[GUARD..].starts_with(&records), less == 0);
                let mut guarded = Guarded::new(begun.clone());
                let lent = Lent::Report(lines.len() - less);
                assert_eq!(guarded.call(Call { code: code::END, station: n, job: 0, lent }), expected);
                assert_eq!(guarded.buffer[GUARD..].starts_with(&lines), less == 0);
            }
        }
    }
}

/// Scan results of a board of four stations, as pairs of station and job, and whether they are well-formed.
#[test]
fn scan_results() {
    let results: [(&[(u32, u32)], bool); 20] = [
        (&[], true),
        (&[(1, 7)], true),
        (&[(4, u32::MAX)], true),
        (&[(2, 7), (4, 7), (1, 1)], true),
        (&[(4, 1), (3, 2), (2, 3), (1, 4)], true),
        // A station after a 0.
        (&[(0, 0), (1, 7)], false),
        (&[(2, 7), (0, 0), (1, 7)], false),
        (&[(0, 0), (0, 0), (0, 0), (1, 7)], false),
        // A station twice.
        (&[(2, 7), (2, 7)], false),
        (&[(2, 7), (1, 7), (3, 8), (2, 9)], false),
        // A job without a station.
        (&[(0, 7)], false),
        (&[(3, 7), (0, 7)], false),
        (&[(0, 7), (1, 7)], false),
        // A station without a job.
        (&[(3, 0)], false),
        (&[(3, 7), (1, 0)], false),
        (&[(1, 0), (2, 7)], false),
        // No station of the board.
        (&[(5, 7)], false),
        (&[(1 << 8 | 1, 7)], false),
        // Past four places.
        (&[(4, 1), (3, 2), (2, 3), (1, 4), (5, 5)], false),
        (&[(4, 1), (3, 2), (2, 3), (1, 4), (0, 5)], false),
    ];
    for (result, well_formed) in results {
        for i in 0..MAX_STATIONS {
            let mut guarded = Guarded::new(Board::fresh(4).unwrap());
            for (place, &(station, job)) in result.iter().enumerate() {
                (guarded.board.results[i][STATIONS][place], guarded.board.results[i][JOBS][place]) = (station, job);
            }
            // Past the stations of the board only the empty one is.
            let expected = if well_formed && (i < 4 || result.is_empty()) { 0 } else { refusal::BOARD };
            assert_eq!(
                guarded.call(Call { code: code::SCAN, station: 1, job: 0, lent: Lent::Panel(0) }),
                expected,
                "{result:?} of station {}",
                i + 1
            );
        }
    }
}

/// Each refusal of a call with a panel, by a panel that is too short for the scan and by one that is not; the first that applies is given.
#[test]
fn every_refusal_with_a_panel() {
    const N: u64 = 3;
    const SHOWN: usize = 2;
    let boards = phases(N, SHOWN as u64 - 1);
    let [idle, snap, update, end, _, scan, _] = &boards[..] else { panic!("seven boards") };
    let mut damaged = scan.clone();
    damaged.control[PHASES][0] = 5;
    let mut out = idle.clone();
    out.leave_service(1).unwrap();
    let calls = [
        (scan, 5, N + 1, 0, refusal::STATION),
        (scan, 5, 0, 0, refusal::STATION),
        (scan, 5, N + 1, 7, refusal::STATION),
        (scan, 1, 1, 7, refusal::BUSY),
        (scan, 2, 1, 0, refusal::BUSY),
        (scan, 6, 1, 0, refusal::BUSY),
        (snap, 2, 1, 0, refusal::BUSY),
        (scan, 3, 1, 0, refusal::NO_SNAP_DUE),
        (idle, 3, 1, 0, refusal::NO_SNAP_DUE),
        (scan, 4, 1, 0, refusal::NO_UPDATE_DUE),
        (snap, 4, 1, 0, refusal::NO_UPDATE_DUE),
        (scan, 5, 2, 0, refusal::NO_END_DUE),
        (update, 5, 1, 0, refusal::NO_END_DUE),
        (scan, 0, 1, 0, refusal::CODE),
        (scan, 8, N + 1, 7, refusal::CODE),
        (scan, 1 << 32 | 5, 1, 0, refusal::CODE),
        (scan, 5, 1, 7, refusal::JOB),
        (scan, 3, 1, 7, refusal::JOB),
        (end, 5, 1, 1 << 32, refusal::JOB),
        (idle, 1, 1, 0, refusal::JOB),
        (idle, 1, 1, 1 << 32, refusal::JOB),
        (&out, 6, 1, 7, refusal::JOB),
        (&out, 1, 1, 7, refusal::OUT_OF_SERVICE),
        (&out, 2, 1, 0, refusal::OUT_OF_SERVICE),
        (&out, 6, 1, 0, refusal::OUT_OF_SERVICE),
        (idle, 7, 1, 0, refusal::IN_SERVICE),
        (scan, 7, 1, 0, refusal::IN_SERVICE),
        (&damaged, 5, 1, 0, refusal::BOARD),
        (&damaged, 9, 9, 9, refusal::BOARD),
    ];
    for (before, code, station, job, refused) in calls {
        for len in [0, SHOWN - 1, SHOWN, N as usize, MAX_STATIONS, MAX_STATIONS + 1] {
            let mut guarded = Guarded::new(before.clone());
            let call = Call { code, station, job, lent: Lent::Panel(len) };
            assert_eq!(guarded.call(call), refused, "{call:?}");
            assert!(guarded.board == *before && (0..GUARD + len + GUARD).map(old).eq(guarded.panel.iter().copied()), "{call:?}");
        }
    }
    for len in 0..SHOWN {
        let mut guarded = Guarded::new(scan.clone());
        assert_eq!(guarded.call(Call { code: code::END, station: 1, job: 0, lent: Lent::Panel(len) }), refusal::SHORT_REPORT);
        assert!(guarded.board == *scan && (0..GUARD + len + GUARD).map(old).eq(guarded.panel.iter().copied()));
    }
}

/// What lends no room and what lends much, in both forms.
const LENT: [Lent; 4] = [Lent::Report(0), Lent::Report(MAX_STATIONS * REPORT_LINE), Lent::Panel(0), Lent::Panel(MAX_STATIONS)];

/// A call whose job fits its code, with a panel for all stations. It must be answered by this refusal, and a refused one must change nothing.
#[track_caller]
fn answered(guarded: &mut Guarded, code: u64, station: u64, expected: u64) {
    let before = guarded.board.clone();
    let call = Call { code, station, job: if code == code::BEGIN_LABEL { 70 + station } else { 0 }, lent: Lent::Panel(MAX_STATIONS) };
    assert_eq!(guarded.call(call), expected, "{call:?}");
    assert_eq!(guarded.board == before, expected != 0, "{call:?}");
}

/// Ends the scan of a station, which must show just these, oldest first, with jobs as `answered` and `take` give them.
#[track_caller]
fn shows(guarded: &mut Guarded, station: u64, expected: &[u32]) {
    answered(guarded, code::END, station, 0);
    let records = (1..).zip(expected).map(|(place, &station)| Record { place, station, job: 70 + station });
    let all: Vec<Record> = records.chain((GUARD + expected.len()..GUARD + MAX_STATIONS).map(old)).collect();
    assert_eq!(guarded.panel[GUARD..GUARD + MAX_STATIONS], all, "the scan of station {station}");
}

/// A board of two stations, after these steps of station 1, each with the job that it needs.
fn after(codes: &[u64]) -> Board {
    let mut board = Board::fresh(2).unwrap();
    for &code in codes {
        board.step(code, 1, u64::from(code == code::BEGIN_LABEL), &mut [0; REPORT_LINE]).unwrap();
    }
    board
}

/// Each step of a station in each of its phases and out of service is accepted, or refused by this number; before that number go 11, 2, 10 and 13.
#[test]
fn what_may_follow_what() {
    for (codes, expected) in FOLLOWS {
        let reached = after(codes);
        let mut damaged = reached.clone();
        damaged.control[SERVICE][1] = 2;
        for (code, refused) in (1..).zip(expected) {
            let job = u64::from(code == code::BEGIN_LABEL);
            let wrong = 1 - job;
            let calls = [
                (&reached, code, 1, job, refused),
                (&reached, code, 1, wrong, refusal::JOB),
                (&reached, code, 1, 1 << 32, refusal::JOB),
                (&reached, code, 3, wrong, refusal::STATION),
                (&reached, code, 0, job, refusal::STATION),
                (&reached, code + 7, 3, wrong, refusal::CODE),
                (&reached, code | 1 << 32, 1, job, refusal::CODE),
                (&damaged, code, 1, job, refusal::BOARD),
                (&damaged, code + 7, 3, wrong, refusal::BOARD),
            ];
            for (before, code, station, job, expected) in calls {
                for lent in LENT {
                    let mut guarded = Guarded::new(before.clone());
                    let call = Call { code, station, job, lent };
                    assert_eq!(guarded.call(call), expected, "{codes:?}, then {call:?}");
                    assert_eq!(guarded.board == *before, expected != 0, "{codes:?}, then {call:?}");
                }
            }
        }
    }
}

/// Service numbers from 2 on are none, and past the stations only 0 is one, whatever is called.
#[test]
fn service_numbers() {
    for (n, number) in [2, 17, 32].into_iter().flat_map(|n| (0..=255).map(move |number| (n, number))) {
        for i in [0, 1, n - 1, n, MAX_STATIONS - 1].into_iter().filter(|&i| i < MAX_STATIONS) {
            for (code, lent) in (0..=8).flat_map(|code| LENT.map(|lent| (code, lent))) {
                let mut guarded = Guarded::new(Board::fresh(n as u64).unwrap());
                guarded.board.control[SERVICE][i] = number;
                let refused = guarded.call(Call { code, station: 2, job: u64::from(code == code::BEGIN_LABEL), lent });
                assert_eq!(refused == refusal::BOARD, number > u8::from(i < n), "service {number} of station {} of {n}, code {code}", i + 1);
            }
        }
    }
}

/// A station that is out of service must be idle: in each other phase the board is refused by 13, whichever station is called.
#[test]
fn out_of_service_and_busy() {
    for n in 2..=MAX_STATIONS {
        for (i, phase) in (0..n).flat_map(|i| (0..=4).map(move |phase| (i, phase))) {
            let mut board = Board::fresh(n as u64).unwrap();
            board.control[PHASES][i] = phase;
            assert_eq!(Guarded::new(board.clone()).call(Call { code: 0, station: 1, job: 0, lent: Lent::Report(0) }), refusal::CODE);
            board.control[SERVICE][i] = 1;
            for (code, station) in [(0, 1), (3, i as u64 + 1), (7, i as u64 + 1), (6, (i as u64 + 1) % n as u64 + 1)] {
                let refused = Guarded::new(board.clone()).call(Call { code, station, job: 0, lent: Lent::Panel(MAX_STATIONS) });
                assert_eq!(refused == refusal::BOARD, phase > 0, "phase {phase} of station {} of {n}, code {code}", i + 1);
            }
        }
    }
}

/// A scan shows what is in service at its snap: a station that leaves later is still shown, one that returns later is not.
#[test]
fn scans_by_the_service_at_their_snap() {
    for n in 4..=MAX_STATIONS as u64 {
        let mut guarded = Guarded::new(Board::fresh(n).unwrap());
        for station in [2, 1, n] {
            take(&mut guarded.board, station);
        }
        answered(&mut guarded, code::SCAN, 3, 0);
        answered(&mut guarded, code::LEAVE_SERVICE, 1, 0);
        answered(&mut guarded, code::SCAN, n, 0);
        answered(&mut guarded, code::RETURN_TO_SERVICE, 1, 0);
        answered(&mut guarded, code::LEAVE_SERVICE, 2, 0);
        shows(&mut guarded, 3, &[2, 1, n as u32]);
        shows(&mut guarded, n, &[2, n as u32]);
        answered(&mut guarded, code::SCAN, 3, 0);
        shows(&mut guarded, 3, &[1, n as u32]);
        // Where no station in service has a job, a scan is empty and needs no room.
        answered(&mut guarded, code::LEAVE_SERVICE, 1, 0);
        answered(&mut guarded, code::LEAVE_SERVICE, n, 0);
        answered(&mut guarded, code::SCAN, 3, 0);
        assert_eq!(guarded.board.results[2], [[0; MAX_STATIONS]; 2]);
        assert_eq!(guarded.call(Call { code: code::END, station: 3, job: 0, lent: Lent::Panel(0) }), 0);
        // The result of a station that is out stays with it.
        let result = [[2, 1, n as u32], [72, 71, 70 + n as u32]];
        answered(&mut guarded, code::RETURN_TO_SERVICE, 1, 0);
        answered(&mut guarded, code::RETURN_TO_SERVICE, 2, 0);
        answered(&mut guarded, code::RETURN_TO_SERVICE, n, 0);
        answered(&mut guarded, code::SCAN, 1, 0);
        shows(&mut guarded, 1, &result[STATIONS]);
        answered(&mut guarded, code::LEAVE_SERVICE, 1, 0);
        for (row, shown) in guarded.board.results[0].iter().zip(result) {
            assert!(row.starts_with(&shown) && row[3..] == [0; MAX_STATIONS - 3]);
        }
    }
}

/// The room for a scan is that of the stations that it shows; those out of service need none.
#[test]
fn room_without_stations_out_of_service() {
    for n in 2..=MAX_STATIONS as u64 {
        for out in 1..n {
            let mut board = Board::fresh(n).unwrap();
            (1..=n).for_each(|station| take(&mut board, station));
            (1..=out).for_each(|station| board.leave_service(station).unwrap());
            board.step(code::SCAN, n, 0, &mut []).unwrap();
            let shown = (n - out) as usize;
            for (lent, expected) in [
                (Lent::Panel(shown - 1), refusal::SHORT_REPORT),
                (Lent::Report(shown * REPORT_LINE - 1), refusal::SHORT_REPORT),
                (Lent::Panel(shown), 0),
                (Lent::Report(shown * REPORT_LINE), 0),
            ] {
                let mut guarded = Guarded::new(board.clone());
                assert_eq!(guarded.call(Call { code: code::END, station: n, job: 0, lent }), expected, "{out} of {n} out, {lent:?}");
            }
        }
    }
}

/// The label of a station out of service counts: for who is the newest, for the new labels of the others, and for its place when it is back.
#[test]
fn labels_out_of_service_count() {
    for n in 2..=MAX_STATIONS as u64 {
        let mut guarded = Guarded::new(Board::fresh(n).unwrap());
        take(&mut guarded.board, 1);
        answered(&mut guarded, code::LEAVE_SERVICE, 1, 0);
        // The newest in service would keep its label, and station 1 come after it.
        take(&mut guarded.board, 2);
        answered(&mut guarded, code::SCAN, 2, 0);
        shows(&mut guarded, 2, &[2]);
        answered(&mut guarded, code::RETURN_TO_SERVICE, 1, 0);
        answered(&mut guarded, code::SCAN, 1, 0);
        shows(&mut guarded, 1, &[1, 2]);
    }
    // Three stations: both others share the first digit of the top label, whether one of them is out or not, so it moves on.
    let labels = |board: &Board| -> [[u8; 2]; 3] { from_fn(|i| from_fn(|p| board.labels[CURRENT][i][p])) };
    for out in [None, Some(1), Some(2)] {
        let mut board = Board::fresh(3).unwrap();
        take(&mut board, 1);
        take(&mut board, 2);
        assert_eq!(labels(&board), [[2, 1], [2, 2], [1, 1]]);
        if let Some(station) = out {
            board.leave_service(station).unwrap();
        }
        take(&mut board, 3);
        assert_eq!(labels(&board), [[2, 1], [2, 2], [3, 1]], "station {out:?} out");
    }
    // The newest keeps its label over its time out of service.
    let mut board = Board::fresh(3).unwrap();
    take(&mut board, 1);
    board.leave_service(1).unwrap();
    board.return_to_service(1).unwrap();
    take(&mut board, 1);
    assert_eq!(labels(&board), [[2, 1], [1, 1], [1, 1]]);
}

/// A leave changes the one service number, and the return that follows leaves the board as it was; the calls with names answer as the steps do.
#[test]
fn leave_and_return() {
    let mut random = Random(6);
    let (mut left, mut refused) = (0, 0);
    for n in 2..=MAX_STATIONS as u64 {
        let mut guarded = Guarded::new(Board::fresh(n).unwrap());
        for _ in 0..200 {
            guarded.call(random_call(&mut random, &guarded.board));
            let (before, station) = (guarded.board.clone(), 1 + random.below(n));
            let i = station as usize - 1;
            let mut board = before.clone();
            match (before.control[PHASES][i], before.control[SERVICE][i]) {
                (0, 0) => {
                    assert_eq!(board.leave_service(station), Ok(()));
                    let mut expected = before.clone();
                    expected.control[SERVICE][i] = 1;
                    assert!(board == expected);
                    assert_eq!(board.leave_service(station), Err(refusal::OUT_OF_SERVICE));
                    assert!(board == expected);
                    assert_eq!(board.return_to_service(station), Ok(()));
                    left += 1;
                }
                (0, _) => {
                    assert_eq!(board.leave_service(station), Err(refusal::OUT_OF_SERVICE));
                    refused += 1;
                }
                _ => {
                    assert_eq!(board.leave_service(station), Err(refusal::BUSY));
                    assert_eq!(board.return_to_service(station), Err(refusal::IN_SERVICE));
                    refused += 1;
                }
            }
            assert_eq!(board.leave_service(n + 1), Err(refusal::STATION));
            assert_eq!(board.return_to_service(0), Err(refusal::STATION));
            assert!(board == before);
        }
    }
    assert!(left > 500 && refused > 500, "{left} left, {refused} refused");
}

/// Phase numbers from 5 on are none, for a station of the board and past them, whatever is called.
#[test]
fn phase_numbers() {
    for n in [2, 17, 32] {
        for number in 0..=255 {
            let mut guarded = Guarded::new(Board::fresh(n).unwrap());
            guarded.board.control[PHASES][1] = number;
            for lent in [Lent::Report(MAX_STATIONS * REPORT_LINE), Lent::Panel(MAX_STATIONS)] {
                let refused = guarded.call(Call { code: code::SCAN, station: 1, job: 0, lent });
                assert_eq!(refused == refusal::BOARD, number >= 5, "phase {number}");
                guarded.board.control[PHASES][0] = 0;
            }
            if n < 32 {
                guarded.board = Board::fresh(n).unwrap();
                guarded.board.control[PHASES][31] = number;
                let refused = guarded.call(Call { code: code::SCAN, station: 1, job: 0, lent: Lent::Panel(MAX_STATIONS) });
                assert_eq!(refused == refusal::BOARD, number > 0, "phase {number} past n");
            }
        }
    }
}

#[test]
fn fresh_boards() {
    let mut random = Random(5);
    for n in (0..64).chain([256 + 2, 1 << 32 | 2, u64::MAX]) {
        let mut over = Board::fresh(3).unwrap();
        bytes(&mut over).iter_mut().for_each(|byte| *byte = random.word() as u8);
        let before = over.clone();
        if (2..=32).contains(&n) {
            let fresh = board(&Table::fresh(n as usize));
            assert_eq!(over.freshen(n), 0);
            assert!(over.results == [[[0; MAX_STATIONS]; 2]; MAX_STATIONS] && over.control == [[0; MAX_STATIONS]; 2]);
            assert!(over == fresh && Board::fresh(n) == Ok(fresh));
        } else {
            assert_eq!(over.freshen(n), refusal::COUNT);
            assert!(over == before && Board::fresh(n) == Err(refusal::COUNT));
        }
    }
}

#[test]
fn calls_as_in_plain_rust() {
    let mut random = Random(1);
    for n in 2..=MAX_STATIONS as u64 {
        reached(&mut random, n, 3000);
    }
}

#[test]
fn every_byte_damaged() {
    let mut random = Random(2);
    let mut refused = 0;
    let mut served = 0;
    for (n, calls) in [(2, 0), (2, 50), (5, 200), (32, 2000)] {
        let whole = reached(&mut random, n, calls);
        for at in 0..size_of::<Board>() {
            for bit in 0..8 {
                let mut guarded = Guarded::new(whole.clone());
                bytes(&mut guarded.board)[at] ^= 1 << bit;
                let call = random_call(&mut random, &whole);
                match guarded.call(call) {
                    refusal::BOARD => refused += 1,
                    _ => served += 1,
                }
            }
        }
    }
    println!("{refused} damaged boards refused, {served} still well-formed");
    assert!(refused > 0 && served > 0);
}

#[test]
fn random_bytes() {
    let mut random = Random(3);
    for _ in 0..20_000 {
        let mut guarded = Guarded::new(Board::fresh(2).unwrap());
        for word in bytes(&mut guarded.board).chunks_exact_mut(8) {
            word.copy_from_slice(&random.word().to_ne_bytes());
        }
        if random.one_in(2) {
            guarded.board.count = random.below(40);
        }
        let call = random_call(&mut random, &Board::fresh(32).unwrap());
        assert_eq!(guarded.call(call), refusal::BOARD);
    }
}

/// Three labels with the same first h digits and 3, 4, 5 behind them close a ring; they do not if one of them differs in any one of those h.
#[test]
fn rings_behind_shared_digits() {
    let call = Call { code: 0, station: 1, job: 0, lent: Lent::Report(0) };
    for n in 3..=MAX_STATIONS {
        for h in 0..n - 1 {
            let mut board = Board::fresh(n as u64).unwrap();
            for station in 0..3 {
                board.labels[CURRENT][station][h] = 3 + station as u8;
            }
            assert_eq!(Guarded::new(board.clone()).call(call), refusal::BOARD, "{n} {h}");
            for (station, q) in (0..3).flat_map(|station| (0..h).map(move |q| (station, q))) {
                let mut board = board.clone();
                board.labels[CURRENT][station][q] = 2;
                assert_eq!(Guarded::new(board).call(call), refusal::CODE, "{n} {h} {station} {q}");
            }
        }
    }
}

/// Two labels, held by the stations in turn, that agree before a position and have any two digits there: scans and new labels are as in plain Rust.
#[test]
fn labels_that_agree_before_each_position() {
    let mut random = Random(5);
    for n in 2..=MAX_STATIONS {
        for (q, d, e) in (0..n - 1).flat_map(|q| (0..25).map(move |pair| (q, 1 + pair / 5, 1 + pair % 5))) {
            let mut begun = Board::fresh(n as u64).unwrap();
            for p in 0..n - 1 {
                let shared = 1 + random.below(5) as u8;
                let labels: [u8; 2] = match p {
                    _ if p < q => [shared; 2],
                    _ if p == q => [d, e],
                    _ => from_fn(|_| 1 + random.below(5) as u8),
                };
                for i in 0..n {
                    begun.labels[CURRENT][i][p] = labels[i % 2];
                }
            }
            begun.jobs[CURRENT][..n].fill(7);
            let station = 1 + random.below(n as u64);
            for codes in [&[code::SCAN, code::END][..], &[code::BEGIN_LABEL, code::SNAP, code::UPDATE, code::END]] {
                let mut guarded = Guarded::new(begun.clone());
                for &code in codes {
                    let call = Call { code, station, job: u64::from(code == code::BEGIN_LABEL), lent: Lent::Panel(n) };
                    // The update may close a ring, as the table was reached by no calls.
                    let may_close = code == code::END && codes.contains(&code::UPDATE);
                    let refusal = guarded.call(call);
                    assert!(refusal == 0 || may_close && refusal == refusal::BOARD, "{n} {q} {d} {e} {call:?}");
                }
            }
        }
    }
}

/// How many stations have the newest's label: all of a fresh board; those that snapped together on it, one more with each update, in whatever order they
/// update, in service or out of it; and one alone after the next ticket.
#[test]
fn who_shares_the_top() {
    let mut random = Random(7);
    for n in 2..=MAX_STATIONS as u64 {
        let mut guarded = Guarded::new(Board::fresh(n).unwrap());
        assert_eq!(guarded.ask(), Ok(n as usize));
        guarded.board.leave_service(n).unwrap();
        assert_eq!(guarded.ask(), Ok(n as usize));
        // The newest, n, does not take part. The others snap together, and update in any order.
        let mut others: Vec<u64> = (1..n).collect();
        for code in [code::BEGIN_LABEL, code::SNAP] {
            others.iter().for_each(|&station| answered(&mut guarded, code, station, 0));
        }
        assert_eq!(guarded.ask(), Ok(n as usize));
        let mut updated = Vec::new();
        while !others.is_empty() {
            let station = others.swap_remove(random.below(others.len() as u64) as usize);
            answered(&mut guarded, code::UPDATE, station, 0);
            answered(&mut guarded, code::END, station, 0);
            updated.push(station);
            assert_eq!(guarded.ask(), Ok(updated.len()), "{n} {updated:?}");
        }
        updated.iter().for_each(|&station| answered(&mut guarded, code::LEAVE_SERVICE, station, 0));
        assert_eq!(guarded.ask(), Ok(updated.len()));
        guarded.board.return_to_service(n).unwrap();
        take(&mut guarded.board, n);
        assert_eq!(guarded.ask(), Ok(1));
    }
    for n in [0, 1, 33, u64::MAX] {
        let mut board = Board::fresh(2).unwrap();
        board.count = n;
        assert_eq!(Guarded::new(board).ask(), Err(refusal::BOARD));
    }
}

/// Labels that differ at one position alone are different ones, whichever it is and whatever their digits.
#[test]
fn labels_shared_but_for_one_digit() {
    for n in 2..=MAX_STATIONS {
        for (p, digit, k) in (0..n - 1).flat_map(|p| (2..=5).flat_map(move |digit| [1, n - 1].map(|k| (p, digit, k)))) {
            let mut board = Board::fresh(n as u64).unwrap();
            board.labels[CURRENT][..k].iter_mut().for_each(|label| label[p] = digit);
            assert_eq!(Guarded::new(board).ask(), Ok(k), "{n} {p} {digit}");
        }
    }
}

/// Boards of random labels, results, jobs, phases and service that are well-formed more often than not, reached by no calls.
#[test]
fn random_contents() {
    let mut random = Random(4);
    let mut refused = 0;
    const BOARDS: usize = 20_000;
    for _ in 0..BOARDS {
        let most = if random.one_in(4) { 32 } else { 5 };
        let n = 2 + random.below(most - 1) as usize;
        let mut guarded = Guarded::new(Board::fresh(n as u64).unwrap());
        let b = &mut guarded.board;
        // Mostly digits of one kind at a position, so that labels share prefixes and rings come up now and then.
        for p in 0..n - 1 {
            let usual = 1 + random.below(5) as u8;
            for i in 0..n {
                b.labels[CURRENT][i][p] = if random.one_in(6) { 1 + random.below(5) as u8 } else { usual };
                b.labels[PENDING][i][p] = 1 + random.below(5) as u8;
            }
        }
        for i in 0..n {
            b.jobs[CURRENT][i] = if random.one_in(4) { 0 } else { random.word() as u32 };
            b.jobs[PENDING][i] = random.word() as u32;
            b.control[PHASES][i] = random.below(5) as u8;
            // Out of service, which only idle stations are.
            b.control[SERVICE][i] = u8::from(b.control[PHASES][i] == 0 && random.one_in(3));
            let mut stations: Vec<u32> = (1..=n as u32).collect();
            for place in 0..random.below(n as u64 + 1) as usize {
                b.results[i][STATIONS][place] = stations.swap_remove(random.below(stations.len() as u64) as usize);
                b.results[i][JOBS][place] = (random.word() as u32).max(1);
            }
        }
        let (i, place, position) = (random.below(32) as usize, random.below(32) as usize, random.below(MAX_DIGITS as u64) as usize);
        match random.below(40) {
            0 => b.control[PHASES][i] = 5 + random.below(251) as u8,
            1 => b.labels[CURRENT][i][position] = random.below(7) as u8,
            2 => b.labels[PENDING][i][position] = random.below(7) as u8,
            3 => b.results[i][STATIONS][place] = random.below(34) as u32,
            // A station's number with a bit above those of any station.
            4 => b.results[i][STATIONS][place] |= 1 << (6 + random.below(26)),
            5 => b.results[i][JOBS][place] = random.below(2) as u32,
            6 => b.jobs[CURRENT][i] = random.below(2) as u32,
            7 => b.jobs[PENDING][i] = random.below(2) as u32,
            // A place of a result that is empty, or like the first.
            8 => (b.results[i % n][STATIONS][place % n], b.results[i % n][JOBS][place % n]) = (0, 0),
            9 => b.results[i % n][STATIONS][place % n] = b.results[i % n][STATIONS][0],
            10 => b.control[SERVICE][i] = 2 + random.below(254) as u8,
            // Mostly a station past n, or a busy one.
            11 => b.control[SERVICE][i] = 1,
            12 => b.control[PHASES][i % n] = 1 + random.below(4) as u8,
            _ => {}
        }
        for _ in 0..4 {
            let call = random_call(&mut random, &guarded.board);
            if guarded.call(call) == refusal::BOARD {
                refused += 1;
                break;
            }
        }
    }
    println!("{refused} of {BOARDS} boards refused");
    assert!(refused > BOARDS / 20 && refused < BOARDS / 2);
}
