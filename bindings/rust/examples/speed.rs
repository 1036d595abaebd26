//! speed [ROUNDS [CALLS]]: the direct step call, with its test of refusal 13, against the same call in plain Rust (`bench/src/plain.rs`): with a report
//! buffer, and with a panel; the test alone; and the question how many stations have the newest's label, with its test.
//!
//! For each n all four run the same calls, all of them valid, from a fresh table, in turn and round after round; the least time of each is taken. The test
//! alone is timed by calls with an unknown code, on tables reached by those calls and on one whose labels have all digits of a ring at late positions. The
//! question is put to the tables that are reached.

use std::hint::black_box;
use std::time::Instant;
use ticket_bench::generate::{schedule, Ending};
use ticket_bench::plain::{self, Table, LINE};
use tickets::refusal::CODE;
use tickets::{Board, Record, CURRENT, MAX_STATIONS, REPORT_LINE};

type Report = [u8; MAX_STATIONS * REPORT_LINE];

fn column(bytes: &[u8]) -> u64 {
    std::str::from_utf8(bytes).unwrap().trim().parse().unwrap()
}

/// Code, station and job of the lines of a random schedule that are served.
fn calls(n: u64, lines: u64) -> Vec<(u64, u64, u64)> {
    let mut table = Table::fresh(n as usize);
    let mut report: Report = [0; MAX_STATIONS * REPORT_LINE];
    let bytes = schedule(n, lines, 1995, Ending::Plain);
    let lines = bytes.chunks(LINE).skip(1).map(|line| (column(&line[3..6]), column(&line[..3]), column(&line[6..17])));
    lines.filter(|&(code, station, job)| plain::step(&mut table, code, station, job, &mut report).0 == 0).collect()
}

/// Nanoseconds for each call.
fn time(calls: &[(u64, u64, u64)], mut step: impl FnMut(u64, u64, u64)) -> f64 {
    let start = Instant::now();
    for &(code, station, job) in calls {
        step(code, station, job);
    }
    start.elapsed().as_secs_f64() * 1e9 / calls.len() as f64
}

/// The tables and boards after each hundred of the calls.
fn reached(n: usize, calls: &[(u64, u64, u64)]) -> (Vec<Table>, Vec<Board>) {
    let (mut table, mut board) = (Table::fresh(n), Board::fresh(n as u64).unwrap());
    let mut report: Report = [0; MAX_STATIONS * REPORT_LINE];
    let after = calls.chunks_exact(100).map(|some| {
        for &(code, station, job) in some {
            plain::step(&mut table, code, station, job, &mut report);
            board.step(code, station, job, &mut report).unwrap();
        }
        (table.clone(), board.clone())
    });
    after.unzip()
}

/// Labels whose last quarter is all 3s, all 4s or all 5s, behind a digit that differs between these three kinds: no ring, and many labels to compare.
fn late_digits(n: usize) -> (Vec<Table>, Vec<Board>) {
    let (mut table, mut board) = (Table::fresh(n), Board::fresh(n as u64).unwrap());
    for i in 0..n {
        let kind = (i % 3) as u8;
        let label = &mut board.labels[CURRENT][i][..n - 1];
        let (parting, late) = label[(n - 1) * 3 / 4..].split_first_mut().unwrap();
        *parting = 1 + kind;
        late.fill(3 + kind);
        table.stations[i].label = board.labels[CURRENT][i];
    }
    (vec![table], vec![board])
}

/// Nanoseconds for each call with an unknown code, in plain Rust and direct: the table is judged, and nothing is done.
fn judged(rounds: u64, (tables, boards): &mut (Vec<Table>, Vec<Board>)) -> [f64; 2] {
    let unknown = [(0, 1, 0); 20];
    let mut best = [f64::MAX; 2];
    for _ in 0..rounds {
        let plain =
            tables.iter_mut().map(|table| time(&unknown, |code, station, job| assert_eq!(plain::step(table, code, station, job, &mut []).0, CODE)));
        best[0] = best[0].min(plain.sum::<f64>() / tables.len() as f64);
        let direct =
            boards.iter_mut().map(|board| time(&unknown, |code, station, job| assert_eq!(board.step(code, station, job, &mut []), Err(CODE))));
        best[1] = best[1].min(direct.sum::<f64>() / boards.len() as f64);
    }
    best
}

/// Nanoseconds for each question how many stations have the newest's label, in plain Rust and direct.
fn asked(rounds: u64, (tables, boards): &(Vec<Table>, Vec<Board>)) -> [f64; 2] {
    let questions = [(0, 0, 0); 20];
    let mut best = [f64::MAX; 2];
    for _ in 0..rounds {
        let plain = tables.iter().map(|table| time(&questions, |_, _, _| assert_eq!(black_box(plain::top_holders(black_box(table))).0, 0)));
        best[0] = best[0].min(plain.sum::<f64>() / tables.len() as f64);
        let direct = boards.iter().map(|board| time(&questions, |_, _, _| assert!(black_box(black_box(board).top_holders()).is_ok())));
        best[1] = best[1].min(direct.sum::<f64>() / boards.len() as f64);
    }
    best
}

fn main() {
    let mut arguments = std::env::args().skip(1).map(|a| a.parse().expect("a number"));
    let rounds = arguments.next().unwrap_or(200);
    let lines = arguments.next().unwrap_or(5000);
    let kinds = ["report", "panel", "13 alone, reached", "13 alone, late digits", "question, reached"];
    println!("  {}", kinds.map(|kind| format!("{kind:>29}")).concat());
    println!(" n{}", "   plain ns  direct ns  ratio".repeat(kinds.len()));
    for n in [2, 4, 8, 16, 32] {
        let calls = calls(n, lines);
        let mut best = [f64::MAX; 4];
        let (mut expected, mut report): (Report, Report) = ([0; MAX_STATIONS * REPORT_LINE], [0; MAX_STATIONS * REPORT_LINE]);
        let mut expected_panel = [plain::Record { place: 0, station: 0, job: 0 }; MAX_STATIONS];
        let mut panel = [Record::default(); MAX_STATIONS];
        for round in 0..rounds {
            let (mut table, mut panel_table) = (Table::fresh(n as usize), Table::fresh(n as usize));
            let (mut board, mut panel_board) = (Board::fresh(n).unwrap(), Board::fresh(n).unwrap());
            if round == 0 {
                for &(code, station, job) in &calls {
                    let answer = plain::step(&mut table, code, station, job, &mut expected);
                    assert_eq!(board.step(code, station, job, &mut report), Ok(answer.1));
                    assert_eq!(report, expected);
                    let answer = plain::step_panel(&mut panel_table, code, station, job, &mut expected_panel);
                    assert_eq!(panel_board.step_panel(code, station, job, &mut panel), Ok(answer.1));
                    assert!(panel.iter().zip(&expected_panel).all(|(a, b)| (a.place, a.station, a.job) == (b.place, b.station, b.job)));
                }
                continue;
            }
            best[0] = best[0].min(time(&calls, |code, station, job| {
                black_box(plain::step(&mut table, code, station, job, &mut expected));
            }));
            best[1] = best[1].min(time(&calls, |code, station, job| {
                black_box(board.step(code, station, job, &mut report)).unwrap();
            }));
            best[2] = best[2].min(time(&calls, |code, station, job| {
                black_box(plain::step_panel(&mut panel_table, code, station, job, &mut expected_panel));
            }));
            best[3] = best[3].min(time(&calls, |code, station, job| {
                black_box(panel_board.step_panel(code, station, job, &mut panel)).unwrap();
            }));
        }
        let columns = |plain: f64, direct: f64| format!("{plain:9.0}  {direct:9.0}  {:5.2}", direct / plain);
        let mut reached = reached(n as usize, &calls);
        let (a, b, c) = (judged(rounds, &mut reached), judged(rounds, &mut late_digits(n as usize)), asked(rounds, &reached));
        let pairs = [[best[0], best[1]], [best[2], best[3]], a, b, c];
        println!("{n:2}{}", pairs.map(|[plain, direct]| format!("  {}", columns(plain, direct))).concat());
    }
}
