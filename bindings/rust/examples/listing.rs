//! Document 01's listing as direct calls with a report buffer, as direct calls with a panel, and as a schedule file. Of a refused call with a report
//! buffer this prints the line that the schedule program would print; a direct call's lines bear the number 0. The second call of station 2 is refused by
//! 4 in all three: a scan has no snap of its own. Its scan shows station 1 alone, which has a job. Before the calls with a panel both stations have the
//! newest's label, and after them station 1 alone. Then that one is out of service for a while: a scan does not show it. Next come the numbers of another
//! file: station 2 snaps after station 1, for a label below that one's, and gets the lower number. Last are logs of that file: with these numbers and its
//! report, with others that are in another order, with these and the scan in that order, and one that is cut short.

use std::io::{self, Write};
use tickets::{code, Board, Record, MAX_STATIONS, MAX_STEPS, REPORT_LINE};

const CALLS: [(u64, u64, u64); 8] = [
    (1, code::BEGIN_LABEL, 70),
    (1, code::SNAP, 0),
    (1, code::UPDATE, 0),
    (1, code::END, 0),
    (2, code::SCAN, 0),
    (2, code::SNAP, 0),
    (2, code::END, 0),
    (3, code::SNAP, 0),
];

const FILE: &[u8] = b"  2  0          0
  1  1         70
  1  3          0
  1  4          0
  1  5          0
  2  2          0
  2  3          0
  2  5          0
  3  3          0
";

/// Stations 2 and 3 take labels. Then 1 and 2 snap before either updates, and 3 scans.
const CROSSING: &[u8] = b"  3  0          0
  2  1         70
  2  3          0
  2  4          0
  2  5          0
  3  1         71
  3  3          0
  3  4          0
  3  5          0
  1  1         72
  1  3          0
  2  1         73
  2  3          0
  1  4          0
  2  4          0
  3  2          0
  3  5          0
";

/// Its scan if 1 and 2 had one number: the lower station first.
const SHARED_NUMBER: &[u8] = b"      17  0  1  3         71
      17  0  2  1         72
      17  0  3  2         73
";

/// Whether a log is right, or what refuses it.
fn verdict(schedule: &[u8], numbers: &[u64], report: &[u8]) -> String {
    match tickets::check_log(schedule, numbers, report) {
        Ok(right) => if right { "right" } else { "wrong" }.to_string(),
        Err(refusal) => format!("refused by {refusal}"),
    }
}

/// How many stations a scan of station 2 shows.
fn shown(board: &mut Board) -> usize {
    board.step(code::SCAN, 2, 0, &mut []).expect("station 2 is idle");
    board.step_panel(code::END, 2, 0, &mut [Record::default(); MAX_STATIONS]).expect("room for all stations")
}

fn main() -> io::Result<()> {
    let mut board = Board::fresh(2).expect("2 stations");
    let mut report = [0; MAX_STATIONS * REPORT_LINE];
    let mut out = io::stdout();
    for (station, code, job) in CALLS {
        match board.step(code, station, job, &mut report) {
            Ok(written) => out.write_all(&report[..written])?,
            Err(refusal) => writeln!(out, "{:8}{refusal:3}{:3}{:3}{:11}", 0, 0, 0, 0)?,
        }
    }
    let mut board = Board::fresh(2).expect("2 stations");
    let mut panel = [Record::default(); MAX_STATIONS];
    writeln!(out, "stations with the newest's label: {}", board.top_holders().unwrap_or(0))?;
    for (station, code, job) in CALLS {
        match board.step_panel(code, station, job, &mut panel) {
            Ok(written) => {
                for Record { place, station, job } in &panel[..written] {
                    writeln!(out, "panel: place {place}, station {station}, job {job}")?;
                }
            }
            Err(refusal) => writeln!(out, "panel: refused by {refusal}")?,
        }
    }
    writeln!(out, "stations with the newest's label: {}", board.top_holders().unwrap_or(0))?;
    for _ in 0..2 {
        writeln!(out, "station 1 leaves service: {}", board.leave_service(1).err().unwrap_or(0))?;
    }
    writeln!(out, "stations shown: {}", shown(&mut board))?;
    for _ in 0..2 {
        writeln!(out, "station 1 returns to service: {}", board.return_to_service(1).err().unwrap_or(0))?;
    }
    writeln!(out, "stations shown: {}", shown(&mut board))?;
    let short = tickets::report_into(FILE, &mut [0; 28]);
    writeln!(out, "report in 28 bytes: refused by {}, needs {}", short.refusal, short.length)?;
    let (report, refusal) = tickets::report(FILE);
    assert_eq!(refusal, 0, "nothing ends this file before its last line");
    out.write_all(&report)?;
    let mut list = [0; MAX_STEPS];
    let count = tickets::numbers(CROSSING, &mut list).written().expect("this file is numbered");
    for number in &list[..count] {
        writeln!(out, "number: {number}")?;
    }
    writeln!(out, "numbers in a list of 3: refused by {}", tickets::numbers(CROSSING, &mut list[..3]).refusal)?;
    let numbers: Vec<u64> = list[..count].iter().map(|&number| number.into()).collect();
    let (scan, _) = tickets::report(CROSSING);
    writeln!(out, "log, its numbers, its scan: {}", verdict(CROSSING, &numbers, &scan))?;
    writeln!(out, "log, other numbers, its scan: {}", verdict(CROSSING, &[1, 2, 3, 3], &scan))?;
    writeln!(out, "log, other numbers, the scan by these: {}", verdict(CROSSING, &[1, 2, 3, 3], SHARED_NUMBER))?;
    writeln!(out, "log, cut short: {}", verdict(&CROSSING[..CROSSING.len() - 1], &numbers, &scan))
}
