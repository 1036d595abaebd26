//! Boards of the library as tables of the plain program, and back.

use std::array::from_fn;
use ticket_bench::plain::{Operation, Phase, Station, Table, MAX_STATIONS};
use tickets::{Board, CURRENT, JOBS, PENDING, PHASES, SERVICE, STATIONS};

pub const LAST_PHASE: u8 = 4;

fn phase(number: u8) -> Option<Phase> {
    Some(match number {
        0 => Phase::Idle,
        1 => Phase::Snap,
        2 => Phase::Update,
        3 => Phase::End(Operation::Label),
        LAST_PHASE => Phase::End(Operation::Scan),
        _ => return None,
    })
}

fn phase_number(phase: Phase) -> u8 {
    match phase {
        Phase::Idle => 0,
        Phase::Snap => 1,
        Phase::Update => 2,
        Phase::End(Operation::Label) => 3,
        Phase::End(Operation::Scan) => LAST_PHASE,
    }
}

pub fn board(table: &Table) -> Board {
    let stations = &table.stations;
    Board {
        count: table.n as u64,
        labels: [from_fn(|i| stations[i].label), from_fn(|i| stations[i].pending_label)],
        jobs: [from_fn(|i| stations[i].job), from_fn(|i| stations[i].pending_job)],
        control: [from_fn(|i| phase_number(stations[i].phase)), from_fn(|i| stations[i].out.into())],
        results: from_fn(|i| [stations[i].result.map(u32::from), stations[i].result_jobs]),
    }
}

/// The plain table, if every phase and every service number has a meaning and every station in a result is a byte.
pub fn table(board: &Board) -> Option<Table> {
    let mut table = Table { n: usize::try_from(board.count).ok()?, stations: from_fn(|_| Station::fresh()) };
    for (i, station) in table.stations.iter_mut().enumerate() {
        let mut result = [0; MAX_STATIONS];
        for (to, &number) in result.iter_mut().zip(&board.results[i][STATIONS]) {
            *to = u8::try_from(number).ok()?;
        }
        *station = Station {
            label: board.labels[CURRENT][i],
            job: board.jobs[CURRENT][i],
            pending_label: board.labels[PENDING][i],
            pending_job: board.jobs[PENDING][i],
            result,
            result_jobs: board.results[i][JOBS],
            phase: phase(board.control[PHASES][i])?,
            out: *[false, true].get(usize::from(board.control[SERVICE][i]))?,
        };
    }
    Some(table)
}
