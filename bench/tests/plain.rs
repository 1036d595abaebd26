//! The plain program against the outside vectors, document 01's samples and its limits, and the panel against the report.

use std::fs;
use std::path::Path;
use ticket_bench::generate::{schedule, Ending, Random};
use ticket_bench::plain::{run, step, step_panel, Label, Operation, Phase, Record, Station, Table, LINE, MAX_STATIONS, REPORT_LINE};
use ticket_bench::FOLLOWS;

fn report(mut schedule: &[u8]) -> Vec<u8> {
    let mut report = Vec::new();
    run(&mut schedule, &mut report).unwrap();
    report
}

fn number(column: &[u8]) -> u64 {
    std::str::from_utf8(column).unwrap().trim_start().parse().unwrap()
}

/// Code, station and job of each step line.
fn steps(schedule: &[u8]) -> impl Iterator<Item = (u64, u64, u64)> + '_ {
    schedule.chunks(LINE).skip(1).map(|line| (number(&line[3..6]), number(&line[..3]), number(&line[6..17])))
}

fn line(station: u64, code: u64, job: u64) -> Vec<u8> {
    format!("{station:3}{code:3}{job:11}\n").into_bytes()
}

/// Line number and refusal of each report line.
fn refusals(report: &[u8]) -> Vec<(u64, u64)> {
    report.chunks(REPORT_LINE).map(|line| (number(&line[..8]), number(&line[8..11]))).collect()
}

#[test]
fn vectors() {
    let folder = Path::new(env!("CARGO_MANIFEST_DIR")).join("../tests/outside");
    let mut count = 0;
    for entry in fs::read_dir(folder).unwrap() {
        let input = entry.unwrap().path();
        if input.extension().is_some_and(|e| e == "in") {
            let expected = fs::read(input.with_extension("out")).unwrap();
            assert!(report(&fs::read(&input).unwrap()) == expected, "{}", input.display());
            count += 1;
        }
    }
    assert_eq!(count, 180);
}

fn accepted(table: &mut Table, code: u64, station: u64, job: u64) {
    assert_eq!(step(table, code, station, job, &mut []), (0, 0));
}

/// Codes 1, 3, 4, 5 of each station.
fn label(table: &mut Table, stations: &[u64]) {
    for &station in stations {
        accepted(table, 1, station, 7);
        for code in [3, 4, 5] {
            accepted(table, code, station, 0);
        }
    }
}

/// A row of a scan result: these, then zeros.
fn row_of<T: Copy + Default>(shown: &[T]) -> [T; MAX_STATIONS] {
    std::array::from_fn(|place| shown.get(place).copied().unwrap_or_default())
}

fn row(digits: &[u8]) -> Label {
    std::array::from_fn(|p| digits.get(p).copied().unwrap_or(1))
}

#[track_caller]
fn labels(table: &Table, expected: &[&[u8]]) {
    for (station, digits) in table.stations.iter().zip(expected) {
        assert_eq!(station.label, row(digits));
    }
}

#[track_caller]
fn order(table: &Table, expected: &[u8]) {
    assert!(table.order()[..table.n].iter().map(|i| i + 1).eq(expected.iter().copied()));
}

#[test]
fn samples() {
    // P1 and P2: the labels of stations 1 and 2.
    let mut two = Table::fresh(2);
    (two.stations[0].label, two.stations[1].label) = (row(&[5]), row(&[3]));
    assert!(two.before(0, 1));
    let mut four = Table::fresh(4);
    (four.stations[0].label, four.stations[1].label) = (row(&[4, 5, 2]), row(&[4, 3, 1]));
    assert!(four.before(0, 1));
    // P3 and P4
    let mut two = Table::fresh(2);
    label(&mut two, &[1]);
    labels(&two, &[&[2]]);
    order(&two, &[2, 1]);
    label(&mut two, &[2, 1, 2, 1]);
    labels(&two, &[&[3], &[5]]);
    order(&two, &[2, 1]);
    // P5
    let mut three = Table::fresh(3);
    label(&mut three, &[3]);
    labels(&three, &[&[1, 1], &[1, 1], &[1, 1]]);
    order(&three, &[1, 2, 3]);
    // P6 to P8
    let mut three = Table::fresh(3);
    label(&mut three, &[1, 2, 3]);
    labels(&three, &[&[2, 1], &[2, 2], &[3, 1]]);
    label(&mut three, &[1, 2, 3]);
    labels(&three, &[&[3, 2], &[4, 1], &[4, 2]]);
    label(&mut three, &[1, 2, 3]);
    labels(&three, &[&[5, 1], &[5, 2], &[3, 1]]);
    order(&three, &[1, 2, 3]);
    // P9
    let mut three = Table::fresh(3);
    for (code, station, job) in [(1, 1, 7), (1, 2, 7), (3, 1, 0), (3, 2, 0), (4, 1, 0), (4, 2, 0)] {
        accepted(&mut three, code, station, job);
    }
    labels(&three, &[&[2, 1], &[2, 1], &[1, 1]]);
    order(&three, &[3, 1, 2]);
    // P10 to P12
    let mut three = Table::fresh(3);
    for (code, station, job) in [(1, 1, 7), (1, 2, 7), (3, 1, 0), (3, 2, 0), (4, 1, 0), (5, 1, 0)] {
        accepted(&mut three, code, station, job);
    }
    label(&mut three, &[3, 1, 3, 1]);
    labels(&three, &[&[2, 5], &[1, 1], &[2, 4]]);
    accepted(&mut three, 4, 2, 0);
    labels(&three, &[&[2, 5], &[2, 1], &[2, 4]]);
    order(&three, &[2, 3, 1]);
    accepted(&mut three, 5, 2, 0);
    label(&mut three, &[2]);
    labels(&three, &[&[2, 5], &[3, 1], &[2, 4]]);
}

#[test]
fn a_direct_step_is_the_line_without_its_number() {
    for n in 2..=MAX_STATIONS as u64 {
        let schedule = schedule(n, 3_000, n, Ending::Plain);
        let mut table = Table::fresh(n as usize);
        let mut expected = Vec::new();
        for (line, (code, station, job)) in (2..).zip(steps(&schedule)) {
            let before = table.clone();
            let mut area = [7; MAX_STATIONS * REPORT_LINE];
            let (refused, bytes) = step(&mut table, code, station, job, &mut area);
            assert!(area[bytes..].iter().all(|&b| b == 7));
            for shown in area[..bytes].chunks(REPORT_LINE) {
                assert_eq!(&shown[..8], b"       0");
                expected.extend(format!("{line:8}").bytes().chain(shown[8..].iter().copied()));
            }
            if refused != 0 {
                assert!(bytes == 0 && table == before);
                expected.extend(format!("{line:8}{refused:3}  0  0          0\n").bytes());
            }
        }
        assert!(report(&schedule) == expected, "n = {n}");
    }
}

/// What the records of a panel hold before a call; no call writes it.
const OLD: Record = Record { place: 0, station: 77, job: 4_000_000_000 };

/// Each call with a report and, on another table, with a panel.
#[test]
fn a_panel_shows_what_a_report_shows() {
    // Scans that show no station, some, and all.
    let mut kinds = [0; 3];
    for n in 2..=MAX_STATIONS {
        let schedule = schedule(n as u64, 3_000, 100 + n as u64, Ending::Plain);
        let (mut table, mut other) = (Table::fresh(n), Table::fresh(n));
        let mut scans = 0;
        // For each station that scans, how many had a job and were in service at its snap.
        let mut scanning = [None; MAX_STATIONS + 1];
        for (at, (code, station, job)) in steps(&schedule).enumerate() {
            let with_jobs = scanning.get(station as usize).copied().flatten();
            let exact = with_jobs.unwrap_or(0);
            let records = [exact, exact + 1, 32, 33, 40][at % 5];
            let mut area = [b'?'; MAX_STATIONS * REPORT_LINE];
            let mut panel = vec![OLD; records];
            let (refused, bytes) = step(&mut table, code, station, job, &mut area);
            assert_eq!(step_panel(&mut other, code, station, job, &mut panel), (refused, bytes / REPORT_LINE));
            assert!(table == other);
            let shown: Vec<Record> = area[..bytes]
                .chunks(REPORT_LINE)
                .map(|line| Record { place: number(&line[11..14]) as u32, station: number(&line[14..17]) as u32, job: number(&line[17..28]) as u32 })
                .collect();
            assert!(panel.starts_with(&shown) && panel[shown.len()..].iter().all(|&record| record == OLD));
            assert!(shown.iter().zip(1..).all(|(record, place)| record.place == place && record.job != 0));
            match (refused, code) {
                (0, 2) => {
                    let count = table.stations[..n].iter().filter(|s| s.job != 0 && !s.out).count();
                    scanning[station as usize] = Some(count);
                    kinds[usize::from(count > 0) + usize::from(count == n)] += 1;
                }
                (0, 5) => {
                    assert_eq!(shown.len(), exact);
                    scans += u32::from(with_jobs.is_some());
                    scanning[station as usize] = None;
                }
                _ => assert_eq!(shown, []),
            }
        }
        assert!(scans > 100, "{scans} scans, n = {n}");
    }
    assert!(kinds[0] > 10 && kinds[1] > 100 && kinds[2] > 1000, "scans of none, some, all: {kinds:?}");
}

/// Stations 1 to `with_jobs` take labels one after the other, and station n begins a scan.
fn scanning(n: usize, with_jobs: usize) -> Table {
    let mut table = Table::fresh(n);
    label(&mut table, &Vec::from_iter(1..=with_jobs as u64));
    accepted(&mut table, 2, n as u64, 0);
    table
}

/// The number of stations, and how many of them a scan shows: all, the scanning one too, or some.
const SHOWN: [(usize, usize); 8] = [(2, 1), (2, 2), (3, 2), (3, 3), (31, 30), (32, 1), (32, 31), (32, 32)];

#[test]
fn a_short_panel_is_refused_last() {
    for (n, shown) in SHOWN {
        let mut table = scanning(n, shown);
        let scans = n as u64;
        let kept = table.clone();
        for records in 0..shown {
            let mut panel = vec![OLD; records];
            assert_eq!(step_panel(&mut table, 5, scans, 0, &mut panel), (7, 0));
            // What comes before 7 in the order.
            assert_eq!(step_panel(&mut table, 5, scans, 9, &mut panel), (11, 0));
            assert_eq!(step_panel(&mut table, 5, 1, 0, &mut panel), (6, 0));
            assert!(table == kept && panel.iter().all(|&record| record == OLD));
        }
        for more in [0, 1] {
            table = kept.clone();
            let mut panel = vec![OLD; shown + more];
            assert_eq!(step_panel(&mut table, 5, scans, 0, &mut panel), (0, shown));
            assert!(panel.iter().zip(1..).take(shown).all(|(&record, i)| record == Record { place: i, station: i, job: 7 }));
            assert!(panel[shown..].iter().all(|&record| record == OLD));
        }
        // A label's steps need no record.
        accepted(&mut table, 1, 1, 7);
        for code in [3, 4, 5] {
            assert_eq!(step_panel(&mut table, code, 1, 0, &mut []), (0, 0));
        }
    }
}

/// Where no station has a job, a scan shows none, and its end needs no room.
#[test]
fn an_empty_scan_needs_no_room() {
    for n in 2..=MAX_STATIONS {
        let begun = scanning(n, 0);
        assert!(begun.stations[n - 1] == Station { phase: Phase::End(Operation::Scan), ..Station::fresh() });
        for records in [0, 1, 32] {
            let (mut panel, mut area) = (vec![OLD; records], vec![b'?'; records]);
            let (mut table, mut other) = (begun.clone(), begun.clone());
            assert_eq!(step_panel(&mut table, 5, n as u64, 0, &mut panel), (0, 0));
            assert_eq!(step(&mut other, 5, n as u64, 0, &mut area), (0, 0));
            assert!(table == Table::fresh(n) && other == table);
            assert!(panel.iter().all(|&record| record == OLD) && area.iter().all(|&b| b == b'?'));
        }
    }
}

/// The snap of a scan is its begin: labels and jobs of that moment, whatever comes before the end.
#[test]
fn a_scan_snaps_as_it_begins() {
    let mut table = Table::fresh(3);
    label(&mut table, &[3, 1]);
    accepted(&mut table, 2, 3, 0);
    assert!(table.stations[2].phase == Phase::End(Operation::Scan) && table.stations[2].result[..3] == [3, 1, 0]);
    let kept = table.stations[2].clone();
    // Its first job, which comes too late for the scan.
    label(&mut table, &[2]);
    for (code, refused) in [(1, 3), (2, 3), (3, 4), (4, 5)] {
        assert_eq!(step(&mut table, code, 3, u64::from(code == 1), &mut [0; 87]), (refused, 0));
        assert!(table.stations[2] == kept);
    }
    let mut panel = [OLD; 3];
    assert_eq!(step_panel(&mut table, 5, 3, 0, &mut panel), (0, 2));
    assert_eq!(panel, [Record { place: 1, station: 3, job: 7 }, Record { place: 2, station: 1, job: 7 }, OLD]);
    // What the next scan stores leaves nothing of the longer one before it.
    (table.stations[0].job, table.stations[2].job) = (0, 0);
    accepted(&mut table, 2, 3, 0);
    assert!(table.stations[2].result == row_of(&[2]) && table.stations[2].result_jobs == row_of(&[7]));
}

/// A table where the snap of a scan is a step of its own, as before Card 1: a station that has begun one is kept aside, and begins
/// here when it snaps there.
struct Before {
    table: Table,
    begun: [bool; MAX_STATIONS],
}

impl Before {
    fn step(&mut self, code: u64, station: u64, job: u64, report: &mut [u8]) -> (u64, usize) {
        let i = (station as usize).wrapping_sub(1);
        match code {
            _ if !self.begun.get(i).is_some_and(|&begun| begun) || !(1..=7).contains(&code) => {}
            1 if job == 0 || job > u32::MAX.into() => return (11, 0),
            2.. if job != 0 => return (11, 0),
            3 => {
                self.begun[i] = false;
                return step(&mut self.table, 2, station, 0, report);
            }
            _ => return ([3, 3, 4, 5, 6, 3, 15][code as usize - 1], 0),
        }
        let kept = (code == 2).then(|| self.table.clone());
        let answer = step(&mut self.table, code, station, job, report);
        if let (Some(kept), 0) = (kept, answer.0) {
            self.table = kept;
            self.begun[i] = true;
        }
        answer
    }
}

/// Card 1's law about old schedules: where the line after each code 2 is a code 3 of the same station, the scans come out as before it, and each code 3
/// that was the snap of a scan is refused by 4.
#[test]
fn old_schedules_list_as_before() {
    for n in 2..=MAX_STATIONS {
        let mut schedule_before = line(n as u64, 0, 0);
        for (code, station, job) in steps(&schedule(n as u64, 3_000, 200 + n as u64, Ending::Plain)) {
            schedule_before.extend(line(station, code, job));
            if code == 2 {
                schedule_before.extend(line(station, 3, 0));
            }
        }
        let mut before = Before { table: Table::fresh(n), begun: [false; MAX_STATIONS] };
        let mut table = Table::fresh(n);
        let (mut scans, mut snaps) = (0, 0);
        for (code, station, job) in steps(&schedule_before) {
            let mut areas = [[b'?'; MAX_STATIONS * REPORT_LINE]; 2];
            let snaps_a_scan = code == 3 && (station as usize).checked_sub(1).is_some_and(|i| before.begun.get(i) == Some(&true));
            let old = before.step(code, station, job, &mut areas[0]);
            let new = step(&mut table, code, station, job, &mut areas[1]);
            assert_eq!(new, if snaps_a_scan { (4, 0) } else { old });
            assert!(areas[0] == areas[1] && (!snaps_a_scan || old == (0, 0)));
            scans += u32::from(new.1 > 0);
            snaps += u32::from(snaps_a_scan);
        }
        assert!(before.table == table && scans > 100 && snaps >= scans, "{scans} scans, {snaps} snaps, n = {n}");
    }
}

#[test]
fn a_short_report_is_refused_last() {
    for (n, shown) in SHOWN {
        let mut table = scanning(n, shown);
        let scans = n as u64;
        let kept = table.clone();
        for bytes in [0, 1, REPORT_LINE - 1, (shown - 1) * REPORT_LINE, shown * REPORT_LINE - 1] {
            let mut area = vec![b'?'; bytes];
            assert_eq!(step(&mut table, 5, scans, 0, &mut area), (7, 0));
            assert_eq!(step(&mut table, 5, 1, 0, &mut area), (6, 0));
            assert!(table == kept && area.iter().all(|&b| b == b'?'));
        }
        assert_eq!(step(&mut table, 5, scans, 0, &mut vec![b'?'; shown * REPORT_LINE]), (0, shown * REPORT_LINE));
    }
}

/// Each step of a station in each of its phases and out of service: accepted, or refused by this number.
#[test]
fn what_may_follow_what() {
    for (codes, expected) in FOLLOWS {
        let mut reached = Table::fresh(2);
        for &code in codes {
            assert_eq!(step(&mut reached, code, 1, u64::from(code == 1), &mut [0; REPORT_LINE]).0, 0);
        }
        for (code, refused) in (1..).zip(expected) {
            let job = u64::from(code == 1);
            let mut table = reached.clone();
            assert_eq!(step(&mut table, code, 1, job, &mut []).0, refused, "{codes:?}, then {code}");
            assert_eq!(table == reached, refused != 0, "{codes:?}, then {code}");
            // What goes before these, last to first.
            for (code, station, job, refused) in [(code, 1, 1 - job, 11), (code, 1, 1 << 32, 11), (code, 3, 1 - job, 2), (code + 7, 3, 1 - job, 10)] {
                let mut table = reached.clone();
                assert_eq!(step(&mut table, code, station, job, &mut []), (refused, 0), "{codes:?}, then {code}");
                assert!(table == reached);
            }
        }
    }
}

/// The label of a station out of service counts for the newest, for the new labels of others, and for the order when it is back.
#[test]
fn labels_out_of_service_count() {
    for n in 2..=MAX_STATIONS {
        // Station 1 is the newest and leaves. Station 2 goes above it, which it would not as the newest in service.
        let mut table = Table::fresh(n);
        label(&mut table, &[1]);
        accepted(&mut table, 6, 1, 0);
        label(&mut table, &[2]);
        order(&table, &Vec::from_iter((3..=n as u8).chain([1, 2])));
        accepted(&mut table, 2, 2, 0);
        assert_eq!((table.stations[1].result, table.stations[1].result_jobs), (row_of(&[2]), row_of(&[7])));
        accepted(&mut table, 7, 1, 0);
        accepted(&mut table, 2, 1, 0);
        assert_eq!((table.stations[0].result, table.stations[0].result_jobs), (row_of(&[1, 2]), row_of(&[7, 7])));
        assert_eq!(table.stations[1].result, row_of(&[2]));
    }
    // P6 with one of the first two stations out when the third takes its label: both have the first digit of the top label, so it moves on.
    for out in [1, 2] {
        let mut table = Table::fresh(3);
        label(&mut table, &[1, 2]);
        accepted(&mut table, 6, out, 0);
        label(&mut table, &[3]);
        labels(&table, &[&[2, 1], &[2, 2], &[3, 1]]);
    }
    // The newest keeps its label over its time out of service.
    let mut table = Table::fresh(3);
    label(&mut table, &[1, 2]);
    accepted(&mut table, 6, 2, 0);
    accepted(&mut table, 7, 2, 0);
    label(&mut table, &[2]);
    labels(&table, &[&[2, 1], &[2, 2], &[1, 1]]);
}

/// A station that leaves is out of service, and nothing else changes; its return undoes that.
#[test]
fn leave_and_return() {
    for n in 2..=MAX_STATIONS {
        let (mut table, mut idle) = (Table::fresh(n), 0);
        for (code, station, job) in steps(&schedule(n as u64, 500, 300 + n as u64, Ending::Plain)) {
            step(&mut table, code, station, job, &mut [0; MAX_STATIONS * REPORT_LINE]);
            let kept = table.clone();
            for i in (0..n).filter(|&i| kept.stations[i].phase == Phase::Idle && !kept.stations[i].out) {
                accepted(&mut table, 6, i as u64 + 1, 0);
                let mut expected = kept.clone();
                expected.stations[i].out = true;
                assert!(table == expected);
                accepted(&mut table, 7, i as u64 + 1, 0);
                assert!(table == kept);
                idle += 1;
            }
        }
        assert!(idle > 100, "{idle} times, n = {n}");
    }
}

/// A table of three stations whose scan results show 1 and 2, none, and 3, 1, 2.
fn with_results() -> Table {
    let mut table = Table::fresh(3);
    (table.stations[0].result, table.stations[0].result_jobs) = (row_of(&[1, 2]), row_of(&[7, 8]));
    (table.stations[2].result, table.stations[2].result_jobs) = (row_of(&[3, 1, 2]), row_of(&[u32::MAX, 1, 9]));
    table
}

#[test]
fn ill_formed_tables() {
    type Damage = fn(&mut Table);
    let damages: [Damage; 31] = [
        |t| t.n = 0,
        |t| t.n = 1,
        |t| t.n = 33,
        |t| t.stations[1].label[0] = 0,
        |t| t.stations[1].pending_label[1] = 6,
        |t| t.stations[1].label[2] = 2,
        |t| t.stations[0].pending_label[30] = 2,
        // A station after a 0.
        |t| (t.stations[0].result[0], t.stations[0].result_jobs[0]) = (0, 0),
        |t| (t.stations[1].result[2], t.stations[1].result_jobs[2]) = (3, 9),
        // A station twice.
        |t| t.stations[0].result[1] = 1,
        |t| t.stations[2].result[2] = 3,
        // No station of the table.
        |t| t.stations[0].result[1] = 4,
        |t| (t.stations[0].result[2], t.stations[0].result_jobs[2]) = (255, 9),
        // A job without a station.
        |t| t.stations[0].result_jobs[2] = 1,
        |t| t.stations[1].result_jobs[0] = 1,
        |t| t.stations[1].result_jobs[31] = 1,
        |t| t.stations[0].result[1] = 0,
        // A station without a job.
        |t| t.stations[0].result_jobs[1] = 0,
        |t| t.stations[2].result_jobs[0] = 0,
        |t| t.stations[0].result[2] = 3,
        // More stations than there are.
        |t| (t.stations[2].result[3], t.stations[2].result_jobs[3]) = (4, 9),
        // Out of service and not idle.
        |t| (t.stations[0].out, t.stations[0].phase) = (true, Phase::Snap),
        |t| (t.stations[1].out, t.stations[1].phase) = (true, Phase::Update),
        |t| (t.stations[2].out, t.stations[2].phase) = (true, Phase::End(Operation::Label)),
        |t| (t.stations[2].out, t.stations[2].phase) = (true, Phase::End(Operation::Scan)),
        // Past the stations.
        |t| t.stations[3].out = true,
        |t| t.stations[31].out = true,
        |t| t.stations[3].phase = Phase::Update,
        |t| t.stations[3].result[0] = 1,
        |t| (t.stations[31].result[0], t.stations[31].result_jobs[0]) = (1, 1),
        |t| (0..3).for_each(|i| t.stations[i].label = row(&[2, 3 + i as u8])),
    ];
    for (at, damage) in damages.into_iter().enumerate() {
        let mut table = with_results();
        assert!(table.is_well_formed());
        damage(&mut table);
        let kept = table.clone();
        for (code, station, job) in [(1, 1, 7), (2, 3, 0), (6, 1, 0), (7, 2, 0), (0, 0, 0), (9, 99, 9)] {
            assert_eq!(step(&mut table, code, station, job, &mut [0; 928]), (13, 0), "damage {at}");
        }
        assert!(table == kept);
    }
    // No job and no phase of the stations in service is judged, a result may have other jobs than the stations now, and pending labels may close a ring.
    let mut table = with_results();
    for (i, station) in table.stations[..3].iter_mut().enumerate() {
        station.pending_label = row(&[2, 3 + i as u8]);
        (station.job, station.pending_job) = (if i == 1 { u32::MAX } else { 0 }, 5);
        station.phase = Phase::End(Operation::Scan);
    }
    for (station, shown) in [(1, 2), (2, 0), (3, 3)] {
        assert_eq!(step(&mut table, 5, station, 0, &mut [0; 928]), (0, shown * REPORT_LINE));
    }
}

#[test]
fn rings() {
    let mut random = Random(13);
    let mut ringless = 0;
    for _ in 0..20_000 {
        let n = 3 + random.below(6) as usize;
        let mut table = Table::fresh(n);
        for station in &mut table.stations[..n] {
            for digit in &mut station.label[..n - 1] {
                *digit = if random.one_in(2) { 1 + random.below(5) as u8 } else { 3 };
            }
        }
        let labels: Vec<Label> = table.stations[..n].iter().map(|s| s.label).collect();
        let ring = labels.iter().any(|a| {
            labels.iter().any(|b| labels.iter().any(|c| (0..n - 1).any(|p| a[..p] == b[..p] && b[..p] == c[..p] && (a[p], b[p], c[p]) == (3, 4, 5))))
        });
        assert_eq!(table.is_well_formed(), !ring);
        ringless += u32::from(!ring);
    }
    assert!((5_000..15_000).contains(&ringless), "{ringless} of 20,000");
}

#[test]
fn generated_schedules() {
    for n in [2, 3, 8, 32] {
        let lines = 40_000;
        let plain = schedule(n, lines, 5, Ending::Plain);
        assert!(plain == schedule(n, lines, 5, Ending::Plain));
        assert!(plain != schedule(n, lines, 6, Ending::Plain));
        assert_eq!(plain.len() as u64, (lines + 1) * LINE as u64);
        let shown = refusals(&report(&plain));
        let mut counts = [0; 16];
        shown.iter().for_each(|&(_, refused)| counts[refused as usize] += 1);
        for (refused, count) in counts.iter().enumerate().skip(1) {
            assert_eq!(*count > 0, [2, 3, 4, 5, 6, 10, 11, 14, 15].contains(&refused), "refusal {refused}, n = {n}");
        }
        let refused: u64 = counts[1..].iter().sum();
        assert!((lines / 50..lines / 20).contains(&refused), "{refused} refused, n = {n}");
        let begun = |code| plain.chunks(LINE).filter(|line| line[5] == code).count();
        assert!((3..5).contains(&((begun(b'1') + begun(b'2')) / begun(b'2'))), "the share of scans, n = {n}");
        // While a station that has a job is out of service: scans, which do not show it, and snaps, for which its label counts.
        let (mut table, mut scans, mut snaps) = (Table::fresh(n as usize), 0, 0);
        for (code, station, job) in steps(&plain) {
            let out = table.stations.iter().any(|s| s.out && s.job != 0);
            let served = step(&mut table, code, station, job, &mut [0; MAX_STATIONS * REPORT_LINE]).0 == 0;
            scans += u32::from(served && out && code == 2);
            snaps += u32::from(served && out && code == 3);
        }
        assert!(scans > 100 && snaps > 300, "{scans} scans and {snaps} snaps while a station is out, n = {n}");
        for (ending, refused) in [(Ending::Incomplete, 8), (Ending::Column, 9)] {
            let report = report(&schedule(n, lines, 5, ending));
            assert_eq!(refusals(&report).last(), Some(&(lines + 2, refused)));
        }
    }
}

#[test]
fn one_line_too_many() {
    let million = schedule(2, 1_000_000, 1, Ending::Plain);
    let whole = report(&million);
    assert!(refusals(&whole).iter().all(|&(_, refused)| refused != 12));
    for more in [&b"  1  1          1\n"[..], b"x"] {
        let report = report(&[&million, more].concat());
        assert!(report.starts_with(&whole) && report.len() == whole.len() + REPORT_LINE);
        assert_eq!(refusals(&report).last(), Some(&(1_000_002, 12)));
    }
}
