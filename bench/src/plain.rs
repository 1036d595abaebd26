//! The schedule program in plain Rust, written from documents 01 and 02 (Cards 1, 2, 4 and 5) and not from the Rattle code. `numbers`, `unbounded` and
//! `logs` have their lines and steps from here.

use std::cmp::Ordering;
use std::io::{self, Read, Write};

pub const MAX_STATIONS: usize = 32;
pub const MAX_DIGITS: usize = MAX_STATIONS - 1;
pub const MAX_STEPS: u32 = 1_000_000;
/// Bytes of a schedule line and of a report line.
pub const LINE: usize = 18;
pub const REPORT_LINE: usize = 29;

/// The documents' numbers for what is refused.
pub mod refusal {
    pub const COUNT: u64 = 1;
    pub const STATION: u64 = 2;
    pub const BUSY: u64 = 3;
    pub const NO_SNAP_DUE: u64 = 4;
    pub const NO_UPDATE_DUE: u64 = 5;
    pub const NO_END_DUE: u64 = 6;
    pub const SHORT_REPORT: u64 = 7;
    pub const INCOMPLETE: u64 = 8;
    pub const COLUMN: u64 = 9;
    pub const CODE: u64 = 10;
    pub const JOB: u64 = 11;
    pub const TOO_MANY: u64 = 12;
    pub const ILL_FORMED: u64 = 13;
    pub const OUT_OF_SERVICE: u64 = 14;
    pub const IN_SERVICE: u64 = 15;
    pub const TOO_MANY_STEPS: u64 = 16;
    pub const SHORT_LIST: u64 = 17;
}

/// Digits 1 to 5; positions past n - 1 hold 1.
pub type Label = [u8; MAX_DIGITS];

/// Whether the row's digit is below the column's.
const BELOW: [[bool; 5]; 5] = [
    [false, true, true, true, true],
    [false, false, true, true, true],
    [false, false, false, true, false],
    [false, false, false, false, true],
    [false, false, true, false, false],
];
const NEXT_DIGIT: [u8; 5] = [2, 3, 4, 5, 3];

#[derive(Clone, Copy, PartialEq, Eq, Debug)]
pub enum Operation {
    Label,
    Scan,
}

#[derive(Clone, Copy, PartialEq, Eq, Debug)]
pub enum Phase {
    Idle,
    /// For a label; a scan snaps as it begins.
    Snap,
    Update,
    End(Operation),
}

/// A scan result stands in two rows: the stations that it shows, oldest first, and their jobs; zeros past these.
#[derive(Clone, PartialEq, Eq, Debug)]
pub struct Station {
    pub label: Label,
    pub job: u32,
    pub pending_label: Label,
    pub pending_job: u32,
    pub result: [u8; MAX_STATIONS],
    pub result_jobs: [u32; MAX_STATIONS],
    pub phase: Phase,
    /// Out of service; such a station is idle.
    pub out: bool,
}

impl Station {
    pub fn fresh() -> Station {
        Station {
            label: [1; MAX_DIGITS],
            job: 0,
            pending_label: [1; MAX_DIGITS],
            pending_job: 0,
            result: [0; MAX_STATIONS],
            result_jobs: [0; MAX_STATIONS],
            phase: Phase::Idle,
            out: false,
        }
    }

    /// How many stations the scan result shows.
    pub fn shown(&self) -> usize {
        self.result.iter().take_while(|&&station| station != 0).count()
    }

    fn is_well_formed(&self, n: usize) -> bool {
        let digits = |label: &Label| {
            let (used, rest) = label.split_at(n - 1);
            used.iter().all(|d| (1..=5).contains(d)) && rest.iter().all(|&d| d == 1)
        };
        let (shown, empty) = self.result.split_at(self.shown());
        let (jobs, no_jobs) = self.result_jobs.split_at(shown.len());
        let mut seen = 0u64;
        for &station in shown {
            seen |= if (1..=n).contains(&usize::from(station)) { 1 << station } else { 0 };
        }
        digits(&self.label)
            && digits(&self.pending_label)
            // Different stations of 1 to n, so none past place n.
            && seen.count_ones() as usize == shown.len()
            && empty.iter().all(|&station| station == 0)
            && jobs.iter().all(|&job| job != 0)
            && no_jobs.iter().all(|&job| job == 0)
            && (!self.out || self.phase == Phase::Idle)
    }
}

#[derive(Clone, PartialEq, Eq, Debug)]
pub struct Table {
    pub n: usize,
    pub stations: [Station; MAX_STATIONS],
}

/// A place of a scan, for callers who lend records in place of a report.
#[derive(Clone, Copy, PartialEq, Eq, Debug)]
pub struct Record {
    pub place: u32,
    pub station: u32,
    pub job: u32,
}

/// How many digits two labels share before they first differ, at most `digits`.
pub(crate) fn shared(a: &Label, b: &Label, digits: usize) -> usize {
    a.iter().zip(b).take(digits).take_while(|(x, y)| x == y).count()
}

pub(crate) fn is_below(a: u8, b: u8) -> bool {
    BELOW[usize::from(a) - 1][usize::from(b) - 1]
}

impl Table {
    pub fn fresh(n: usize) -> Table {
        Table { n, stations: std::array::from_fn(|_| Station::fresh()) }
    }

    /// Whether station i stands before station j; both count from 0 here.
    pub fn before(&self, i: usize, j: usize) -> bool {
        let (a, b) = (&self.stations[i].label, &self.stations[j].label);
        let same = shared(a, b, self.n - 1);
        if same < self.n - 1 {
            is_below(a[same], b[same])
        } else {
            i < j
        }
    }

    /// The station that no other stands after; the labels must have no ring.
    pub fn newest(&self) -> usize {
        let mut newest = 0;
        for i in 1..self.n {
            if self.before(newest, i) {
                newest = i;
            }
        }
        newest
    }

    /// The stations, oldest first, in the first n places; the labels must have no ring.
    pub fn order(&self) -> [u8; MAX_STATIONS] {
        let mut order: [u8; MAX_STATIONS] = std::array::from_fn(|i| i as u8);
        order[..self.n].sort_unstable_by(|&i, &j| {
            if i == j {
                Ordering::Equal
            } else if self.before(i.into(), j.into()) {
                Ordering::Less
            } else {
                Ordering::Greater
            }
        });
        order
    }

    /// The new label of a station that is not the newest.
    pub fn next_label(&self, station: usize, newest: usize) -> Label {
        let n = self.n;
        let top = &self.stations[newest].label;
        // How many other stations share just so many digits with the top label.
        let mut sharing = [0; MAX_STATIONS];
        for (i, other) in self.stations[..n].iter().enumerate() {
            if i != station {
                sharing[shared(&other.label, top, n - 1)] += 1;
            }
        }
        // The newest shares all n - 1 digits, so the search ends there at the latest.
        let mut level = 1;
        let mut agreeing = n - 1 - sharing[0];
        while agreeing < n - level {
            agreeing -= sharing[level];
            level += 1;
        }
        let mut label = [1; MAX_DIGITS];
        label[..level - 1].copy_from_slice(&top[..level - 1]);
        label[level - 1] = NEXT_DIGIT[usize::from(top[level - 1]) - 1];
        label
    }

    /// Refusal 13's test.
    pub fn is_well_formed(&self) -> bool {
        if !(2..=MAX_STATIONS).contains(&self.n) {
            return false;
        }
        let (stations, rest) = self.stations.split_at(self.n);
        let fresh = Station::fresh();
        stations.iter().all(|s| s.is_well_formed(self.n)) && rest.iter().all(|s| *s == fresh) && self.has_no_ring()
    }

    /// Labels have a ring of 3, 4, 5 just if "before" has a cycle, and it has none just if no two stations have equally many before them.
    fn has_no_ring(&self) -> bool {
        let mut older = [0; MAX_STATIONS];
        for i in 0..self.n {
            for j in i + 1..self.n {
                older[if self.before(i, j) { j } else { i }] += 1;
            }
        }
        let seen = older[..self.n].iter().fold(0u32, |seen, count| seen | 1 << count);
        seen.count_ones() as usize == self.n
    }

    /// Sets the pending label of a station that snaps; hands back the newest.
    pub(crate) fn snap_label(&mut self, station: usize) -> usize {
        let newest = self.newest();
        if newest != station {
            self.stations[station].pending_label = self.next_label(station, newest);
        }
        self.stations[station].phase = Phase::Update;
        newest
    }

    fn scan(&mut self, station: usize, order: impl FnOnce(&Table) -> [u8; MAX_STATIONS]) {
        let (mut result, mut result_jobs) = ([0; MAX_STATIONS], [0; MAX_STATIONS]);
        let order = order(self);
        let shown = order[..self.n].iter().map(|&i| (i + 1, &self.stations[usize::from(i)])).filter(|(_, s)| s.job != 0 && !s.out);
        for (place, (number, s)) in shown.enumerate() {
            (result[place], result_jobs[place]) = (number, s.job);
        }
        let s = &mut self.stations[station];
        (s.result, s.result_jobs, s.phase) = (result, result_jobs, Phase::End(Operation::Scan));
    }

    /// The step on a well-formed table: how much was written, or the refusal. An ended scan is written by `write`, from the station with the result.
    fn serve(&mut self, code: u64, station: u64, job: u64, write: impl FnOnce(&Station) -> Result<usize, u64>) -> Result<usize, u64> {
        let snap = |t: &mut Table, i| {
            t.snap_label(i);
        };
        self.serve_by(code, station, job, Table::order, snap, write)
    }

    /// The step with the stations in any order, and with what a snap for a label does of its own, given the station, from 0.
    pub(crate) fn serve_by(
        &mut self,
        code: u64,
        station: u64,
        job: u64,
        order: impl FnOnce(&Table) -> [u8; MAX_STATIONS],
        snap: impl FnOnce(&mut Table, usize),
        write: impl FnOnce(&Station) -> Result<usize, u64>,
    ) -> Result<usize, u64> {
        if !(1..=7).contains(&code) {
            return Err(refusal::CODE);
        }
        if !(1..=self.n as u64).contains(&station) {
            return Err(refusal::STATION);
        }
        let jobs = if code == 1 { 1..=u32::MAX.into() } else { 0..=0 };
        if !jobs.contains(&job) {
            return Err(refusal::JOB);
        }
        let i = station as usize - 1;
        let s = &mut self.stations[i];
        match (code, s.out) {
            (1 | 2 | 6, true) => return Err(refusal::OUT_OF_SERVICE),
            (7, false) => return Err(refusal::IN_SERVICE),
            _ => {}
        }
        match (code, s.phase) {
            (1, Phase::Idle) => {
                s.pending_job = job as u32;
                s.phase = Phase::Snap;
            }
            (2, Phase::Idle) => self.scan(i, order),
            (3, Phase::Snap) => snap(self, i),
            (4, Phase::Update) => {
                s.label = s.pending_label;
                s.job = s.pending_job;
                s.phase = Phase::End(Operation::Label);
            }
            (5, Phase::End(Operation::Label)) => s.phase = Phase::Idle,
            (5, Phase::End(Operation::Scan)) => {
                let written = write(s)?;
                s.phase = Phase::Idle;
                return Ok(written);
            }
            (6, Phase::Idle) => s.out = true,
            (7, _) => s.out = false,
            (1 | 2 | 6, _) => return Err(refusal::BUSY),
            (3, _) => return Err(refusal::NO_SNAP_DUE),
            (4, _) => return Err(refusal::NO_UPDATE_DUE),
            _ => return Err(refusal::NO_END_DUE),
        }
        Ok(0)
    }
}

/// How many stations have the newest's label, in service or not: the refusal (0 if the table is well-formed) and their number.
pub fn top_holders(t: &Table) -> (u64, usize) {
    if !t.is_well_formed() {
        return (refusal::ILL_FORMED, 0);
    }
    let top = &t.stations[t.newest()].label;
    (0, t.stations[..t.n].iter().filter(|s| s.label == *top).count())
}

/// The direct step call: the refusal (0 if accepted) and the number of report bytes.
pub fn step(t: &mut Table, code: u64, station: u64, job: u64, report: &mut [u8]) -> (u64, usize) {
    direct(t, code, station, job, |s| write_result(0, s, report))
}

/// The direct step call with records: the refusal (0 if accepted) and the number of records written.
pub fn step_panel(t: &mut Table, code: u64, station: u64, job: u64, panel: &mut [Record]) -> (u64, usize) {
    direct(t, code, station, job, |s| fill_panel(s, panel))
}

fn direct(t: &mut Table, code: u64, station: u64, job: u64, write: impl FnOnce(&Station) -> Result<usize, u64>) -> (u64, usize) {
    if !t.is_well_formed() {
        return (refusal::ILL_FORMED, 0);
    }
    match t.serve(code, station, job, write) {
        Ok(written) => (0, written),
        Err(number) => (number, 0),
    }
}

/// Writes a number at the right edge of a column of blanks.
pub fn put(column: &mut [u8], mut number: u32) {
    for byte in column.iter_mut().rev() {
        *byte = b'0' + (number % 10) as u8;
        number /= 10;
        if number == 0 {
            break;
        }
    }
}

/// Reads a column: a number at the right edge with blanks before it and no needless 0.
pub(crate) fn column(bytes: &[u8]) -> Result<u64, u64> {
    let blanks = bytes.iter().take_while(|&&b| b == b' ').count();
    let digits = &bytes[blanks..];
    if digits.is_empty() || (digits[0] == b'0' && digits.len() > 1) {
        return Err(refusal::COLUMN);
    }
    let mut number = 0;
    for &byte in digits {
        if !byte.is_ascii_digit() {
            return Err(refusal::COLUMN);
        }
        number = number * 10 + u64::from(byte - b'0');
    }
    Ok(number)
}

/// The columns of a report line; the last byte is the line's end.
pub(crate) fn report_line(line: u32, refused: u64) -> [u8; REPORT_LINE] {
    let mut bytes = [b' '; REPORT_LINE];
    put(&mut bytes[..8], line);
    put(&mut bytes[8..11], refused as u32);
    bytes[REPORT_LINE - 1] = b'\n';
    bytes
}

/// Writes a scan result as report lines, if there is room for all.
pub(crate) fn write_result(line: u32, s: &Station, report: &mut [u8]) -> Result<usize, u64> {
    let report = report.get_mut(..s.shown() * REPORT_LINE).ok_or(refusal::SHORT_REPORT)?;
    let blank = report_line(line, 0);
    for (place, bytes) in report.chunks_exact_mut(REPORT_LINE).enumerate() {
        bytes.copy_from_slice(&blank);
        put(&mut bytes[11..14], place as u32 + 1);
        put(&mut bytes[14..17], s.result[place].into());
        put(&mut bytes[17..28], s.result_jobs[place]);
    }
    Ok(report.len())
}

/// Writes a scan result as records, if there are enough of them.
fn fill_panel(s: &Station, panel: &mut [Record]) -> Result<usize, u64> {
    let records = panel.get_mut(..s.shown()).ok_or(refusal::SHORT_REPORT)?;
    for (place, record) in records.iter_mut().enumerate() {
        *record = Record { place: place as u32 + 1, station: s.result[place].into(), job: s.result_jobs[place] };
    }
    Ok(records.len())
}

pub(crate) fn write_refusal(line: u32, refused: u64, report: &mut [u8]) {
    report[..REPORT_LINE].copy_from_slice(&report_line(line, refused));
    report[13] = b'0';
    report[16] = b'0';
    report[27] = b'0';
}

/// Station (in the header the count), code and job of a line.
pub(crate) fn read_line(bytes: &[u8]) -> Result<(u64, u64, u64), u64> {
    if bytes.len() != LINE || bytes[LINE - 1] != b'\n' {
        return Err(refusal::INCOMPLETE);
    }
    Ok((column(&bytes[..3])?, column(&bytes[3..6])?, column(&bytes[6..17])?))
}

pub(crate) fn read_header(bytes: &[u8]) -> Result<Table, u64> {
    let (n, code, job) = read_line(bytes)?;
    if code != 0 {
        Err(refusal::CODE)
    } else if !(2..=MAX_STATIONS as u64).contains(&n) {
        Err(refusal::COUNT)
    } else if job != 0 {
        Err(refusal::JOB)
    } else {
        Ok(Table::fresh(n as usize))
    }
}

fn serve_line(table: &mut Table, line: u32, bytes: &[u8], report: &mut [u8]) -> Result<usize, u64> {
    if line > MAX_STEPS + 1 {
        return Err(refusal::TOO_MANY);
    }
    let (station, code, job) = read_line(bytes)?;
    table.serve(code, station, job, |s| write_result(line, s, report))
}

/// Reads until the buffer is full or the input ends.
pub(crate) fn fill(input: &mut impl Read, buffer: &mut [u8]) -> io::Result<usize> {
    let mut len = 0;
    while len < buffer.len() {
        match input.read(&mut buffer[len..]) {
            Ok(0) => break,
            Ok(more) => len += more,
            Err(error) if error.kind() == io::ErrorKind::Interrupted => {}
            Err(error) => return Err(error),
        }
    }
    Ok(len)
}

/// The schedule program.
pub fn run(input: &mut impl Read, output: &mut impl Write) -> io::Result<()> {
    let mut schedule = vec![0; LINE * 4096];
    let mut report = vec![0; 1 << 16];
    let mut used = 0;
    let mut table = Table::fresh(MAX_STATIONS);
    let mut line = 0;
    loop {
        let len = fill(input, &mut schedule)?;
        // An empty input is an incomplete line too.
        let empty = (line == 0 && len == 0).then_some(&[][..]);
        for bytes in schedule[..len].chunks(LINE).chain(empty) {
            line += 1;
            if report.len() - used < MAX_STATIONS * REPORT_LINE {
                output.write_all(&report[..used])?;
                used = 0;
            }
            let served = if line == 1 {
                read_header(bytes).map(|fresh| {
                    table = fresh;
                    0
                })
            } else {
                serve_line(&mut table, line, bytes, &mut report[used..])
            };
            match served {
                Ok(bytes) => used += bytes,
                Err(number) => {
                    write_refusal(line, number, &mut report[used..]);
                    used += REPORT_LINE;
                    if line == 1 || matches!(number, refusal::INCOMPLETE | refusal::COLUMN | refusal::TOO_MANY) {
                        output.write_all(&report[..used])?;
                        return output.flush();
                    }
                }
            }
        }
        if len < schedule.len() {
            output.write_all(&report[..used])?;
            return output.flush();
        }
    }
}
