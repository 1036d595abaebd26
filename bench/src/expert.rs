//! The schedule program in plain Rust once more, by an expert. It is the program of `plain` with these five things:
//!
//! - A label is one number, three bits a digit, and labels are compared as numbers.
//! - The scan order is kept: an update takes one station out and puts it in again by binary search.
//! - A scan result has the count of the stations that it shows beside it.
//! - Out of service is one more phase, and a station has job 0 while it lasts: so neither a step nor a scan asks for it by itself.
//! - Report lines come from a template: the columns that do not change within a scan are written once, as `plain` does too.

use crate::plain::{fill, put, read_header, read_line, refusal, report_line, write_refusal};
use crate::plain::{Label, LINE, MAX_DIGITS, MAX_STATIONS, MAX_STEPS, REPORT_LINE};
use std::io::{self, Read, Write};

/// A label with its station: three bits a digit, earlier digits higher, and the station, from 0, in the lowest bits, since of two equal labels the lower
/// station's is below. A digit is kept less 1, so that fresh digits are 0.
pub type Key = u128;

/// Where the bits of the digit at a position, from 0, begin.
fn shift(position: usize) -> usize {
    125 - 3 * position
}

pub fn key(label: &Label, station: usize) -> Key {
    label.iter().enumerate().fold(station as Key, |key, (p, &digit)| key | Key::from(digit - 1) << shift(p))
}

pub fn label(key: Key) -> Label {
    std::array::from_fn(|p| digit(key, p) + 1)
}

/// The digit at a position, less 1.
fn digit(key: Key, position: usize) -> u8 {
    (key >> shift(position)) as u8 % 8
}

/// How many digits two labels share before they first differ.
fn shared(a: Key, b: Key) -> usize {
    // A bit between the last digit and the station: there the search ends.
    let differ = (a ^ b) | 1 << (shift(MAX_DIGITS - 1) - 1);
    differ.leading_zeros() as usize / 3
}

/// Whether the station with the first key stands before the one with the second.
pub fn before(a: Key, b: Key) -> bool {
    // Digits stand as their numbers do, 5 and 3 aside; and no other two digits differ in the bits in which these do.
    (a < b) ^ (digit(a ^ b, shared(a, b)) == (5 - 1) ^ (3 - 1))
}

/// The label of a station that keeps so many digits of the top label and has the next digit behind them, then fresh ones.
fn above(top: Key, digits: usize, station: usize) -> Key {
    const NEXT_DIGIT: [Key; 5] = [2 - 1, 3 - 1, 4 - 1, 5 - 1, 3 - 1];
    let next = NEXT_DIGIT[usize::from(digit(top, digits))];
    let kept = top & !(!0 >> (3 * digits));
    kept | next << shift(digits) | station as Key
}

#[derive(Clone, Copy)]
enum Phase {
    Idle,
    Snap,
    Update,
    EndLabel,
    EndScan,
    /// Out of service, and idle.
    Out,
}

struct Station {
    key: Key,
    /// 0 while the station is out of service.
    job: u32,
    pending_key: Key,
    /// Of an idle station the job that it has, in service or out of it.
    pending_job: u32,
    /// How many stations the scan result shows; what its rows hold past them is no part of it.
    shown: usize,
    result: [u8; MAX_STATIONS],
    result_jobs: [u32; MAX_STATIONS],
    phase: Phase,
}

pub struct Table {
    n: usize,
    stations: [Station; MAX_STATIONS],
    /// The stations, from 0, oldest first.
    order: [u8; MAX_STATIONS],
}

impl Table {
    pub fn fresh(n: usize) -> Table {
        let stations = std::array::from_fn(|i| Station {
            key: i as Key,
            job: 0,
            pending_key: i as Key,
            pending_job: 0,
            shown: 0,
            result: [0; MAX_STATIONS],
            result_jobs: [0; MAX_STATIONS],
            phase: Phase::Idle,
        });
        Table { n, stations, order: std::array::from_fn(|i| i as u8) }
    }

    /// The label of a station, from 0.
    pub fn label(&self, station: usize) -> Label {
        label(self.stations[station].key)
    }

    /// The stations, from 0, oldest first.
    pub fn order(&self) -> &[u8] {
        &self.order[..self.n]
    }

    fn snap_label(&mut self, i: usize) {
        let n = self.n;
        let newest = usize::from(self.order[n - 1]);
        if newest != i {
            let top = self.stations[newest].key;
            // How many other stations share just so many digits with the top label.
            let mut sharing = [0; MAX_STATIONS];
            for (_, other) in self.stations[..n].iter().enumerate().filter(|&(j, _)| j != i) {
                sharing[shared(other.key, top)] += 1;
            }
            // The newest shares all digits, so the search ends there at the latest.
            let mut level = 1;
            let mut agreeing = n - 1 - sharing[0];
            while agreeing < n - level {
                agreeing -= sharing[level];
                level += 1;
            }
            self.stations[i].pending_key = above(top, level - 1, i);
        }
        self.stations[i].phase = Phase::Update;
    }

    fn scan(&mut self, i: usize) {
        let mut shown = 0;
        for &j in &self.order[..self.n] {
            let job = self.stations[usize::from(j)].job;
            // A station without a job is written too, and the next one over it.
            self.stations[i].result[shown] = j + 1;
            self.stations[i].result_jobs[shown] = job;
            shown += usize::from(job != 0);
        }
        self.stations[i].shown = shown;
        self.stations[i].phase = Phase::EndScan;
    }

    fn update(&mut self, i: usize) {
        let s = &mut self.stations[i];
        let key = s.pending_key;
        s.key = key;
        s.job = s.pending_job;
        s.phase = Phase::EndLabel;
        let order = &mut self.order[..self.n];
        let from = order.iter().position(|&j| usize::from(j) == i).expect("each station has a place");
        order.copy_within(from + 1.., from);
        let others = order.len() - 1;
        let to = order[..others].partition_point(|&j| before(self.stations[usize::from(j)].key, key));
        order.copy_within(to..others, to + 1);
        order[to] = i as u8;
    }

    /// A step line: the station, from 0, whose scan it ends, if it does; or the refusal.
    pub fn serve(&mut self, bytes: &[u8]) -> Result<Option<usize>, u64> {
        let (station, code, job) = read_line(bytes)?;
        if !(1..=7).contains(&code) {
            return Err(refusal::CODE);
        }
        if !(1..=self.n as u64).contains(&station) {
            return Err(refusal::STATION);
        }
        let jobs = if code == 1 { 1..=u32::MAX.into() } else { 0..=0 };
        if !jobs.contains(&job) {
            return Err(refusal::JOB);
        }
        let i = station as usize - 1;
        let s = &mut self.stations[i];
        match (code, s.phase) {
            (1, Phase::Idle) => {
                s.pending_job = job as u32;
                s.phase = Phase::Snap;
            }
            (2, Phase::Idle) => self.scan(i),
            (3, Phase::Snap) => self.snap_label(i),
            (4, Phase::Update) => self.update(i),
            (5, Phase::EndLabel) => s.phase = Phase::Idle,
            (5, Phase::EndScan) => {
                s.phase = Phase::Idle;
                return Ok(Some(i));
            }
            (6, Phase::Idle) => {
                s.job = 0;
                s.phase = Phase::Out;
            }
            (7, Phase::Out) => {
                s.job = s.pending_job;
                s.phase = Phase::Idle;
            }
            (1 | 2 | 6, Phase::Out) => return Err(refusal::OUT_OF_SERVICE),
            (7, _) => return Err(refusal::IN_SERVICE),
            (1 | 2 | 6, _) => return Err(refusal::BUSY),
            (3, _) => return Err(refusal::NO_SNAP_DUE),
            (4, _) => return Err(refusal::NO_UPDATE_DUE),
            _ => return Err(refusal::NO_END_DUE),
        }
        Ok(None)
    }
}

/// The report on its way to the output.
struct Report<'a, W> {
    output: &'a mut W,
    bytes: Vec<u8>,
    used: usize,
}

impl<W: Write> Report<'_, W> {
    /// Room for the next so many lines.
    fn lines(&mut self, count: usize) -> io::Result<&mut [u8]> {
        let len = count * REPORT_LINE;
        if self.bytes.len() - self.used < len {
            self.output.write_all(&self.bytes[..self.used])?;
            self.used = 0;
        }
        let from = self.used;
        self.used += len;
        Ok(&mut self.bytes[from..from + len])
    }

    fn result(&mut self, line: u32, table: &Table, station: usize) -> io::Result<()> {
        let s = &table.stations[station];
        let template = report_line(line, 0);
        for (place, bytes) in self.lines(s.shown)?.chunks_exact_mut(REPORT_LINE).enumerate() {
            bytes.copy_from_slice(&template);
            put(&mut bytes[11..14], place as u32 + 1);
            put(&mut bytes[14..17], s.result[place].into());
            put(&mut bytes[17..28], s.result_jobs[place]);
        }
        Ok(())
    }

    fn refusal(&mut self, line: u32, number: u64) -> io::Result<()> {
        write_refusal(line, number, self.lines(1)?);
        Ok(())
    }

    fn end(self) -> io::Result<()> {
        self.output.write_all(&self.bytes[..self.used])?;
        self.output.flush()
    }
}

/// The schedule program.
pub fn run(input: &mut impl Read, output: &mut impl Write) -> io::Result<()> {
    let mut schedule = vec![0; LINE * 4096];
    let mut report = Report { output, bytes: vec![0; 1 << 16], used: 0 };
    let mut len = fill(input, &mut schedule)?;
    let mut table = match read_header(&schedule[..len.min(LINE)]) {
        Ok(header) => Table::fresh(header.n),
        Err(number) => {
            report.refusal(1, number)?;
            return report.end();
        }
    };
    let mut from = LINE;
    let mut line = 1;
    loop {
        for bytes in schedule[from..len].chunks(LINE) {
            line += 1;
            let served = if line > MAX_STEPS + 1 { Err(refusal::TOO_MANY) } else { table.serve(bytes) };
            match served {
                Ok(None) => {}
                Ok(Some(station)) => report.result(line, &table, station)?,
                Err(number) => {
                    report.refusal(line, number)?;
                    if matches!(number, refusal::INCOMPLETE | refusal::COLUMN | refusal::TOO_MANY) {
                        return report.end();
                    }
                }
            }
        }
        if len < schedule.len() {
            return report.end();
        }
        len = fill(input, &mut schedule)?;
        from = 0;
    }
}
