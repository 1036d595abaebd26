//! The unbounded table (document 01: growing-number table), fed with numbers in place of advances, as Card 7 has them in a log too; and all that Card 6 asks of
//! the numbers for a schedule file.
//!
//! It judges steps, keeps jobs, phases and service, stores results and writes them as `plain` does, in a table whose labels stay fresh. Its order comes
//! from the numbers alone.

use crate::plain::{self, read_header, read_line, write_refusal, write_result, Phase, LINE, MAX_STATIONS, REPORT_LINE};
use crate::reports::final_refusal;

pub struct Table {
    table: plain::Table,
    current: [u32; MAX_STATIONS],
    pending: [u32; MAX_STATIONS],
}

/// Of equal numbers the last station's is the newest.
fn newest(numbers: &[u32; MAX_STATIONS], n: usize) -> usize {
    (0..n).max_by_key(|&i| numbers[i]).unwrap_or(0)
}

/// The stations, from 0, oldest first, in the first n places.
fn order(numbers: &[u32; MAX_STATIONS], n: usize) -> [u8; MAX_STATIONS] {
    let mut order: [u8; MAX_STATIONS] = std::array::from_fn(|i| i as u8);
    order[..n].sort_unstable_by_key(|&i| (numbers[usize::from(i)], i));
    order
}

impl Table {
    pub fn fresh(n: usize) -> Table {
        Table { table: plain::Table::fresh(n), current: [0; MAX_STATIONS], pending: [0; MAX_STATIONS] }
    }

    /// The newest station, from 1, and its number.
    pub fn top(&self) -> (u64, u32) {
        let newest = newest(&self.current, self.table.n);
        (newest as u64 + 1, self.current[newest])
    }

    /// A step line: how many bytes of report were written, or the refusal. If it is an accepted snap for a label, it takes the next number, which must be 0
    /// for the newest, and for any other station above the top number and below 2 to the power of 32; else the error says what is wrong.
    pub fn serve(
        &mut self,
        line: u32,
        (station, code, job): (u64, u64, u64),
        numbers: &mut impl Iterator<Item = u64>,
        report: &mut [u8],
    ) -> Result<Result<usize, u64>, String> {
        let Table { table, current, pending } = self;
        let mut fits = Ok(());
        let snap = |t: &mut plain::Table, i: usize| {
            t.stations[i].phase = Phase::Update;
            let newest = newest(current, t.n);
            let top = current[newest];
            fits = match numbers.next() {
                None => Err("has no number".to_string()),
                Some(0) if i == newest => Ok(()),
                Some(number) if i == newest => Err(format!("is by the newest and has number {number}")),
                Some(number) if number <= top.into() => Err(format!("has number {number}, and the top number is {top}")),
                Some(number) => match u32::try_from(number) {
                    Ok(number) => {
                        pending[i] = number;
                        Ok(())
                    }
                    Err(_) => Err(format!("has number {number}, which is too large")),
                },
            };
        };
        let served = table.serve_by(code, station, job, |t| order(current, t.n), snap, |s| write_result(line, s, report));
        fits.map_err(|what| format!("the snap in line {line} {what}"))?;
        if served.is_ok() && code == 4 {
            let i = station as usize - 1;
            current[i] = pending[i];
        }
        Ok(served)
    }
}

/// Whether these are numbers for the accepted snaps for a label of this file, as Card 6 has them: one for each, 0 just where the station was the newest,
/// also by the labels; the table of numbers accepts and refuses what the table of labels does, and has the plain program's report; the numbers but 0 are 1,
/// 2 and so on. The file must be one that is read to its end.
pub fn check(file: &[u8], numbers: &[u32]) -> Result<(), String> {
    let mut expected = Vec::new();
    plain::run(&mut &file[..], &mut expected).map_err(|error| error.to_string())?;
    let ended_by = |number| format!("refusal {number} ends the file");
    if final_refusal(&expected) != 0 {
        return Err(ended_by(final_refusal(&expected)));
    }
    let (header, steps) = file.split_at(LINE);
    let mut labels = read_header(header).map_err(ended_by)?;
    let mut table = Table::fresh(labels.n);
    let mut report = Vec::new();
    let mut left = numbers.iter();
    for (line, bytes) in (2..).zip(steps.chunks(LINE)) {
        let (station, code, job) = read_line(bytes).map_err(ended_by)?;
        let next = left.as_slice().first();
        let mut area = [0; MAX_STATIONS * REPORT_LINE];
        let served = table.serve(line, (station, code, job), &mut left.by_ref().map(|&number| number.into()), &mut area)?;
        let mut by_newest = None;
        let snap = |t: &mut plain::Table, i| by_newest = Some(t.snap_label(i) == i);
        let by_labels = labels.serve_by(code, station, job, plain::Table::order, snap, |s| Ok(s.shown() * REPORT_LINE));
        if served != by_labels {
            return Err(format!("line {line}: {served:?} by numbers, {by_labels:?} by labels"));
        }
        if by_newest.is_some_and(|newest| newest != (next == Some(&0))) {
            return Err(format!("the snap in line {line} has number {next:?}; that it is by the newest by labels is {by_newest:?}"));
        }
        let written = served.unwrap_or_else(|number| {
            write_refusal(line, number, &mut area);
            REPORT_LINE
        });
        report.extend_from_slice(&area[..written]);
    }
    if report != expected {
        return Err("the report by numbers is not that by labels".to_string());
    }
    if !left.as_slice().is_empty() {
        return Err(format!("{} numbers are left over", left.len()));
    }
    let mut used: Vec<u32> = numbers.iter().copied().filter(|&number| number != 0).collect();
    used.sort_unstable();
    used.dedup();
    match (1..).zip(used).find(|(place, number)| place != number) {
        Some((missing, _)) => Err(format!("no number is {missing}, and one is higher")),
        None => Ok(()),
    }
}
