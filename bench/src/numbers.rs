//! Numbers for the snaps of a schedule file in plain Rust, written from documents 01 and 02 (Card 6) and not from the Rattle code. Lines are read and
//! steps taken as `plain` does.
//!
//! More than one numbering will do; this is the one that is chosen here. A snap for a label by a station that is not the newest gets the number of another
//! station's pending label, if that is the same label. Else a number is put in right above that of the newest and those of all pending labels below the
//! new one, and every number higher up, also of the snaps before, goes up by one.

use crate::plain::{self, fill, is_below, put, read_header, read_line, refusal, shared, write_refusal, Table, LINE, MAX_STATIONS, REPORT_LINE};
use std::io::{self, Read, Write};

/// The most step lines of a schedule whose snaps are numbered.
pub const MAX_STEPS: usize = 4096;
/// Bytes of a printed number: a column of 11, and the line's end.
pub const NUMBER_LINE: usize = 12;

/// A file that is read and not yet run.
pub(crate) struct Reading {
    pub(crate) table: Table,
    /// How many lines, the header among them.
    lines: u32,
    /// Station, code and job of each step line, as long as they are not too many.
    pub(crate) steps: Vec<(u64, u64, u64)>,
    /// How many step lines have the code of a snap.
    snaps: usize,
}

impl Reading {
    fn new() -> Reading {
        Reading { table: Table::fresh(MAX_STATIONS), lines: 0, steps: Vec::new(), snaps: 0 }
    }

    /// All of a file that may be run, or its refusal.
    pub(crate) fn of(file: &[u8]) -> Result<Reading, u64> {
        let mut reading = Reading::new();
        reading.read(file)?;
        reading.ended()
    }

    /// The same from an input, part by part.
    pub(crate) fn of_input(input: &mut impl Read) -> io::Result<Result<Reading, u64>> {
        let mut schedule = vec![0; LINE * 4096];
        let mut reading = Reading::new();
        loop {
            let len = fill(input, &mut schedule)?;
            match reading.read(&schedule[..len]) {
                Ok(()) if len < schedule.len() => return Ok(reading.ended()),
                Ok(()) => {}
                Err(number) => return Ok(Err(number)),
            }
        }
    }

    /// Reads on; the refusal, if one ends the file.
    fn read(&mut self, bytes: &[u8]) -> Result<(), u64> {
        // An empty file is an incomplete line too.
        let empty = (self.lines == 0 && bytes.is_empty()).then_some(&[][..]);
        for line in bytes.chunks(LINE).chain(empty) {
            self.lines += 1;
            if self.lines == 1 {
                self.table = read_header(line)?;
                continue;
            }
            if self.lines > plain::MAX_STEPS + 1 {
                return Err(refusal::TOO_MANY);
            }
            let step = read_line(line)?;
            if self.steps.len() < MAX_STEPS {
                self.steps.push(step);
            }
            self.snaps += usize::from(step.1 == 3);
        }
        Ok(())
    }

    /// What was read is the whole file.
    fn ended(self) -> Result<Reading, u64> {
        if self.lines as usize > MAX_STEPS + 1 {
            return Err(refusal::TOO_MANY_STEPS);
        }
        Ok(self)
    }

    /// Runs the file: how many numbers were written, or the refusal.
    fn number(mut self, list: &mut [u32]) -> Result<usize, u64> {
        if list.len() < self.snaps {
            return Err(refusal::SHORT_LIST);
        }
        let mut numbers = Numbers { current: [0; MAX_STATIONS], pending: [0; MAX_STATIONS], given: list, count: 0 };
        for (station, code, job) in self.steps {
            let served = self.table.serve_by(
                code,
                station,
                job,
                // Nothing reads the result of a scan.
                |_| [0; MAX_STATIONS],
                |table, i| {
                    let newest = table.snap_label(i);
                    numbers.snap(table, i, newest);
                },
                |_| Ok(0),
            );
            if served.is_ok() && code == 4 {
                numbers.update(station as usize - 1);
            }
        }
        Ok(numbers.count)
    }
}

/// The numbers of all stations, from 0, and those given to the snaps so far.
struct Numbers<'a> {
    current: [u32; MAX_STATIONS],
    pending: [u32; MAX_STATIONS],
    given: &'a mut [u32],
    count: usize,
}

impl Numbers<'_> {
    /// Numbers a snap for a label; the station has its new pending label.
    fn snap(&mut self, table: &Table, station: usize, newest: usize) {
        let mut number = 0;
        if station != newest {
            number = self.number(table, station, newest);
            self.pending[station] = number;
        }
        self.given[self.count] = number;
        self.count += 1;
    }

    /// The number of a station's pending label, with room made for it.
    fn number(&mut self, table: &Table, station: usize, newest: usize) -> u32 {
        let digits = table.n - 1;
        let label = &table.stations[station].pending_label;
        let mut below = self.current[newest];
        for (i, other) in table.stations[..table.n].iter().enumerate().filter(|&(i, _)| i != station) {
            let same = shared(&other.pending_label, label, digits);
            if same == digits {
                return self.pending[i];
            }
            if is_below(other.pending_label[same], label[same]) {
                below = below.max(self.pending[i]);
            }
        }
        for row in [&mut self.current[..], &mut self.pending, &mut self.given[..self.count]] {
            row.iter_mut().for_each(|number| *number += u32::from(*number > below));
        }
        below + 1
    }

    fn update(&mut self, station: usize) {
        self.current[station] = self.pending[station];
    }
}

/// Writes a number for each accepted snap for a label to the front of the list: the refusal (0 if there is none) and their count.
pub fn numbers(file: &[u8], list: &mut [u32]) -> (u64, usize) {
    match Reading::of(file).and_then(|reading| reading.number(list)) {
        Ok(count) => (0, count),
        Err(number) => (number, 0),
    }
}

/// What the program prints: a line for each number, or that of the refusal.
pub fn print(refusal: u64, numbers: &[u32]) -> Vec<u8> {
    if refusal != 0 {
        let mut line = vec![0; REPORT_LINE];
        write_refusal(0, refusal, &mut line);
        return line;
    }
    let mut bytes = vec![b' '; numbers.len() * NUMBER_LINE];
    for (line, &number) in bytes.chunks_exact_mut(NUMBER_LINE).zip(numbers) {
        put(&mut line[..NUMBER_LINE - 1], number);
        line[NUMBER_LINE - 1] = b'\n';
    }
    bytes
}

/// The program.
pub fn run(input: &mut impl Read, output: &mut impl Write) -> io::Result<()> {
    let mut list = [0; MAX_STEPS];
    let printed = match Reading::of_input(input)?.and_then(|reading| reading.number(&mut list)) {
        Ok(count) => print(0, &list[..count]),
        Err(number) => print(number, &[]),
    };
    output.write_all(&printed)?;
    output.flush()
}
