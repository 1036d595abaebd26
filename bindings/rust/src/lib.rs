//! The ticket table, the schedule program, the numbers of a schedule and the check of logs for Rust programs: a safe wrapper of the proved library
//! `libexports.a`, whose functions ask nothing of their caller.
//!
//! That the declarations here are those of the library is not proved; the assertions below hold the layout, and `tests/` runs the library.

use std::mem::{align_of, offset_of, size_of};

pub const MAX_STATIONS: usize = 32;
pub const MAX_DIGITS: usize = MAX_STATIONS - 1;
/// Bytes of a schedule line and of a report line.
pub const LINE: usize = 18;
pub const REPORT_LINE: usize = 29;
/// The most step lines of a schedule whose snaps are numbered, or of a log; a list of so many entries is long enough for any.
pub const MAX_STEPS: usize = 4096;

/// The steps of a call. A label operation is begin, snap, update, end. A scan is two: `SCAN` begins it and snaps, `END` ends it. By `LEAVE_SERVICE` an idle
/// station leaves service, by `RETURN_TO_SERVICE` it returns.
pub mod code {
    pub const BEGIN_LABEL: u64 = 1;
    pub const SCAN: u64 = 2;
    pub const SNAP: u64 = 3;
    pub const UPDATE: u64 = 4;
    pub const END: u64 = 5;
    pub const LEAVE_SERVICE: u64 = 6;
    pub const RETURN_TO_SERVICE: u64 = 7;
}

/// The number of a refusal.
pub type Refusal = u64;

pub mod refusal {
    /// Not 2 to 32 stations.
    pub const COUNT: u64 = 1;
    /// Not one of the board's stations.
    pub const STATION: u64 = 2;
    /// A begin or a leave, and the station is not idle.
    pub const BUSY: u64 = 3;
    pub const NO_SNAP_DUE: u64 = 4;
    pub const NO_UPDATE_DUE: u64 = 5;
    pub const NO_END_DUE: u64 = 6;
    /// The buffer is shorter than the report: of the end of a scan, 29 bytes for each station that it shows, or of a whole file. Or the end of a scan has
    /// fewer records than it shows stations.
    pub const SHORT_REPORT: u64 = 7;
    /// A line that is not 18 bytes, or its last one not a line's end. It ends a file.
    pub const INCOMPLETE: u64 = 8;
    /// A column that holds no number as it must. It ends a file.
    pub const COLUMN: u64 = 9;
    pub const CODE: u64 = 10;
    /// Not 1 to 4,294,967,295 to begin a label, not 0 for every other step.
    pub const JOB: u64 = 11;
    /// A line after the 1,000,000th step line. It ends a file.
    pub const TOO_MANY: u64 = 12;
    /// A board that is no well-formed table.
    pub const BOARD: u64 = 13;
    /// A begin or a leave, and the station is out of service.
    pub const OUT_OF_SERVICE: u64 = 14;
    /// A return, and the station is in service.
    pub const IN_SERVICE: u64 = 15;
    /// More than 4,096 step lines to number, or in a log.
    pub const TOO_MANY_STEPS: u64 = 16;
    /// A list for numbers with fewer entries than there are step lines with the code of a snap.
    pub const SHORT_LIST: u64 = 17;
}

/// The planes of `Board::labels` and `Board::jobs`: what a station has, and what its next update will make of it.
pub const CURRENT: usize = 0;
pub const PENDING: usize = 1;
/// The planes of `Board::control`. Phases: 0 idle, 1 due to snap (for a label), 2 due to update, 3 and 4 due to end a label and a scan. Service: 0 in
/// service, 1 out of service, which only an idle station is.
pub const PHASES: usize = 0;
pub const SERVICE: usize = 1;
/// The rows of a scan result in `Board::results`: the stations that it shows, from 1, oldest first, and their jobs, which are not 0; past these, zeros.
pub const STATIONS: usize = 0;
pub const JOBS: usize = 1;

pub type Labels = [[[u8; MAX_DIGITS]; MAX_STATIONS]; 2];
pub type Jobs = [[u32; MAX_STATIONS]; 2];
pub type Control = [[u8; MAX_STATIONS]; 2];
pub type Results = [[[u32; MAX_STATIONS]; 2]; MAX_STATIONS];

/// A table as plain numbers; place i of a plane and of the results belongs to station i + 1. Every content is a value; one that is no well-formed table
/// is refused by 13.
#[repr(C)]
#[derive(Clone, PartialEq, Eq, Debug)]
pub struct Board {
    pub count: u64,
    pub jobs: Jobs,
    pub results: Results,
    pub labels: Labels,
    pub control: Control,
}

/// A place of a scan, for callers who lend a panel of records in place of a report buffer. Places and stations count from 1.
#[repr(C)]
#[derive(Clone, Copy, PartialEq, Eq, Default, Debug)]
pub struct Record {
    pub place: u32,
    pub station: u32,
    pub job: u32,
}

/// What an exported function answers: the number of the refusal, 0 for none, and how many bytes of report or records were written.
#[repr(C)]
#[derive(Clone, Copy, PartialEq, Eq, Debug)]
pub struct Answer {
    pub refusal: Refusal,
    pub written: u64,
}

impl Answer {
    /// How much was written, or the refusal.
    pub fn written(self) -> Result<usize, Refusal> {
        match self {
            Answer { refusal: 0, written } => Ok(written as usize),
            Answer { refusal, .. } => Err(refusal),
        }
    }
}

/// What is told of a board: the number of the refusal, 0 for none, and how many stations have the newest's label.
#[repr(C)]
#[derive(Clone, Copy, PartialEq, Eq, Debug)]
pub struct Holders {
    pub refusal: Refusal,
    pub stations: u64,
}

/// What is told of a log: the number of the refusal, 0 for none, and 1 if the log is right, else 0.
#[repr(C)]
#[derive(Clone, Copy, PartialEq, Eq, Debug)]
pub struct Verdict {
    pub refusal: Refusal,
    pub right: u64,
}

/// What is told of the report of a file: 7 if it is longer than the buffer, else 0; the refusal that ended the file, 0 if it was read to its end; how many
/// bytes were written, none if refused; and how long the report is.
#[repr(C)]
#[derive(Clone, Copy, PartialEq, Eq, Debug)]
pub struct Reported {
    pub refusal: Refusal,
    pub ended: Refusal,
    pub written: u64,
    pub length: u64,
}

// No padding, so every byte is a number's; the C header has the same layout.
const _: () = {
    assert!(offset_of!(Board, jobs) == 8);
    assert!(offset_of!(Board, results) == 264);
    assert!(offset_of!(Board, labels) == 8456);
    assert!(offset_of!(Board, control) == 10_440);
    assert!(size_of::<Board>() == 10_504 && align_of::<Board>() == 8);
    assert!(size_of::<Answer>() == 16 && align_of::<Answer>() == 8);
    assert!(size_of::<Holders>() == 16 && align_of::<Holders>() == 8);
    assert!(size_of::<Verdict>() == 16 && align_of::<Verdict>() == 8);
    assert!(size_of::<Reported>() == 32 && align_of::<Reported>() == 8);
    assert!(size_of::<Record>() == 12 && align_of::<Record>() == 4);
};

extern "C" {
    fn tickets_fresh(n: u64, labels: &mut Labels, jobs: &mut Jobs, control: &mut Control, results: &mut Results) -> u64;
    fn tickets_step(
        count: u64,
        labels: &mut Labels,
        jobs: &mut Jobs,
        control: &mut Control,
        results: &mut Results,
        code: u64,
        station: u64,
        job: u64,
        report: *mut u8,
        report_len: usize,
    ) -> Answer;
    fn tickets_step_panel(
        count: u64,
        labels: &mut Labels,
        jobs: &mut Jobs,
        control: &mut Control,
        results: &mut Results,
        code: u64,
        station: u64,
        job: u64,
        panel: *mut Record,
        panel_len: usize,
    ) -> Answer;
    fn tickets_top_holders(count: u64, labels: &Labels, jobs: &Jobs, control: &Control, results: &Results) -> Holders;
    fn tickets_report(schedule: *const u8, schedule_len: usize, report: *mut u8, report_len: usize) -> Reported;
    fn tickets_numbers(schedule: *const u8, schedule_len: usize, numbers: *mut u32, numbers_len: usize) -> Answer;
    fn tickets_check_log(
        schedule: *const u8,
        schedule_len: usize,
        numbers: *const u64,
        numbers_len: usize,
        report: *const u8,
        report_len: usize,
    ) -> Verdict;
}

/// Writes the report of a whole schedule file to the front of a buffer; what stands past it stays.
///
/// A buffer that is shorter than the report of this file is refused by 7, and nothing is written. Whether it fits or not, `ended` is the refusal that ended
/// the file: 8, 9, 10, 1 or 11 of its header, 8, 9 or 12 of a step line, which the report's last line shows, or 0 if it was read to its end; and `length` is
/// what the report needs.
pub fn report_into(schedule: &[u8], report: &mut [u8]) -> Reported {
    // SAFETY: the function is declared as the library exports it; it takes any bytes, and writes at most `report.len()` to the buffer, which does not
    // overlap the schedule.
    unsafe { tickets_report(schedule.as_ptr(), schedule.len(), report.as_mut_ptr(), report.len()) }
}

/// Bytes that are enough for the report of any schedule file of that length.
pub const fn report_room(schedule_len: usize) -> usize {
    (schedule_len / LINE + 1) * MAX_STATIONS * REPORT_LINE
}

/// The report of a whole schedule file, and the refusal that ended the file, 0 for none.
///
/// The memory that it takes is that of the report; room for any report is asked for, and not touched.
pub fn report(schedule: &[u8]) -> (Vec<u8>, Refusal) {
    let mut report = vec![0; report_room(schedule.len())];
    let answer = report_into(schedule, &mut report);
    assert_eq!(answer.refusal, 0, "there is room for every report");
    report.truncate(answer.written as usize);
    (report, answer.ended)
}

/// Numbers the snaps of a whole schedule file: for each accepted snap for a label, in their order, writes a number to the front of the list; what stands
/// past them stays. `written` is their count.
///
/// A number is 0 where the station was the newest already, else the pending number that this snap sets in the unbounded table. That table, taken
/// through the file with these numbers, gives all its scans; and the numbers other than 0 are 1, 2 and so on, equal ones allowed.
///
/// Refused, before any step is run, is a file that a refusal ends, by the first that does: 8, 9, 10, 1 or 11 of its header, 8, 9 or 12 of a step line;
/// then one of more than 4,096 step lines, by 16; then a list with fewer entries than the file has step lines with the code of a snap, refused ones too,
/// by 17. A refusal writes nothing.
pub fn numbers(schedule: &[u8], list: &mut [u32]) -> Answer {
    // SAFETY: the function is declared as the library exports it; it takes any bytes, and writes at most `list.len()` numbers to the list, which does not
    // overlap the schedule.
    unsafe { tickets_numbers(schedule.as_ptr(), schedule.len(), list.as_mut_ptr(), list.len()) }
}

/// Whether a log is right: a schedule file, the numbers of its snaps and the report of its scans; or the refusal.
///
/// It is right just if the unbounded table, taken through the file with these numbers, finds one for each snap for a label that it accepts and none left
/// over, 0 where it has the station as the newest already, else above its top number and at most 4,294,967,295; and if the report is its scans, byte for
/// byte, with the file's line numbers. Refused steps have neither a number nor a line. Any numbers that will do are right, those of `numbers` among them.
///
/// Refused is a file that a refusal ends, by the first that does, as by `numbers`; then one of more than 4,096 step lines, by 16.
pub fn check_log(schedule: &[u8], numbers: &[u64], report: &[u8]) -> Result<bool, Refusal> {
    match verdict(schedule, numbers, report) {
        Verdict { refusal: 0, right } => Ok(right != 0),
        Verdict { refusal, .. } => Err(refusal),
    }
}

/// `check_log` with the answer as it stands.
pub fn verdict(schedule: &[u8], numbers: &[u64], report: &[u8]) -> Verdict {
    // SAFETY: the function is declared as the library exports it; it takes any bytes and any numbers, and writes nothing.
    unsafe { tickets_check_log(schedule.as_ptr(), schedule.len(), numbers.as_ptr(), numbers.len(), report.as_ptr(), report.len()) }
}

impl Board {
    /// The fresh table of n stations, 2 to 32. All are in service, none has a job, and their scan results are empty.
    pub fn fresh(n: u64) -> Result<Board, Refusal> {
        let mut board = Board {
            count: 0,
            jobs: [[0; MAX_STATIONS]; 2],
            results: [[[0; MAX_STATIONS]; 2]; MAX_STATIONS],
            labels: [[[0; MAX_DIGITS]; MAX_STATIONS]; 2],
            control: [[0; MAX_STATIONS]; 2],
        };
        match board.freshen(n) {
            0 => Ok(board),
            refusal => Err(refusal),
        }
    }

    /// Makes this the fresh table of n stations, whatever it holds. Another n than 2 to 32 is refused by 1 and changes nothing.
    pub fn freshen(&mut self, n: u64) -> Refusal {
        // SAFETY: the function is declared as the library exports it; it takes any number and any content of the arrays.
        let refusal = unsafe { tickets_fresh(n, &mut self.labels, &mut self.jobs, &mut self.control, &mut self.results) };
        if refusal == 0 {
            self.count = n;
        }
        refusal
    }

    /// A step of a station: how many bytes of report were written to the front of the buffer, or the refusal. A refused call changes nothing.
    ///
    /// A scan shows the stations that are in service at its begin and have a job then. Its end writes a line of 29 bytes for each of them, oldest first;
    /// where there are none, it needs no room. No other step writes any.
    pub fn step(&mut self, code: u64, station: u64, job: u64, report: &mut [u8]) -> Result<usize, Refusal> {
        self.answer(code, station, job, report).written()
    }

    /// The same step with a panel: how many records were written to its front, or the refusal. A refused call changes nothing.
    ///
    /// The end of a scan writes a record for each station that it shows, oldest first, and leaves those past them; no other step writes any.
    pub fn step_panel(&mut self, code: u64, station: u64, job: u64, panel: &mut [Record]) -> Result<usize, Refusal> {
        self.answer_panel(code, station, job, panel).written()
    }

    /// An idle station leaves service. Until it returns no scan that begins shows it, but others take their labels with regard to its own.
    pub fn leave_service(&mut self, station: u64) -> Result<(), Refusal> {
        self.step(code::LEAVE_SERVICE, station, 0, &mut []).map(drop)
    }

    /// A station that is out of service returns.
    pub fn return_to_service(&mut self, station: u64) -> Result<(), Refusal> {
        self.step(code::RETURN_TO_SERVICE, station, 0, &mut []).map(drop)
    }

    /// How many stations have the newest's label, itself among them and those out of service too: 1 to n, or the refusal, 13. It is no step, and changes
    /// nothing. Stations that snap before any of them updates can come to share it; those of a fresh table all do.
    pub fn top_holders(&self) -> Result<usize, Refusal> {
        match self.told() {
            Holders { refusal: 0, stations } => Ok(stations as usize),
            Holders { refusal, .. } => Err(refusal),
        }
    }

    /// `top_holders` with the answer as it stands.
    pub fn told(&self) -> Holders {
        // SAFETY: the function is declared as the library exports it; it takes any number and any content of the arrays, and writes nothing.
        unsafe { tickets_top_holders(self.count, &self.labels, &self.jobs, &self.control, &self.results) }
    }

    /// `step` with the answer as it stands.
    pub fn answer(&mut self, code: u64, station: u64, job: u64, report: &mut [u8]) -> Answer {
        // SAFETY: the function is declared as the library exports it; it takes any numbers and any content of the arrays and of the buffer, which are
        // lent for the call and do not overlap. It writes at most `report.len()` bytes to the buffer.
        unsafe {
            tickets_step(
                self.count,
                &mut self.labels,
                &mut self.jobs,
                &mut self.control,
                &mut self.results,
                code,
                station,
                job,
                report.as_mut_ptr(),
                report.len(),
            )
        }
    }

    /// `step_panel` with the answer as it stands.
    pub fn answer_panel(&mut self, code: u64, station: u64, job: u64, panel: &mut [Record]) -> Answer {
        // SAFETY: as above. The library takes the panel as rows of three numbers, which is the layout of a record, and writes at most `panel.len()` of them.
        unsafe {
            tickets_step_panel(
                self.count,
                &mut self.labels,
                &mut self.jobs,
                &mut self.control,
                &mut self.results,
                code,
                station,
                job,
                panel.as_mut_ptr(),
                panel.len(),
            )
        }
    }
}
