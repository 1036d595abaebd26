//! Runs both sides, compares, and counts the refusal numbers that came up.

use crate::boards;
use crate::calls::{noise, Call, Lent, Session};
use crate::draw::{source, Step};
use crate::files::{file, logged, numbered};
use crate::logs::{log, numbers_file, Log};
use std::fmt::Debug;
use std::fs::{self, File};
use std::io;
use std::process::{Command, Stdio};
use ticket_bench::generate::{crowded, schedule, stalled, Ending, Random};
use ticket_bench::plain::{self, refusal, Record, Table, LINE, MAX_STEPS};
use ticket_bench::reports::{self, final_refusal};
use ticket_bench::{logs, numbers, unbounded};
use tickets::{Answer, Board, Holders, Reported, Verdict};

/// How often each refusal number was the plain program's answer, 0 for a call or a report line that is not refused.
pub struct Counts {
    seen: [u64; 18],
    /// The numbers that can occur.
    owed: &'static [u64],
}

impl Counts {
    fn new(owed: &'static [u64]) -> Counts {
        Counts { seen: [0; 18], owed }
    }

    fn add(&mut self, number: u64) {
        self.seen[number as usize] += 1;
    }

    pub fn total(&self) -> u64 {
        self.seen.iter().sum()
    }

    /// Prints the counts; fails if a number that can occur did not.
    pub fn show(&self, of: &str) -> Result<(), String> {
        let counts: Vec<String> = self.owed.iter().map(|&number| format!("{number}: {}", self.seen[number as usize])).collect();
        println!("{of}, by refusal number: {}", counts.join(", "));
        match self.owed.iter().find(|&&number| self.seen[number as usize] == 0) {
            Some(number) => Err(format!("{of}: refusal {number} was not reached")),
            None => Ok(()),
        }
    }
}

/// Bytes, records or numbers behind a lent area that are not lent.
const BEHIND: usize = 64;

/// The library's report in a buffer of that length. The library's answer is counted.
fn check_buffer(schedule: &[u8], expected: &[u8], len: usize, fill: u8, counts: &mut Counts) -> Result<(), String> {
    let mut area = vec![fill; len + BEHIND];
    let fits = len >= expected.len();
    let report = if fits { expected } else { &[] };
    let refusal = if fits { 0 } else { refusal::SHORT_REPORT };
    let ended = final_refusal(expected);
    let expected_answer = Reported { refusal, ended, written: report.len() as u64, length: expected.len() as u64 };
    let answer = tickets::report_into(schedule, &mut area[..len]);
    counts.add(if fits { ended } else { refusal });
    let (front, rest) = area.split_at(report.len());
    same("answer", &answer, &expected_answer)
        .and_then(|()| same_bytes("report", front, report))
        .and_then(|()| same("whether the bytes past the report are kept", &rest.iter().all(|&b| b == fill), &true))
        .map_err(|what| format!("in a buffer of {len} bytes {fill}: {what}"))
}

/// The library's report in buffers just as long as the report, longer, much longer, shorter by a byte, much shorter, and empty.
fn check_library(schedule: &[u8], expected: &[u8], mut random: Random, counts: &mut Counts) -> Result<(), String> {
    let exact = expected.len();
    let longer = 1 + random.below(64) as usize;
    let much_longer = if random.one_in(16) { 1_000_000 } else { random.below(5000) as usize };
    let mut lens = vec![exact, exact + longer, exact + much_longer];
    if exact > 0 {
        lens.extend([exact - 1, random.below(exact as u64) as usize, 0]);
    }
    lens.into_iter().try_for_each(|len| check_buffer(schedule, expected, len, random.word() as u8, counts))
}

/// What the program prints. The schedule goes through a file, so neither side waits for the other.
fn check_program(program: &str, schedule: &[u8], expected: &[u8]) -> Result<(), String> {
    let printed = || -> io::Result<Vec<u8>> {
        let path = std::env::temp_dir().join(format!("ticket-differential-{}", std::process::id()));
        fs::write(&path, schedule)?;
        let output = Command::new(program).stdin(File::open(&path)?).stderr(Stdio::inherit()).output()?;
        fs::remove_file(&path)?;
        output.status.success().then_some(output.stdout).ok_or_else(|| io::Error::other(output.status.to_string()))
    };
    let printed = printed().map_err(|error| format!("{program}: {error}"))?;
    same_bytes("what is printed", &printed, expected)
}

/// Both sides of a comparison, if they differ.
fn same<T: PartialEq + Debug>(what: &str, library: &T, plain: &T) -> Result<(), String> {
    if library == plain {
        Ok(())
    } else {
        Err(format!("{what} differs\nlibrary: {library:?}\nplain:   {plain:?}"))
    }
}

/// Where two rows of bytes first differ, and both from there on.
fn same_bytes(what: &str, library: &[u8], plain: &[u8]) -> Result<(), String> {
    if library == plain {
        return Ok(());
    }
    let at = library.iter().zip(plain).take_while(|(a, b)| a == b).count();
    let rest = |bytes: &[u8]| format!("{} of {} bytes: {}", bytes.len() - at, bytes.len(), bytes[at..bytes.len().min(at + 20_000)].escape_ascii());
    Err(format!("{what} differs from byte {at} on\nlibrary: {}\nplain:   {}", rest(library), rest(plain)))
}

/// Where two lists of numbers first differ, and what stands there and next to it.
fn same_list(library: &[u32], plain: &[u32]) -> Result<(), String> {
    let at = library.iter().zip(plain).take_while(|(a, b)| a == b).count();
    let some = |list: &[u32]| list[at..].iter().copied().take(20).collect::<Vec<u32>>();
    same(&format!("list from place {at} on"), &some(library), &some(plain))
}

/// A file by both sides. The lines of its report are counted.
fn check_file(program: Option<&str>, schedule: &[u8], random: Random, lines: &mut Counts, answers: &mut Counts) -> Result<(), String> {
    let mut expected = Vec::new();
    plain::run(&mut &schedule[..], &mut expected).map_err(|error| error.to_string())?;
    expected.as_chunks().0.iter().for_each(|line| lines.add(reports::numbers(line).1));
    match program {
        None => check_library(schedule, &expected, random, answers),
        Some(program) => check_program(program, schedule, &expected),
    }
}

/// Files with all 1,000,000 step lines, and nothing, a line, an incomplete line or a line with a malformed column after them.
pub const FULL: [Ending; 4] = [Ending::Plain, Ending::OneMore, Ending::Incomplete, Ending::Column];

/// The full files, and so many others. What was counted: the lines of their reports, and the library's answers, of which the program has none.
pub fn files(seed: u64, files: u64, program: Option<&str>) -> Result<Vec<(&'static str, Counts)>, String> {
    let mut lines = Counts::new(&[0, 1, 2, 3, 4, 5, 6, 8, 9, 10, 11, 12, 14, 15]);
    let mut answers = Counts::new(&[0, 1, 7, 8, 9, 10, 11, 12]);
    for (n, ending) in (2..).zip(FULL) {
        let bytes = schedule(n, MAX_STEPS.into(), seed, ending);
        check_file(program, &bytes, source(seed, 5, n), &mut lines, &mut answers)
            .map_err(|what| format!("seed {seed}, full file of {n} stations, ending {ending:?}: {what}"))?;
    }
    for index in 0..files {
        let bytes = file(seed, index);
        check_file(program, &bytes, source(seed, 3, index), &mut lines, &mut answers)
            .map_err(|what| format!("seed {seed}, file {index}, {} bytes:\n{}\n{what}", bytes.len(), bytes.escape_ascii()))?;
    }
    let mut counts = vec![("report lines of files", lines)];
    if program.is_none() {
        counts.push(("answers for files", answers));
    }
    Ok(counts)
}

/// Numbers by both sides in a list of that length: the answer, and the list with what stands behind it. The numbers are handed back, if there are any.
fn check_list(schedule: &[u8], len: usize, old: u64, counts: &mut Counts) -> Result<Option<Vec<u32>>, String> {
    let mut random = Random(old);
    let mut list: Vec<u32> = (0..len + BEHIND).map(|_| random.word() as u32 >> random.below(32)).collect();
    let mut plain_list = list.clone();
    let (number, count) = numbers::numbers(schedule, &mut plain_list[..len]);
    counts.add(number);
    let answer = tickets::numbers(schedule, &mut list[..len]);
    same("answer", &answer, &Answer { refusal: number, written: count as u64 })
        .and_then(|()| same_list(&list, &plain_list))
        .map_err(|what| format!("in a list of {len} with old contents {old}: {what}"))?;
    list.truncate(count);
    Ok((number == 0).then_some(list))
}

/// The library's numbers in lists just as long as they must be, longer, as long as any must be, shorter by one, much shorter, and empty.
fn check_lists(schedule: &[u8], mut random: Random, counts: &mut Counts) -> Result<Option<Vec<u32>>, String> {
    let exact = schedule.chunks_exact(LINE).skip(1).filter(|line| &line[3..6] == b"  3").count();
    let mut lens = vec![exact + 1 + random.below(64) as usize, exact.max(numbers::MAX_STEPS)];
    if exact > 0 {
        lens.extend([exact - 1, random.below(exact as u64) as usize, 0]);
    }
    lens.into_iter().try_for_each(|len| check_list(schedule, len, random.word(), counts).map(drop))?;
    check_list(schedule, exact, random.word(), counts)
}

/// A file by both sides. Its numbers, if it has any, must be what Card 6 asks for, whichever numbering that is; the highest is handed back.
fn check_numbers(program: Option<&str>, schedule: &[u8], random: Random, counts: &mut Counts) -> Result<u32, String> {
    let found = match program {
        None => check_lists(schedule, random, counts)?,
        Some(program) => {
            let mut list = [0; numbers::MAX_STEPS];
            let (number, count) = numbers::numbers(schedule, &mut list);
            counts.add(number);
            check_program(program, schedule, &numbers::print(number, &list[..count]))?;
            (number == 0).then(|| list[..count].to_vec())
        }
    };
    let found = found.as_deref().map_or(Ok(&[][..]), |found| unbounded::check(schedule, found).map(|()| found));
    Ok(found?.iter().copied().max().unwrap_or(0))
}

/// Files at the limits of what is numbered: what they are, and their step lines.
pub const LIMITS: [(Kind, u64); 10] = [
    (Kind::Mixed(Ending::Plain), 4095),
    (Kind::Mixed(Ending::Plain), 4096),
    (Kind::Mixed(Ending::OneMore), 4096),
    (Kind::Mixed(Ending::Column), 4096),
    (Kind::Stalled, 4096),
    (Kind::Stalled, 4097),
    (Kind::Crowded, 4096),
    (Kind::Crowded, 4097),
    (Kind::Mixed(Ending::Plain), MAX_STEPS as u64),
    (Kind::Mixed(Ending::OneMore), MAX_STEPS as u64),
];

#[derive(Clone, Copy, Debug)]
pub enum Kind {
    Mixed(Ending),
    Stalled,
    Crowded,
}

/// A file at the limits, and its number of stations.
fn at_limit(seed: u64, index: u64, kind: Kind, lines: u64) -> (u64, Vec<u8>) {
    let n = 2 + (seed + 7 * index) % 31;
    let bytes = match kind {
        Kind::Mixed(ending) => schedule(n, lines, seed, ending),
        Kind::Stalled => stalled(n, lines, seed),
        Kind::Crowded => crowded(n, lines, seed),
    };
    (n, bytes)
}

/// The files at the limits, and so many others. What was counted, by the plain program's answers, and the highest number.
pub fn numbers(seed: u64, files: u64, program: Option<&str>) -> Result<(Counts, u32), String> {
    let mut counts = Counts::new(if program.is_none() { &[0, 1, 8, 9, 10, 11, 12, 16, 17] } else { &[0, 1, 8, 9, 10, 11, 12, 16] });
    let mut most = 0;
    for (index, (kind, lines)) in (0..).zip(LIMITS) {
        let (n, bytes) = at_limit(seed, index, kind, lines);
        let highest = check_numbers(program, &bytes, source(seed, 7, index), &mut counts)
            .map_err(|what| format!("seed {seed}, numbers of a file of {n} stations and {lines} lines, {kind:?}: {what}"))?;
        most = most.max(highest);
    }
    for index in 0..files {
        let bytes = numbered(seed, index);
        let highest = check_numbers(program, &bytes, source(seed, 8, index), &mut counts)
            .map_err(|what| format!("seed {seed}, numbered file {index}, {} bytes:\n{}\n{what}", bytes.len(), bytes.escape_ascii()))?;
        most = most.max(highest);
    }
    Ok((counts, most))
}

/// What was answered of logs: by refusal number, and how many are right and how many wrong.
pub struct LogCounts {
    pub refusals: Counts,
    pub right: u64,
    pub wrong: u64,
}

impl LogCounts {
    fn add(&mut self, answer: Result<bool, u64>) {
        self.refusals.add(answer.err().unwrap_or(0));
        self.right += u64::from(answer == Ok(true));
        self.wrong += u64::from(answer == Ok(false));
    }

    /// Prints the counts; fails if an answer that can be given was not.
    pub fn show(&self) -> Result<(), String> {
        self.refusals.show("logs")?;
        println!("logs that are right: {}, wrong: {}", self.right, self.wrong);
        if self.right == 0 || self.wrong == 0 {
            return Err("logs: only one of right and wrong was reached".to_string());
        }
        Ok(())
    }
}

/// A log by both sides: the answer, and that the log stays as it is.
fn check_library_log(log: &Log, counts: &mut LogCounts) -> Result<(), String> {
    let Log { schedule, numbers, report } = log.clone();
    let expected = logs::check(&schedule, &numbers, &report);
    counts.add(expected);
    let answer = tickets::verdict(&log.schedule, &log.numbers, &log.report);
    same("answer", &answer, &Verdict { refusal: expected.err().unwrap_or(0), right: u64::from(expected == Ok(true)) })
        .and_then(|()| same_bytes("schedule after the call", &log.schedule, &schedule))
        .and_then(|()| same("numbers after the call", &log.numbers, &numbers))
        .and_then(|()| same_bytes("report after the call", &log.report, &report))
}

/// What the program prints of a log in three files.
fn check_log_program(program: &str, log: &Log, mut random: Random, counts: &mut LogCounts) -> Result<(), String> {
    let numbers = numbers_file(&mut random, &log.numbers);
    let expected = logs::check_file(&log.schedule, &numbers, &log.report);
    counts.add(expected);
    let printed = || -> io::Result<Vec<u8>> {
        let paths =
            ["schedule", "numbers", "report"].map(|part| std::env::temp_dir().join(format!("ticket-differential-{}-{part}", std::process::id())));
        paths.iter().zip([&log.schedule, &numbers, &log.report]).try_for_each(|(path, bytes)| fs::write(path, bytes))?;
        let output = Command::new(program).args(&paths).stderr(Stdio::inherit()).output()?;
        paths.iter().try_for_each(fs::remove_file)?;
        output.status.success().then_some(output.stdout).ok_or_else(|| io::Error::other(output.status.to_string()))
    };
    let printed = printed().map_err(|error| format!("{program}: {error}"))?;
    same_bytes("what is printed", &printed, &logs::print(expected)).map_err(|what| format!("numbers {}\n{what}", numbers.escape_ascii()))
}

/// Logs of the files at the limits, and so many others.
pub fn logs(seed: u64, logs: u64, program: Option<&str>) -> Result<LogCounts, String> {
    let mut counts = LogCounts { refusals: Counts::new(&[0, 1, 8, 9, 10, 11, 12, 16]), right: 0, wrong: 0 };
    let mut check = |log: &Log, random: Random| match program {
        None => check_library_log(log, &mut counts),
        Some(program) => check_log_program(program, log, random, &mut counts),
    };
    for (index, (kind, lines)) in (0..).zip(LIMITS) {
        let (n, bytes) = at_limit(seed, index, kind, lines);
        check(&log(seed, index, bytes), source(seed, 11, index))
            .map_err(|what| format!("seed {seed}, log of a file of {n} stations and {lines} lines, {kind:?}: {what}"))?;
    }
    for index in (LIMITS.len() as u64..).take(logs as usize) {
        let log = log(seed, index, logged(seed, index));
        check(&log, source(seed, 11, index)).map_err(|what| {
            let Log { schedule, numbers, report } = &log;
            format!("seed {seed}, log {index}:\n{}\n{numbers:?}\n{}\n{what}", schedule.escape_ascii(), report.escape_ascii())
        })?;
    }
    Ok(counts)
}

/// What a panel holds before a call: numbers of any length.
fn old_records(seed: u64, len: usize) -> Vec<Record> {
    let mut random = Random(seed);
    let mut number = || random.word() as u32 >> random.below(32);
    (0..len).map(|_| Record { place: number(), station: number(), job: number() }).collect()
}

/// The library's call with a panel: its records are the plain program's, in the library's layout.
fn answer_panel(board: &mut Board, step: Step, panel: &mut [Record], len: usize) -> Answer {
    let mut records: Vec<tickets::Record> = panel.iter().map(|&Record { place, station, job }| tickets::Record { place, station, job }).collect();
    let answer = board.answer_panel(step.code, step.station, step.job, &mut records[..len]);
    for (to, tickets::Record { place, station, job }) in panel.iter_mut().zip(records) {
        *to = Record { place, station, job };
    }
    answer
}

/// How many stations have the newest's label, asked of both sides: the answer, and the board.
fn check_question(board: &Board, counts: &mut Counts) -> Result<(), String> {
    let before = board.clone();
    let (refusal, stations) = boards::table(&before).map_or((refusal::ILL_FORMED, 0), |table| plain::top_holders(&table));
    counts.add(refusal);
    same("answer", &board.told(), &Holders { refusal, stations: stations as u64 })
        .and_then(|()| same("board", board, &before))
        .map_err(|what| format!("tickets_top_holders on {before:?}\n{what}"))
}

/// One call on the board by both sides: the answer, what is lent with what stands behind it, and the board.
fn check_call(board: &mut Board, call: &Call, counts: &mut CallCounts) -> Result<(), String> {
    let before = board.clone();
    let Call { step, lent, old } = call;
    let Step { code, station, job } = *step;
    // A phase or a service number without a meaning, or a station in a result past 255, has no plain table; it is refused by 13 with nothing changed.
    let mut table = boards::table(&before);
    let (answer, expected, lent_as_expected, counts) = match *lent {
        Lent::Report(room) => {
            let mut area = vec![*old as u8; room + BEHIND];
            let mut plain_area = area.clone();
            let expected = table.as_mut().map(|table| plain::step(table, code, station, job, &mut plain_area[..room]));
            let answer = board.answer(code, station, job, &mut area[..room]);
            (answer, expected, same_bytes("report area", &area, &plain_area), &mut counts.report)
        }
        Lent::Panel(room) => {
            let mut panel = old_records(*old, room + BEHIND);
            let mut plain_panel = panel.clone();
            let expected = table.as_mut().map(|table| plain::step_panel(table, code, station, job, &mut plain_panel[..room]));
            let answer = answer_panel(board, *step, &mut panel, room);
            (answer, expected, same("panel", &panel, &plain_panel), &mut counts.panel)
        }
    };
    let (number, written) = expected.unwrap_or((refusal::ILL_FORMED, 0));
    counts.add(number);
    same("answer", &answer, &Answer { refusal: number, written: written as u64 })
        .and(lent_as_expected)
        .and_then(|()| same("board", board, &table.as_ref().map_or(before.clone(), boards::board)))
        .map_err(|what| format!("{step:?}, {lent:?} with old contents {old} on {before:?}\n{what}"))
}

/// A fresh table written over any board by both sides.
fn check_fresh(board: &mut Board, n: u64, counts: &mut Counts) -> Result<(), String> {
    let (expected, expected_board) = match n {
        2..=32 => (0, boards::board(&Table::fresh(n as usize))),
        _ => (refusal::COUNT, board.clone()),
    };
    counts.add(expected);
    let answer = board.freshen(n);
    same("answer", &answer, &expected).and_then(|()| same("board", board, &expected_board)).map_err(|what| format!("tickets_fresh({n}): {what}"))
}

/// The calls on the board with this index.
fn check_board(seed: u64, index: u64, counts: &mut CallCounts) -> Result<(), String> {
    let mut session = Session::new(seed, index);
    if session.fresh {
        let other = session.other_count();
        check_fresh(&mut session.board, other, &mut counts.report)?;
        session.board = noise(&mut source(seed, 4, index));
        check_fresh(&mut session.board, session.n, &mut counts.report)?;
    }
    for _ in 0..session.calls {
        if let Some(mut damaged) = session.damaged() {
            let call = session.call();
            check_question(&damaged, &mut counts.questions)?;
            check_call(&mut damaged, &call, counts)?;
        }
        let call = session.call();
        check_question(&session.board, &mut counts.questions)?;
        check_call(&mut session.board, &call, counts)?;
    }
    Ok(())
}

/// Calls with a report area or with none, calls with a panel, and a question before each.
pub struct CallCounts {
    pub report: Counts,
    pub panel: Counts,
    pub questions: Counts,
}

/// Boards one after another, until there were so many calls.
pub fn calls(seed: u64, calls: u64) -> Result<CallCounts, String> {
    let report = Counts::new(&[0, 1, 2, 3, 4, 5, 6, 7, 10, 11, 13, 14, 15]);
    let panel = Counts::new(&[0, 2, 3, 4, 5, 6, 7, 10, 11, 13, 14, 15]);
    let mut counts = CallCounts { report, panel, questions: Counts::new(&[0, 13]) };
    let mut index = 0;
    while counts.report.total() + counts.panel.total() < calls {
        check_board(seed, index, &mut counts).map_err(|what| format!("seed {seed}, board {index}: {what}"))?;
        index += 1;
    }
    Ok(counts)
}
