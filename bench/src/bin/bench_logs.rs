//! bench_logs [--runs K] [CHECK_LOG]: times `check_log` and the plain program for logs on the same logs. README.md says what it prints.

use std::fs;
use std::path::PathBuf;
use std::process::{Command, Stdio};
use ticket_bench::generate::{longest, scans};
use ticket_bench::numbers::{numbers, print, MAX_STEPS};
use ticket_bench::plain;
use ticket_bench::reports;
use ticket_bench::timing::{asked, time, Time};

const SEED: u64 = 1995;

/// A log in its three files, the bytes of its report, what is answered, and the best times of the plain program and of `check_log`.
struct Trial {
    what: String,
    paths: [PathBuf; 3],
    report: usize,
    answer: String,
    best: [Time; 2],
}

fn schedules() -> Vec<(String, Vec<u8>)> {
    let mut schedules = longest(SEED);
    schedules.push(("scans, n = 32".to_string(), scans(32, MAX_STEPS as u64, SEED)));
    schedules
}

/// The right numbers and the report of a schedule, as their files have them, unless it is refused.
fn log(schedule: &[u8]) -> Option<(Vec<u8>, Vec<u8>)> {
    let mut list = [0; MAX_STEPS];
    let (refusal, count) = numbers(schedule, &mut list);
    if refusal != 0 {
        return None;
    }
    let mut report = Vec::new();
    plain::run(&mut &schedule[..], &mut report).expect("a report in memory");
    Some((print(0, &list[..count]), reports::scans(&report)))
}

fn main() {
    let (runs, programs) = asked("bench_logs", "plain_check_log", "check_log");
    let folder = std::env::temp_dir().join(format!("ticket-bench-logs-{}", std::process::id()));
    fs::create_dir(&folder).expect("a temporary folder");

    let mut differ = false;
    let mut trials = Vec::new();
    for (at, (what, schedule)) in schedules().into_iter().enumerate() {
        let paths = ["schedule", "numbers", "report"].map(|part| folder.join(format!("{part}-{at}")));
        let right = log(&schedule);
        let expects_yes = right.is_some();
        let (numbers, report) = right.unwrap_or_default();
        for (path, bytes) in paths.iter().zip([&schedule, &numbers, &report]) {
            fs::write(path, bytes).expect("a file of a log");
        }
        let [plain, ours] = programs.each_ref().map(|program| Command::new(program).args(&paths).output().expect("what is printed").stdout);
        if plain != ours || (ours == b"yes\n") != expects_yes {
            println!("what check_log and the plain program print differs, or is wrong: {what}");
            differ = true;
        }
        let answer = String::from_utf8_lossy(if ours.len() == 29 { &ours[8..11] } else { &ours }).trim().to_string();
        trials.push(Trial { what, paths, report: report.len(), answer, best: [Time::NONE; 2] });
    }
    if differ {
        fs::remove_dir_all(&folder).expect("the temporary folder");
        std::process::exit(1);
    }
    // All logs in each round, so that a busy spell of the machine does not fall on one of them alone.
    for _ in 0..runs {
        for trial in &mut trials {
            for (best, program) in trial.best.iter_mut().zip(&programs) {
                *best = best.least(time(Command::new(program).args(&trial.paths).stdout(Stdio::null())));
            }
        }
    }
    println!("{MAX_STEPS} step lines where no other number is named, minimum of {runs} alternating runs; cpu is user + system time");
    println!("                                  wall ns for the log               cpu ns for the log");
    println!("log                report answer      plain  check_log   ratio      plain  check_log   ratio");
    for Trial { what, report, answer, best, .. } in trials {
        let times = |[plain, ours]: [f64; 2]| format!("{:10.0} {:10.0} {:7.2}", plain * 1e6, ours * 1e6, ours / plain);
        println!("{what:17} {report:7} {answer:>6} {} {}", times(best.map(|time| time.wall)), times(best.map(|time| time.cpu)));
    }
    fs::remove_dir_all(&folder).expect("the temporary folder");
}
