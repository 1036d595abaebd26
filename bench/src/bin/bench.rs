//! bench [--runs K] [--lines K] [TICKETS]: times `tickets`, the plain program and the expert's on the same schedules. README.md says what it prints.

use std::fs;
use std::path::{Path, PathBuf};
use std::process::Stdio;
use ticket_bench::generate::{schedule, Ending};
use ticket_bench::timing::{report, run, Time};

const COUNTS: [u64; 5] = [2, 4, 8, 16, 32];
const SEED: u64 = 1995;

fn usage() -> ! {
    eprintln!("bench [--runs K] [--lines K] [TICKETS]");
    std::process::exit(2);
}

/// A schedule, the size of its report, and the best times of the plain program, of the expert's and of `tickets`.
struct Trial {
    n: u64,
    input: PathBuf,
    report: usize,
    best: [Time; 3],
}

/// The three times in milliseconds, and the last of them over the others.
fn times([plain, expert, tickets]: [f64; 3]) -> String {
    format!("{plain:7.1} {expert:7.1} {tickets:7.1} {:7.2} {:7.2}", tickets / plain, tickets / expert)
}

fn main() {
    let mut runs = 7;
    let mut lines = 1_000_000;
    let mut tickets = Path::new(env!("CARGO_MANIFEST_DIR")).join("../crates/tickets/out/tickets");
    let mut arguments = std::env::args().skip(1);
    while let Some(argument) = arguments.next() {
        let mut number = || arguments.next().and_then(|a| a.parse().ok()).filter(|&k| k > 0).unwrap_or_else(|| usage());
        match argument.as_str() {
            "--runs" => runs = number(),
            "--lines" => lines = number(),
            _ if argument.starts_with('-') => usage(),
            _ => tickets = PathBuf::from(argument),
        }
    }
    let built = std::env::current_exe().expect("this program's path");
    let programs = [built.with_file_name("plain"), built.with_file_name("expert"), tickets];
    if let Some(missing) = programs.iter().find(|program| !program.exists()) {
        eprintln!("{} is not built", missing.display());
        std::process::exit(2);
    }
    let folder = std::env::temp_dir().join(format!("ticket-bench-{}", std::process::id()));
    fs::create_dir(&folder).expect("a temporary folder");

    let mut differ = false;
    let mut trials = Vec::new();
    for n in COUNTS {
        let input = folder.join(format!("schedule-{n}"));
        fs::write(&input, schedule(n, lines, SEED, Ending::Plain)).expect("a schedule file");
        let [plain, expert, ours] = programs.each_ref().map(|program| report(program, &input, &folder.join("report")));
        for (other, name) in [(plain, "the plain program"), (expert, "the expert's program")] {
            if other != ours {
                println!("the reports of tickets and of {name} differ for n = {n}");
                differ = true;
            }
        }
        trials.push(Trial { n, input, report: ours.len(), best: [Time::NONE; 3] });
    }
    if differ {
        fs::remove_dir_all(&folder).expect("the temporary folder");
        std::process::exit(1);
    }
    // All schedules in each round, so that a busy spell of the machine does not fall on one of them alone.
    for _ in 0..runs {
        for trial in &mut trials {
            for (best, program) in trial.best.iter_mut().zip(&programs) {
                *best = best.least(run(program, &trial.input, Stdio::null()));
            }
        }
    }
    println!("{lines} step lines, report to /dev/null, minimum of {runs} alternating runs; cpu is user + system time");
    println!("               wall ms                  tickets over    cpu ms                   tickets over    wall ns per line");
    println!(" n  report MB    plain  expert tickets   plain  expert    plain  expert tickets   plain  expert    plain  expert tickets");
    for Trial { n, report, best, .. } in trials {
        let megabytes = report as f64 / 1e6;
        let [p, e, t] = best.map(|time| time.wall * 1e6 / lines as f64);
        println!("{n:2} {megabytes:10.1}  {}  {}  {p:7.0} {e:7.0} {t:7.0}", times(best.map(|time| time.wall)), times(best.map(|time| time.cpu)));
    }
    fs::remove_dir_all(&folder).expect("the temporary folder");
}
