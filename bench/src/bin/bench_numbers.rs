//! bench_numbers [--runs K] [NUMBERS]: times `numbers` and the plain program for numbers on the same schedules. README.md says what it prints.

use std::fs;
use std::path::PathBuf;
use std::process::Stdio;
use ticket_bench::generate::longest;
use ticket_bench::numbers::MAX_STEPS;
use ticket_bench::timing::{asked, report, run, Time};

const SEED: u64 = 1995;

/// A schedule, the lines that are printed of it, and the best times of the plain program and of `numbers`.
struct Trial {
    what: String,
    input: PathBuf,
    printed: usize,
    best: [Time; 2],
}

fn main() {
    let (runs, programs) = asked("bench_numbers", "plain_numbers", "numbers");
    let folder = std::env::temp_dir().join(format!("ticket-bench-numbers-{}", std::process::id()));
    fs::create_dir(&folder).expect("a temporary folder");

    let mut differ = false;
    let mut trials = Vec::new();
    for (at, (what, bytes)) in longest(SEED).into_iter().enumerate() {
        let input = folder.join(format!("schedule-{at}"));
        fs::write(&input, bytes).expect("a schedule file");
        let [plain, ours] = programs.each_ref().map(|program| report(program, &input, &folder.join("printed")));
        if plain != ours {
            println!("what numbers and the plain program print differs: {what}");
            differ = true;
        }
        let printed = ours.iter().filter(|&&byte| byte == b'\n').count();
        trials.push(Trial { what, input, printed, best: [Time::NONE; 2] });
    }
    if differ {
        fs::remove_dir_all(&folder).expect("the temporary folder");
        std::process::exit(1);
    }
    // All schedules in each round, so that a busy spell of the machine does not fall on one of them alone.
    for _ in 0..runs {
        for trial in &mut trials {
            for (best, program) in trial.best.iter_mut().zip(&programs) {
                *best = best.least(run(program, &trial.input, Stdio::null()));
            }
        }
    }
    println!("{MAX_STEPS} step lines where no other number is named, minimum of {runs} alternating runs; cpu is user + system time");
    println!("                           wall ns for the file              cpu ns for the file");
    println!("schedule          printed      plain    numbers   ratio      plain    numbers   ratio");
    for Trial { what, printed, best, .. } in trials {
        let times = |[plain, numbers]: [f64; 2]| format!("{:10.0} {:10.0} {:7.2}", plain * 1e6, numbers * 1e6, numbers / plain);
        println!("{what:17} {printed:7} {} {}", times(best.map(|time| time.wall)), times(best.map(|time| time.cpu)));
    }
    fs::remove_dir_all(&folder).expect("the temporary folder");
}
