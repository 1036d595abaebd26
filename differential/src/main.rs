//! The static library against the plain programs, byte for byte. README.md says what is covered.

mod boards;
mod calls;
mod draw;
mod files;
mod logs;
mod run;

use std::process::ExitCode;

const USAGE: &str = "ticket-differential [--files N] [--calls N] [--numbers N] [--logs N] [--seed S] [--program TICKETS] \
    [--numbers-program NUMBERS] [--logs-program CHECK_LOG]";

struct Budget {
    files: u64,
    calls: u64,
    numbers: u64,
    logs: u64,
    seed: u64,
    /// Run on the files in the library's place, on those whose snaps are numbered, and on logs.
    program: Option<String>,
    numbers_program: Option<String>,
    logs_program: Option<String>,
}

fn budget() -> Result<Budget, String> {
    let mut budget =
        Budget { files: 2000, calls: 20_000, numbers: 2000, logs: 4000, seed: 1, program: None, numbers_program: None, logs_program: None };
    let mut arguments = std::env::args().skip(1);
    while let Some(name) = arguments.next() {
        let to = match name.as_str() {
            "--files" => &mut budget.files,
            "--calls" => &mut budget.calls,
            "--numbers" => &mut budget.numbers,
            "--logs" => &mut budget.logs,
            "--seed" => &mut budget.seed,
            "--program" => {
                budget.program = Some(arguments.next().ok_or(USAGE)?);
                continue;
            }
            "--numbers-program" => {
                budget.numbers_program = Some(arguments.next().ok_or(USAGE)?);
                continue;
            }
            "--logs-program" => {
                budget.logs_program = Some(arguments.next().ok_or(USAGE)?);
                continue;
            }
            _ => return Err(USAGE.into()),
        };
        *to = arguments.next().and_then(|number| number.parse().ok()).ok_or(USAGE)?;
    }
    Ok(budget)
}

fn all() -> Result<String, String> {
    let Budget { mut files, mut calls, mut numbers, mut logs, seed, program, numbers_program, logs_program } = budget()?;
    let mut questions = 0;
    if files > 0 {
        for (of, counts) in run::files(seed, files, program.as_deref())? {
            counts.show(of)?;
        }
        files += run::FULL.len() as u64;
    }
    if calls > 0 {
        let counts = run::calls(seed, calls)?;
        calls = counts.report.total() + counts.panel.total();
        questions = counts.questions.total();
        counts.report.show("direct calls")?;
        counts.panel.show("direct calls with a panel")?;
        counts.questions.show("questions")?;
    }
    if numbers > 0 {
        let (counts, most) = run::numbers(seed, numbers, numbers_program.as_deref())?;
        counts.show(if numbers_program.is_some() { "numbered files" } else { "answers for numbered files" })?;
        println!("numbers up to {most}");
        numbers += run::LIMITS.len() as u64;
    }
    if logs > 0 {
        run::logs(seed, logs, logs_program.as_deref())?.show()?;
        logs += run::LIMITS.len() as u64;
    }
    Ok(format!("files {files}, calls {calls}, questions {questions}, numbered files {numbers}, logs {logs}: all agree"))
}

fn main() -> ExitCode {
    match all() {
        Ok(line) => {
            println!("{line}");
            ExitCode::SUCCESS
        }
        Err(message) => {
            eprintln!("{message}");
            ExitCode::FAILURE
        }
    }
}
