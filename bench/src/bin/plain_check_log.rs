//! plain_check_log SCHEDULE NUMBERS REPORT: whether a log is right, in plain Rust, on standard output.

use std::ffi::OsString;
use std::path::Path;
use std::process::ExitCode;

fn main() -> ExitCode {
    let paths: Vec<OsString> = std::env::args_os().skip(1).collect();
    let ran = match &paths[..] {
        [schedule, numbers, report] => ticket_bench::logs::run([schedule, numbers, report].map(Path::new), &mut std::io::stdout().lock()),
        _ => Err(std::io::Error::other("three paths are needed: SCHEDULE NUMBERS REPORT")),
    };
    match ran {
        Ok(()) => ExitCode::SUCCESS,
        Err(error) => {
            eprintln!("plain_check_log: {error}");
            ExitCode::FAILURE
        }
    }
}
