//! The time that programs take.

use std::fs::{self, File};
use std::path::{Path, PathBuf};
use std::process::{Command, Stdio};
use std::time::Instant;

/// Milliseconds.
#[derive(Clone, Copy)]
pub struct Time {
    pub wall: f64,
    pub cpu: f64,
}

impl Time {
    /// Before the first run.
    pub const NONE: Time = Time { wall: f64::MAX, cpu: f64::MAX };

    pub fn least(self, other: Time) -> Time {
        Time { wall: self.wall.min(other.wall), cpu: self.cpu.min(other.cpu) }
    }
}

extern "C" {
    /// The C library's call; a `struct rusage` is 18 words on 64-bit Linux, seconds and microseconds of user and system time first.
    fn getrusage(who: i32, usage: *mut [i64; 18]) -> i32;
}

/// Milliseconds of user and system time of all children that have ended.
fn children_cpu() -> f64 {
    const RUSAGE_CHILDREN: i32 = -1;
    let mut usage = [0; 18];
    // SAFETY: the call writes one `struct rusage`, for which the array has room.
    let result = unsafe { getrusage(RUSAGE_CHILDREN, &mut usage) };
    assert_eq!(result, 0, "getrusage");
    (usage[0] + usage[2]) as f64 * 1e3 + (usage[1] + usage[3]) as f64 / 1e3
}

/// The time of a program, its start counted.
pub fn time(command: &mut Command) -> Time {
    let cpu = children_cpu();
    let start = Instant::now();
    let status = command.status();
    let wall = start.elapsed().as_secs_f64() * 1e3;
    let program = command.get_program().to_string_lossy();
    let status = status.unwrap_or_else(|error| panic!("{program}: {error}"));
    assert!(status.success(), "{program}: {status}");
    Time { wall, cpu: children_cpu() - cpu }
}

/// The time of a program with its input from a file.
pub fn run(program: &Path, input: &Path, output: Stdio) -> Time {
    time(Command::new(program).stdin(File::open(input).expect("the schedule")).stdout(output))
}

/// What a program prints, by way of a file.
pub fn report(program: &Path, input: &Path, output: &Path) -> Vec<u8> {
    run(program, input, File::create(output).expect("a report file").into());
    fs::read(output).expect("the report")
}

/// What `NAME [--runs K] [PROGRAM]` is asked for: so many runs, 100 if it is not said, of the plain program, which is built with this one, and of the program
/// in its crate's out/ or at the path that is given.
pub fn asked(name: &str, plain: &str, program: &str) -> (usize, [PathBuf; 2]) {
    let usage = || -> ! {
        eprintln!("{name} [--runs K] [{}]", program.to_uppercase());
        std::process::exit(2);
    };
    let mut runs = 100;
    let mut ours = Path::new(env!("CARGO_MANIFEST_DIR")).join(format!("../crates/{program}/out/{program}"));
    let mut arguments = std::env::args().skip(1);
    while let Some(argument) = arguments.next() {
        match argument.as_str() {
            "--runs" => runs = arguments.next().and_then(|a| a.parse().ok()).filter(|&k| k > 0).unwrap_or_else(|| usage()),
            _ if argument.starts_with('-') => usage(),
            _ => ours = PathBuf::from(argument),
        }
    }
    let programs = [std::env::current_exe().expect("this program's path").with_file_name(plain), ours];
    if let Some(missing) = programs.iter().find(|program| !program.exists()) {
        eprintln!("{} is not built", missing.display());
        std::process::exit(2);
    }
    (runs, programs)
}
