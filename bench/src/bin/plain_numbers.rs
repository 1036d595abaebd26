//! The numbers of a schedule, in plain Rust: standard input to standard output.

fn main() -> std::io::Result<()> {
    ticket_bench::numbers::run(&mut std::io::stdin().lock(), &mut std::io::stdout().lock())
}
