//! The expert's schedule program: standard input to standard output.

fn main() -> std::io::Result<()> {
    ticket_bench::expert::run(&mut std::io::stdin().lock(), &mut std::io::stdout().lock())
}
