//! The plain schedule program: standard input to standard output.

fn main() -> std::io::Result<()> {
    ticket_bench::plain::run(&mut std::io::stdin().lock(), &mut std::io::stdout().lock())
}
