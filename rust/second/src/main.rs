//! The second program: a job file on standard input, the one line of `judge` on standard output.

fn main() -> std::io::Result<()> {
    second::print(second::line)
}
