//! The second program for every record: a job file on standard input, the lines of `records` on standard output.

fn main() -> std::io::Result<()> {
    second::print(second::lines)
}
