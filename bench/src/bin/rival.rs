//! The rival of the program `evening`: answers the evening's text on standard input (`bench::evening`).

use std::io;

fn main() -> io::Result<()> {
    bench::evening::evening(io::stdin().lock(), io::stdout().lock())
}
