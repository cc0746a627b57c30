//! Prints jobs/full.job:
//! `cargo run --release --manifest-path tests/Cargo.toml --example full_job > jobs/full.job`.

use std::io::{self, Write};

fn main() -> io::Result<()> {
    io::stdout().write_all(&rbatl_tests::full::text())
}
