//! The command line `vizhuthamen`: deals, segments and records in files.
mod cli;

use std::process::ExitCode;

fn main() -> ExitCode {
    cli::run(std::env::args_os().skip(1).collect())
}
