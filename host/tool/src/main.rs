//! The program: hands its words to the sub-commands, and ends with their exit code.

use std::process::ExitCode;

fn main() -> ExitCode {
    tool::commands::run(std::env::args_os().skip(1).collect())
}
