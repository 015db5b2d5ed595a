//! Answers lines from standard input: an operation's name and its input words. Each line is
//! answered by one line: the output words, or `error` and the reason. Blank lines are skipped.

use oracle::operations::answer;
use std::io::{BufRead, Write, stdin, stdout};
use words::{line, parse};

fn main() -> std::io::Result<()> {
    let mut output = stdout().lock();
    for request in stdin().lock().lines() {
        let request = request?;
        if !request.trim().is_empty() {
            writeln!(output, "{}", reply(&request))?;
            output.flush()?;
        }
    }
    Ok(())
}

fn reply(request: &str) -> String {
    let mut texts = request.split_whitespace();
    let operation = texts.next().unwrap_or_default();
    match parse(texts).and_then(|input| answer(operation, &input)) {
        Ok(output) => line(&output),
        Err(reason) => format!("error {reason}"),
    }
}
