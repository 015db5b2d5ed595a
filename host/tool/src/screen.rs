//! What is shown: a screen that can't be written to is remembered, and stops nothing.

use crate::output::Output;
use crate::typed::escaped;
use std::io::{self, Write};

/// Where lines for people go: standard output, or beside it where a result goes there.
#[derive(Debug, Default)]
pub struct Screen {
    fault: Option<io::Error>,
    to: To,
    has_given: bool,
}

#[derive(Clone, Copy, Debug, Default, PartialEq, Eq)]
enum To {
    #[default]
    Stdout,
    Stderr,
    Nobody,
}

impl Screen {
    /// A screen that shows nothing: for programs around this crate.
    #[must_use]
    pub fn silent() -> Self {
        Self { to: To::Nobody, ..Self::default() }
    }

    /// Leaves standard output to a result, if one of these goes there.
    pub fn leave_to<'a>(&mut self, outputs: impl IntoIterator<Item = &'a Output>) {
        if outputs.into_iter().any(Output::is_stdout) {
            self.leave();
        }
    }

    /// Leaves standard output to a result for programs.
    pub fn leave(&mut self) {
        if self.to == To::Stdout {
            self.to = To::Stderr;
        }
    }

    /// Writes a line of a result for programs to standard output, whatever is left to it.
    pub fn give(&mut self, line: &str) {
        self.has_given = true;
        if self.fault.is_none() {
            let mut out = io::stdout().lock();
            let written = writeln!(out, "{line}").and_then(|()| out.flush());
            self.fault = written.err();
        }
    }

    /// Whether such a line was written.
    #[must_use]
    pub fn has_given(&self) -> bool {
        self.has_given
    }

    /// Shows a line.
    pub fn say(&mut self, line: impl AsRef<str>) {
        let line = format!("{}\n", escaped(line.as_ref()));
        match self.to {
            To::Stderr => aside(&line),
            To::Stdout if self.fault.is_none() => {
                let mut out = io::stdout().lock();
                self.fault = out.write_all(line.as_bytes()).and_then(|()| out.flush()).err();
            }
            To::Stdout | To::Nobody => {}
        }
    }

    /// Why not everything was shown. The reader of a pipe may have read enough.
    #[must_use]
    pub fn fault(&self) -> Option<String> {
        let fault = self.fault.as_ref().filter(|error| error.kind() != io::ErrorKind::BrokenPipe);
        fault.map(|error| {
            format!(
                "standard output: not everything could be shown: {error}. Files are written all the same; show \
                 the text on a screen, or send it to a file on a disk with room"
            )
        })
    }
}

/// Shows a line or a part of one beside the result; if it can't be shown, nobody reads it.
pub fn aside(text: &str) {
    let _ = io::stderr().write_all(text.as_bytes()).and_then(|()| io::stderr().flush());
}
