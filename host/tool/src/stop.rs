//! When a search is stopped between two tilts: after some minutes, by Ctrl-C, or by Enter on a terminal. The end of the input stops
//! nothing.

use crate::system;
use std::fs::{self, File, OpenOptions};
use std::io::{self, IsTerminal, Read};
use std::os::unix::fs::OpenOptionsExt;
use std::time::Instant;

/// Linux: a read that finds nothing comes back at once, and the terminal doesn't become the program's own.
const NO_WAITING: i32 = 0o4000 | 0o400;

/// How often keys that were typed before are read away; more don't come from a hand.
const MOST_READS: usize = 64;

/// Says when to stop.
pub struct Stopper {
    started: Instant,
    minutes: Option<f64>,
    keyboard: Option<Keyboard>,
}

impl Stopper {
    /// A search begins, with at most this many minutes.
    #[must_use]
    pub fn new(minutes: Option<f64>) -> Self {
        system::note_interrupt();
        Self { started: Instant::now(), minutes, keyboard: Keyboard::open() }
    }

    /// Whether Enter stops the search.
    #[must_use]
    pub fn hears_enter(&self) -> bool {
        self.keyboard.is_some()
    }

    /// Why the search should be stopped now, if it should.
    pub fn asks(&mut self) -> Option<String> {
        let minutes = self.started.elapsed().as_secs_f64() / 60.0;
        if let Some(most) = self.minutes.filter(|most| minutes >= *most) {
            return Some(format!("the time limit of {most} min"));
        }
        if system::was_interrupted() {
            return Some("Ctrl-C".into());
        }
        let is_pressed = self.keyboard.as_mut().is_some_and(Keyboard::was_enter_pressed);
        is_pressed.then(|| "Enter".into())
    }
}

/// The terminal that the program was started on.
struct Keyboard(File);

impl Keyboard {
    /// Nothing unless the program reads from a terminal and shows its progress on one. What was typed before is forgotten.
    fn open() -> Option<Self> {
        if !io::stdin().is_terminal() || !io::stderr().is_terminal() {
            return None;
        }
        // Opened anew: that nothing is waited for concerns this file alone, and not the terminal of other programs.
        let file =
            OpenOptions::new().read(true).custom_flags(NO_WAITING).open("/proc/self/fd/0").ok()?;
        let mut keyboard = Self(file);
        let mut reads = 0..MOST_READS;
        while reads.next().is_some() && !keyboard.typed().is_empty() {}
        Some(keyboard)
    }

    fn was_enter_pressed(&mut self) -> bool {
        self.typed().iter().any(|byte| b"\r\n".contains(byte))
    }

    /// What was typed since the last time. A program in the background must not read: it would be halted.
    fn typed(&mut self) -> Vec<u8> {
        let mut bytes = vec![0; 1024];
        let count = if is_in_foreground() { self.0.read(&mut bytes).unwrap_or(0) } else { 0 };
        bytes.truncate(count);
        bytes
    }
}

/// Whether the terminal's keys are meant for this program.
fn is_in_foreground() -> bool {
    let status = fs::read_to_string("/proc/self/stat").unwrap_or_default();
    is_foreground(&status)
}

/// Linux's status of a process: after its name in parentheses come its state, its parent, its group, its session, its
/// terminal, and the terminal's foreground group.
fn is_foreground(status: &str) -> bool {
    let fields = status.rsplit_once(')').map_or("", |(_, fields)| fields);
    let fields: Vec<&str> = fields.split_whitespace().collect();
    fields.len() > 5 && fields[2] == fields[5]
}

#[cfg(test)]
mod tests {
    use super::*;

    #[test]
    fn a_time_limit_stops_and_none_does_not() {
        assert!(Stopper::new(Some(1e-12)).asks().unwrap().contains("of 0.000000000001 min"));
        assert_eq!(Stopper::new(Some(1e300)).asks(), None);
        assert_eq!(Stopper::new(None).asks(), None);
    }

    #[test]
    fn the_foreground_is_told_by_the_groups() {
        assert!(is_foreground("12 (jinny) chair) R 7 12 7 34816 12 4194304 90"));
        assert!(!is_foreground("12 (jinnychair) R 7 12 7 34816 7 4194304 90"));
        assert!(!is_foreground("12 (jinnychair) R 7 12 7 0 -1 4194304 90"));
        assert!(!is_foreground(""));
    }
}
