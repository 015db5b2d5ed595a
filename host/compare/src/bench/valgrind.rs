//! Instructions under `valgrind --tool=callgrind`, which counts them alike on every machine and beside any other work. The program
//! that is counted says what belongs to what; the one that starts it reads the counts.

use super::timing::{Side, keep};
use std::arch::asm;
use std::collections::HashMap;
use std::ffi::CString;
use std::fs;
use std::hint::black_box;
use std::path::Path;
use std::process::{Command, Stdio};

/// What callgrind is asked to do, by the numbers of its header `callgrind.h`.
#[derive(Clone, Copy)]
enum Request {
    ZeroStats = 0x4354_0001,
    DumpStatsAt = 0x4354_0003,
    StartInstrumentation = 0x4354_0004,
    StopInstrumentation = 0x4354_0005,
}

/// Asks callgrind, where the program runs under it; else nothing happens.
fn ask(request: Request, argument: u64) {
    let words: [u64; 6] = [request as u64, argument, 0, 0, 0, 0];
    // SAFETY: the four rotations are by 128 bits together, and the exchange is of a register with itself. Valgrind knows the sequence,
    // reads the six words, and a text where one is an address, and writes nothing but the register of its answer.
    unsafe {
        asm!(
            "rol rdi, 3",
            "rol rdi, 13",
            "rol rdi, 61",
            "rol rdi, 51",
            "xchg rbx, rbx",
            in("rax") &raw const words,
            inout("rdx") 0_u64 => _,
        );
    }
}

/// Loops without an operation: what a turn takes by itself, and what each further input.
const EMPTY: &str = "empty loop";
const EMPTY_LENGTHS: [usize; 2] = [1, 257];

fn count(name: &str, mut side: Side) {
    let name = CString::new(name).expect("no name has a zero byte");
    side.go(1);
    ask(Request::StartInstrumentation, 0);
    side.go(1);
    ask(Request::ZeroStats, 0);
    side.go(1);
    ask(Request::DumpStatsAt, name.as_ptr() as u64);
    ask(Request::StopInstrumentation, 0);
}

/// Has the instructions of each side's turn counted, and says how many operations it has.
pub fn count_sides<const N: usize>(name: &str, sides: [Side; N]) -> [f64; N] {
    let operations = sides.each_ref().map(|side| side.operations() as f64);
    for (i, side) in sides.into_iter().enumerate() {
        count(&format!("{name}|{i}"), side);
    }
    operations
}

/// Has the empty loops counted.
pub fn count_empty_loops() {
    for length in EMPTY_LENGTHS {
        let inputs = vec![0.0; length];
        let turn = || inputs.iter().for_each(|input: &f64| keep(black_box(input)));
        count(&format!("{EMPTY}|{length}"), Side::of_many(length, turn));
    }
}

/// The instructions of each side of each row.
pub struct Counts(HashMap<String, f64>);

impl Counts {
    /// Runs a program under callgrind, and gives what it says and what is counted; nothing where valgrind isn't installed.
    ///
    /// # Errors
    ///
    /// The program fails, or no counts are found.
    pub fn of(program: &Path, words: &[&str]) -> Result<Option<(String, Self)>, String> {
        let folder = std::env::temp_dir().join(format!("counts-{}", std::process::id()));
        fs::create_dir_all(&folder).map_err(|error| error.to_string())?;
        let said = Command::new("valgrind")
            .args(["--tool=callgrind", "--instr-atstart=no", "--quiet"])
            .arg(format!("--callgrind-out-file={}/out", folder.display()))
            .arg(program)
            .args(words)
            .stderr(Stdio::inherit())
            .output();
        let counts = Self::read(&folder);
        fs::remove_dir_all(&folder).map_err(|error| error.to_string())?;
        match said {
            Err(_) => Ok(None),
            Ok(said) if !said.status.success() => Err("counting failed".to_owned()),
            Ok(said) => Ok(Some((String::from_utf8_lossy(&said.stdout).into_owned(), counts?))),
        }
    }

    fn read(folder: &Path) -> Result<Self, String> {
        let mut counts = HashMap::new();
        for file in fs::read_dir(folder).map_err(|error| error.to_string())? {
            let path = file.map_err(|error| error.to_string())?.path();
            let text = fs::read_to_string(path).map_err(|error| error.to_string())?;
            counts.extend(named_count(&text));
        }
        Ok(Self(counts))
    }

    fn count(&self, name: &str) -> Result<f64, String> {
        self.0.get(name).copied().ok_or(format!("{name}: no instructions were counted"))
    }

    /// The instructions of one operation of a row's side, without the loop around it.
    ///
    /// # Errors
    ///
    /// They weren't counted.
    pub fn of_operation(&self, row: &str, side: usize, operations: f64) -> Result<f64, String> {
        let [short, long] = EMPTY_LENGTHS.map(|length| self.count(&format!("{EMPTY}|{length}")));
        let (short, long) = (short?, long?);
        let input = (long - short) / (EMPTY_LENGTHS[1] - EMPTY_LENGTHS[0]) as f64;
        let around = short + input * (operations - 1.0);
        Ok((self.count(&format!("{row}|{side}"))? - around) / operations)
    }
}

/// The name and the count of a dump that was asked for by name.
fn named_count(dump: &str) -> Option<(String, f64)> {
    let after = |start: &str| dump.lines().find_map(|line| line.strip_prefix(start));
    let name = after("desc: Trigger: Client Request: ")?;
    let count = after("totals: ").or(after("summary: "))?.trim().parse().ok()?;
    Some((name.to_owned(), count))
}

#[cfg(test)]
mod tests {
    use super::*;

    #[test]
    fn a_dump_has_a_name_and_a_count() {
        let dump = "version: 1\ndesc: Trigger: Client Request: root|0\n\nevents: Ir\nsummary: 97\n";
        assert_eq!(named_count(dump), Some(("root|0".to_owned(), 97.0)));
        assert_eq!(named_count("desc: Trigger: Program termination\nsummary: 3\n"), None);
    }

    #[test]
    fn the_empty_loop_is_taken_off() {
        let of = [("empty loop|1", 20.0), ("empty loop|257", 20.0 + 256.0 * 5.0), ("f|0", 165.0)];
        let counts = Counts(of.map(|(name, count)| (name.to_owned(), count)).into());
        // Ten operations of 10 instructions, a loop of 5 for each, and 15 around it.
        assert_eq!(counts.of_operation("f", 0, 10.0), Ok(10.0));
        assert!(counts.of_operation("f", 1, 10.0).is_err());
    }
}
