//! The journal's lines on both sides: what is written, and what is read from good and from damaged bytes.

use crate::calls::differ;
use crate::record_words::{of_entry, of_line};
use book::{Book, Camera, Entry, Outcome, Reading, Scored, Seed};
use jinnychair::journal::{Line, read_line, write_line};
use jinnychair::record::{FlatLine, Run, last_line};
use jinnychair::{FxFyCxCy, Seed as LibrarySeed};
use random::Random;

/// What was compared.
#[derive(Clone, Copy, Debug, Default)]
pub struct LineTally {
    /// Lines that were written, and that weren't: 28.
    pub written: [usize; 2],
    /// Readings that gave a line, the end, and 29.
    pub read: [usize; 3],
}

/// What stands behind a line in a buffer.
const UNTOUCHED: u8 = 0xa5;

/// The bytes that the library writes to a buffer of this length; nothing for 28. The rest of the buffer must stay.
fn written(line: &Line, room: usize) -> Result<Option<Vec<u8>>, String> {
    let mut buffer = vec![UNTOUCHED; room];
    let reply = write_line(line, &mut buffer);
    let len = reply.unwrap_or(0);
    if buffer[len..].iter().any(|byte| *byte != UNTOUCHED) {
        return Err(format!("{line:?} is written beyond its {len} bytes"));
    }
    buffer.truncate(len);
    Ok(reply.is_ok().then_some(buffer))
}

/// Adds the last answer's line to a journal.
///
/// # Errors
///
/// The two sides have different lines, or write them differently.
pub fn add(run: &Run, book: &Book, journal: &mut Vec<u8>) -> Result<(), String> {
    let entry = book.entries().last().ok_or("no entry for an answer")?;
    let line = last_line(run).ok_or("no line for an answer")?;
    differ("the last line", of_line(&line.into()), of_entry(entry))?;
    let bytes = written(&line, 256)?;
    differ("the last line's bytes", bytes.as_ref(), book::write_line(entry, 256).ok().as_ref())?;
    journal.extend(bytes.ok_or("a run's line isn't written")?);
    Ok(())
}

/// Reads what stands at a place on both sides, and gives the place behind it.
fn read(journal: &[u8], at: usize, tally: &mut LineTally) -> Result<Option<usize>, String> {
    let library = match read_line(journal, at) {
        Ok(Some((line, next))) => [vec![0], of_line(&line.into()), vec![next as u64]].concat(),
        Ok(None) => vec![1],
        Err(error) => vec![2, error.refusal.number().into(), error.line as u64],
    };
    let (book, next) = match book::read_line(journal, at) {
        Reading::Line(entry, next) => {
            ([vec![0], of_entry(&entry), vec![next as u64]].concat(), Some(next))
        }
        Reading::End => (vec![1], None),
        Reading::Refused(line) => (vec![2, 29, line as u64], None),
    };
    tally.read[library[0] as usize] += 1;
    differ(&format!("the line at {at}"), library, book)?;
    Ok(next)
}

/// Reads a journal to its end, and then with each of a few damages.
///
/// # Errors
///
/// Says where the two sides differ.
pub fn reread(journal: &[u8], random: &mut Random, tally: &mut LineTally) -> Result<(), String> {
    read_all(journal, tally)?;
    for _ in 0..4 {
        let damaged = damaged(journal, random);
        read_all(&damaged, tally)
            .map_err(|fault| format!("{fault}, in\n{}", String::from_utf8_lossy(&damaged)))?;
        // Anywhere in it, and behind its end.
        read(&damaged, random.below(damaged.len() + 3), tally)?;
    }
    Ok(())
}

fn read_all(journal: &[u8], tally: &mut LineTally) -> Result<(), String> {
    let mut at = 0;
    while let Some(next) = read(journal, at, tally)? {
        at = next;
    }
    Ok(())
}

/// Texts that stand in a line, and others that don't belong in their place.
const EXCHANGED: &[(&str, &str)] = &[
    ("\n", ""),
    ("\n", "\r\n"),
    ("\n", "\n\n"),
    ("\n", ",\n"),
    (",", " ,"),
    (",", ""),
    (",", ",,"),
    (",0,", ",00,"),
    (",0,", ",17,"),
    (",1,", ",+1,"),
    (",S,", ",H,"),
    (",H,", ",S,"),
    (",E,", ",N,"),
    (",N,", ",-,"),
    (",-", ",--"),
    ("a", "A"),
    ("4", "g"),
    ("S,3", "S,7ff8000000000000,3"),
    ("S,4", "S,f"),
    ("7ff8000000000000", "7ff8000000000001"),
    ("7ff8000000000000", "fff8000000000000"),
    ("1", "656"),
];

/// A journal with one or two damages.
#[must_use]
pub fn damaged(journal: &[u8], random: &mut Random) -> Vec<u8> {
    let mut bytes = journal.to_vec();
    for _ in 0..1 + random.below(2) {
        damage(&mut bytes, random);
    }
    bytes
}

fn damage(bytes: &mut Vec<u8>, random: &mut Random) {
    let place = random.below(bytes.len() + 1);
    let byte = random.pick(b"0123456789abcdefSHCEN-,\n\r +x\x00\xff");
    match random.below(6) {
        0 if place < bytes.len() => bytes[place] = byte,
        1 if place < bytes.len() => {
            bytes.remove(place);
        }
        2 => bytes.truncate(place),
        3 => {
            // A line again, or out of its order.
            let line: Vec<u8> =
                bytes.split_inclusive(|b| *b == b'\n').nth(random.below(9)).unwrap_or(b"").to_vec();
            bytes.extend(line);
        }
        4 => {
            let (from, to) = random.pick(EXCHANGED);
            let found = bytes[place..].windows(from.len()).position(|part| part == from.as_bytes());
            if let Some(found) = found {
                let at = place + found;
                bytes.splice(at..at + from.len(), to.bytes());
            }
        }
        _ => bytes.insert(place, byte),
    }
}

/// A line with any numbers whatsoever.
#[must_use]
pub fn draw(random: &mut Random) -> Entry {
    let odd =
        [f64::NAN, -f64::NAN, f64::INFINITY, 0.0, -0.0, 0.5, f64::from_bits(0x7ff0_0000_0000_0001)];
    let mut real =
        || if random.once_in(3) { random.pick(&odd) } else { f64::from_bits(random.bits()) };
    let seed = Seed { k: [real(), real(), real(), real()], tilts: [real(), real()] };
    let camera = Camera {
        k: [real(), real(), real(), real()],
        radial: [0.0; 3],
        tangential: [real(), real()],
    };
    let scored = Scored { camera, mean: real(), score: real() };
    let reason = random.below(5) as u8;
    let outcome = if reason == 0 { Outcome::Scored(scored) } else { Outcome::Skipped(reason) };
    let number = random.pick(&[0, 1, 9, 10, 42, 99, 100, 101, 655, 655, 656, usize::MAX]);
    let round = random.pick(&[0, 0, 1, 2, 9, 10, 11, 16, 16, 17, 1 << 32]);
    Entry { number, round, seed, outcome }
}

fn for_library(entry: &Entry) -> Line {
    let Entry { number, round, seed, .. } = *entry;
    let (skipped, scored) = match entry.outcome {
        Outcome::Skipped(reason) => (reason, None),
        Outcome::Scored(scored) => (0, Some(scored)),
    };
    let measures = scored.map_or([0.0; 8], |scored| {
        let ([fx, fy, cx, cy], [p1, p2]) = (scored.camera.k, scored.camera.tangential);
        [scored.score, scored.mean, fx, fy, cx, cy, p1, p2]
    });
    let [score, mean, fx, fy, cx, cy, p1, p2] = measures;
    let (seed, k) = (LibrarySeed::from_numbers(seed.numbers()), FxFyCxCy { fx, fy, cx, cy });
    FlatLine { number, round, seed, skipped, score, mean, k, p1, p2 }.into()
}

/// Writes a drawn line on both sides, to buffers of different lengths, and reads it again.
///
/// # Errors
///
/// Says where the two sides differ.
pub fn write_and_read(random: &mut Random, tally: &mut LineTally) -> Result<(), String> {
    let entry = draw(random);
    let room = random.pick(&[0, 255, 256, 256, 256, 256, 256, 256, 300]);
    let library = written(&for_library(&entry), room)?;
    let book = book::write_line(&entry, room).ok();
    tally.written[usize::from(library.is_none())] += 1;
    differ(&format!("{entry:?} in {room} bytes"), &library, &book)?;
    reread(&library.unwrap_or_default(), random, tally)
}
