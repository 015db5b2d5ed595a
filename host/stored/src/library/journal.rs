//! The journal: lines that are written, read, and read after damage; and the report. A line in a case is number, round, the seed's
//! six numbers, skipped (0 for S, else the reason) and the eight numbers of a scored one, zeros for a skipped one.

use super::fields::{byte, intrinsics};
use super::{Answer, Fault};
use beside::record_words::of_line;
use jinnychair::journal::{self, read_line as read_at};
use jinnychair::raw::journal::{WriteReply, write_line as write_flat};
use jinnychair::record::FlatLine;
use jinnychair::{Counts, Seed};
use words::Reader;

/// What a lent buffer holds before the call.
const FRESH: u8 = b'#';

/// No case lends a longer buffer.
const MOST_ROOM: usize = 512;

fn line(r: &mut Reader) -> Result<FlatLine, String> {
    let (number, round) = (r.count()?, r.count()?);
    let (seed, skipped) = (Seed::from_numbers(r.floats()?), byte(r)?);
    let [score, mean] = r.floats()?;
    let k = intrinsics(r)?;
    let [p1, p2] = r.floats()?;
    Ok(FlatLine { number, round, seed, skipped, score, mean, k, p1, p2 })
}

/// The number of a refusal, 0 for none, and the length and bytes of what is written; the rest of the buffer must stay.
fn written(room: usize, write: impl Fn(&mut [u8]) -> Result<usize, u8>) -> Answer {
    if room > MOST_ROOM {
        return Err(Fault::Malformed(format!("a buffer of {room} bytes")));
    }
    let mut buffer = vec![FRESH; room];
    let reply = write(&mut buffer);
    let (text, behind) = buffer
        .split_at_checked(reply.unwrap_or(0))
        .ok_or_else(|| Fault::Wrong(format!("{reply:?} in {room} bytes")))?;
    if behind.iter().any(|byte| *byte != FRESH) {
        return Err(Fault::Wrong(format!("{reply:?}, and more of the buffer is changed")));
    }
    Ok(match reply {
        Err(number) => vec![number.into()],
        Ok(len) => [0, len as u64].into_iter().chain(text.iter().map(|b| u64::from(*b))).collect(),
    })
}

/// line, n(buffer) = 0, n(length), bytes; or 28
pub(super) fn write_line(r: &mut Reader) -> Answer {
    let line = line(r)?;
    written(r.count()?, |to| {
        let WriteReply { number, len } = write_flat(line, to);
        if number == 0 { Ok(len) } else { Err(number) }
    })
}

/// five counts, scored first, then those of reasons 1 to 4, n(buffer) = 0, n(length), bytes; or 28
pub(super) fn write_report(r: &mut Reader) -> Answer {
    let (scored, host_failed, bad_camera) = (r.count()?, r.count()?, r.count()?);
    let (no_mean, no_number) = (r.count()?, r.count()?);
    let counts = Counts { scored, host_failed, bad_camera, no_mean, no_number };
    written(r.count()?, |to| journal::write_report(&counts, to).map_err(|e| e.number()))
}

/// n(place), n(bytes), bytes = 0, line, n(next place); or 1 for the end; or 29, n(line's number)
pub(super) fn read_line(r: &mut Reader) -> Answer {
    let (place, len) = (r.count()?, r.count()?);
    let bytes = (0..len).map(|_| byte(r)).collect::<Result<Vec<u8>, String>>()?;
    Ok(match read_at(&bytes, place) {
        Ok(Some((line, next))) => [vec![0], of_line(&line.into()), vec![next as u64]].concat(),
        Ok(None) => vec![1],
        Err(error) => vec![error.refusal.number().into(), error.line as u64],
    })
}

/// A line's bytes with the one at a place damaged: 0 another in its place, 1 nothing, 2 the same twice, 3 another before it.
fn damaged(line: &[u8], place: usize, how: u64, byte: u8) -> Vec<u8> {
    let instead: &[u8] = match how {
        0 => &[byte],
        1 => &[],
        2 => &[line[place]; 2],
        _ => &[byte, line[place]],
    };
    [&line[..place], instead, &line[place + 1..]].concat()
}

/// Whether the line that begins at `start` of a journal is still read: it must be written back as it was read. One that isn't must
/// be 29 with its number, after this many others.
fn is_read(journal: &[u8], start: usize, before: usize) -> Result<bool, Fault> {
    match read_at(journal, start) {
        Ok(Some((line, next))) => {
            let mut buffer = [FRESH; 256];
            let len = journal::write_line(&line, &mut buffer).unwrap_or(0);
            if len > 0 && journal.get(start..next) == Some(&buffer[..len]) {
                return Ok(true);
            }
            Err(Fault::Wrong(format!("{line:?} is read, and isn't what stands there")))
        }
        Err(error) if error.refusal.number() == 29 && error.line == before + 1 => Ok(false),
        other => Err(Fault::Wrong(format!("behind {before} lines there is {other:?}"))),
    }
}

/// line, n(lines before), n(how), n(byte) = eight words of 32 places each, the first place the lowest bit: where it is still a line
pub(super) fn damaged_line(r: &mut Reader) -> Answer {
    let (line, before, how, byte) = (line(r)?, r.count()?, r.number()?, byte(r)?);
    let mut buffer = [FRESH; 256];
    let WriteReply { number, len } = write_flat(line, &mut buffer);
    if number != 0 || before > 8 || how > 3 {
        return Err(Fault::Malformed("no line, too many of them, or no damage".into()));
    }
    let text = &buffer[..len];
    let good = text.repeat(before);
    let mut words = [0; 8];
    for place in 0..len {
        let journal = [&good[..], &damaged(text, place, how, byte)].concat();
        let is_read = is_read(&journal, good.len(), before)
            .map_err(|fault| Fault::Wrong(format!("place {place}: {fault}")))?;
        words[place / 32] |= u64::from(is_read) << (place % 32);
    }
    Ok(words.to_vec())
}

#[cfg(test)]
mod tests {
    use super::{Fault, is_read, written};

    #[test]
    fn buffers_are_looked_at() {
        let two = |to: &mut [u8]| {
            to[..2].copy_from_slice(b"ab");
            Ok(2)
        };
        assert_eq!(written(4, two), Ok(vec![0, 2, 97, 98]));
        assert_eq!(written(4, |_| Err(28)), Ok(vec![28]));
        type Write = fn(&mut [u8]) -> Result<usize, u8>;
        let wrong: [Write; 3] = [
            |to| {
                to[3] = 0;
                Ok(2)
            },
            |to| {
                to[0] = 0;
                Err(28)
            },
            |_| Ok(5),
        ];
        for write in wrong {
            assert!(matches!(written(4, write), Err(Fault::Wrong(_))));
        }
        assert!(matches!(written(513, |_| Ok(0)), Err(Fault::Malformed(_))));
    }

    #[test]
    fn a_refusal_has_its_lines_number() {
        assert_eq!(is_read(b"no line\n", 0, 0), Ok(false));
        assert!(is_read(b"no line\n", 0, 1).is_err());
        assert!(is_read(b"", 0, 0).is_err());
    }
}
