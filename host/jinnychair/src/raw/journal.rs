//! The journal's functions.

use super::laid_out;
use crate::record::{Counts, FlatLine, LastLine, Run};
use std::mem::{offset_of, size_of};

#[derive(Clone, Copy, Debug, PartialEq)]
#[repr(C)]
pub struct WriteReply {
    pub number: u8,
    pub len: usize,
}

#[derive(Clone, Copy, Debug, PartialEq)]
#[repr(C)]
pub(crate) struct ReadReply {
    pub number: u8,
    pub end: u8,
    pub line_number: usize,
    pub line: FlatLine,
    pub next: usize,
}

laid_out! {
    WriteReply: 16 { number: 0, len: 8 }
    ReadReply: 160 { number: 0, end: 1, line_number: 8, line: 16, next: 152 }
}

unsafe extern "C" {
    pub(crate) safe fn jc_last_line(run: Run) -> LastLine;
    fn jc_write_line(line: FlatLine, to: *mut u8, to_len: usize) -> WriteReply;
    fn jc_write_report(counts: Counts, to: *mut u8, to_len: usize) -> WriteReply;
    fn jc_read_line(bytes: *const u8, bytes_len: usize, at: usize) -> ReadReply;
}

pub fn write_line(line: FlatLine, to: &mut [u8]) -> WriteReply {
    // SAFETY: the slice is valid for its length.
    unsafe { jc_write_line(line, to.as_mut_ptr(), to.len()) }
}

pub(crate) fn write_report(counts: Counts, to: &mut [u8]) -> WriteReply {
    // SAFETY: the slice is valid for its length.
    unsafe { jc_write_report(counts, to.as_mut_ptr(), to.len()) }
}

pub(crate) fn read_line(bytes: &[u8], at: usize) -> ReadReply {
    // SAFETY: the slice is valid for its length.
    unsafe { jc_read_line(bytes.as_ptr(), bytes.len(), at) }
}

#[cfg(test)]
mod tests {
    use super::super::tests::Count;
    use super::*;

    unsafe extern "C" {
        safe fn jc_echo_write_flat(x: WriteReply) -> WriteReply;
        safe fn jc_echo_read_flat(x: ReadReply) -> ReadReply;
    }

    #[test]
    fn replies_come_back_as_they_were() {
        let n = &mut Count(0);
        let x = WriteReply { number: n.byte(), len: n.whole() };
        assert_eq!(jc_echo_write_flat(x), x);
        let (number, end, line_number) = (n.byte(), n.byte(), n.whole());
        let x = ReadReply { number, end, line_number, line: n.line(), next: n.whole() };
        assert_eq!(jc_echo_read_flat(x), x);
    }

    /// The crate's own lines have no such reason; only a line of numbers can bring it.
    #[test]
    fn a_reason_beyond_four_is_refused() {
        let mut line = Count(0).line();
        (line.number, line.round) = (655, 16);
        let mut to = [7; 256];
        for skipped in 0..=u8::MAX {
            line.skipped = skipped;
            let reply = write_line(line, &mut to);
            if skipped > 4 {
                assert_eq!((reply, to), (WriteReply { number: 28, len: 0 }, [7; 256]));
            } else {
                assert_eq!((reply.number, to[reply.len - 1]), (0, b'\n'));
                assert!(to[reply.len..].iter().all(|byte| *byte == 7));
            }
            to = [7; 256];
        }
    }
}
