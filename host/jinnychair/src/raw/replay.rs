//! The functions that walk a journal.

use super::{laid_out, with_inputs};
use crate::record::{Inputs, Options, Run};
use crate::{FxFyCxCy, Pt2, Seed};
use std::mem::{offset_of, size_of};

#[derive(Clone, Copy, Debug, PartialEq)]
#[repr(C)]
pub(crate) struct ReplayReply {
    pub number: u8,
    pub is_over: u8,
    pub line_number: usize,
    pub candidate: usize,
    pub score: f64,
    pub next: Seed,
}

#[derive(Clone, Copy, Debug, PartialEq)]
#[repr(C)]
pub(crate) struct ResumeReply {
    pub number: u8,
    pub ended_by: u8,
    pub lines: usize,
    pub kept: usize,
    pub dropped: usize,
    pub run: Run,
}

laid_out! {
    ReplayReply: 80 { number: 0, is_over: 1, line_number: 8, candidate: 16, score: 24, next: 32 }
    ResumeReply: 624 { number: 0, ended_by: 1, lines: 8, kept: 16, dropped: 24, run: 32 }
}

unsafe extern "C" {
    fn jc_replay(
        views: usize,
        options: Options,
        tilt_x_seeds: *const f64,
        tilt_x_seeds_len: usize,
        tilt_y_seeds: *const f64,
        tilt_y_seeds_len: usize,
        decomposition: *const f64,
        decomposition_len: usize,
        base: FxFyCxCy,
        center: Pt2,
        bytes: *const u8,
        bytes_len: usize,
        list: *mut f64,
        list_len: usize,
    ) -> ReplayReply;
    fn jc_resume(
        views: usize,
        options: Options,
        tilt_x_seeds: *const f64,
        tilt_x_seeds_len: usize,
        tilt_y_seeds: *const f64,
        tilt_y_seeds_len: usize,
        decomposition: *const f64,
        decomposition_len: usize,
        base: FxFyCxCy,
        center: Pt2,
        bytes: *const u8,
        bytes_len: usize,
        list: *mut f64,
        list_len: usize,
    ) -> ResumeReply;
}

pub(crate) fn replay(inputs: &Inputs, journal: &[u8], list: &mut [f64]) -> ReplayReply {
    let (bytes, len) = (journal.as_ptr(), journal.len());
    // SAFETY: all five slices are valid for their lengths, and `list` overlaps nothing.
    unsafe { with_inputs!(jc_replay(inputs, bytes, len, list.as_mut_ptr(), list.len())) }
}

pub(crate) fn resume(inputs: &Inputs, journal: &[u8], list: &mut [f64]) -> ResumeReply {
    let (bytes, len) = (journal.as_ptr(), journal.len());
    // SAFETY: all five slices are valid for their lengths, and `list` overlaps nothing.
    unsafe { with_inputs!(jc_resume(inputs, bytes, len, list.as_mut_ptr(), list.len())) }
}

#[cfg(test)]
mod tests {
    use super::super::tests::Count;
    use super::*;

    unsafe extern "C" {
        safe fn jc_echo_replay_flat(x: ReplayReply) -> ReplayReply;
        safe fn jc_echo_resume_flat(x: ResumeReply) -> ResumeReply;
    }

    #[test]
    fn replies_come_back_as_they_were() {
        let n = &mut Count(0);
        let (number, is_over, line_number) = (n.byte(), n.byte(), n.whole());
        let (candidate, score, next) = (n.whole(), n.float(), n.waiting().seed);
        let x = ReplayReply { number, is_over, line_number, candidate, score, next };
        assert_eq!(jc_echo_replay_flat(x), x);
        let n = &mut Count(0);
        let (number, ended_by, lines) = (n.byte(), n.byte(), n.whole());
        let (kept, dropped, run) = (n.whole(), n.whole(), n.run());
        let x = ResumeReply { number, ended_by, lines, kept, dropped, run };
        assert_eq!(jc_echo_resume_flat(x), x);
    }
}
