//! The static library's functions. This module and its parts are the only ones with unsafe code: the declarations, which nothing
//! compares with the library but the tests below and `tests/interface.rs`, and the calls that pass slices.
//!
//! Every function takes any numbers whatsoever. Those without a pointer are therefore safe to call; those with one get it from a
//! slice, which is valid for its length, and a `&mut` slice overlaps no other.
#![allow(unsafe_code)]

pub mod journal;
pub(crate) mod replay;

use crate::geometry::{Conic, DistortedPoint, Jacobian};
use crate::record::{
    Best, Counts, FlatLine, Inputs, LastLine, Options, Place, Progress, Run, Waiting,
};
use crate::{
    BrownConrady5, FxFyCxCy, PinholeCamera, Pt2, Rows, ScheimpflugParams, Seed, TiltTrig, Winner,
};
use std::mem::{offset_of, size_of};
use std::slice::{from_raw_parts, from_raw_parts_mut};

/// A matrix, row by row.
#[derive(Clone, Copy, Debug, PartialEq)]
#[repr(C)]
pub(crate) struct FlatMatrix {
    rows: [[f64; 3]; 3],
}

impl From<[[f64; 3]; 3]> for FlatMatrix {
    #[inline]
    fn from(rows: [[f64; 3]; 3]) -> Self {
        Self { rows }
    }
}

impl From<FlatMatrix> for [[f64; 3]; 3] {
    #[inline]
    fn from(matrix: FlatMatrix) -> Self {
        matrix.rows
    }
}

#[derive(Clone, Copy, Debug, PartialEq)]
#[repr(C)]
pub(crate) struct InverseReply {
    pub number: u8,
    pub inverse: FlatMatrix,
}

#[derive(Clone, Copy, Debug, PartialEq)]
#[repr(C)]
pub(crate) struct CameraReply {
    pub number: u8,
    pub camera: FxFyCxCy,
}

#[derive(Clone, Copy, Debug, PartialEq)]
#[repr(C)]
pub(crate) struct PlateReply {
    pub number: u8,
    pub conic: Conic,
}

#[derive(Clone, Copy, Debug, PartialEq)]
#[repr(C)]
pub struct NormalizeReply {
    pub number: u8,
    pub t00: f64,
    pub t02: f64,
    pub t12: f64,
}

#[derive(Clone, Copy, Debug, PartialEq)]
#[repr(C)]
pub struct LineReply {
    pub number: u8,
    pub collinear: u8,
}

#[derive(Clone, Copy, Debug, PartialEq)]
#[repr(C)]
pub struct CenterReply {
    pub number: u8,
    pub center: Pt2,
}

#[derive(Clone, Copy, Debug, PartialEq)]
#[repr(C)]
pub(crate) struct SumReply {
    pub number: u8,
    pub value: f64,
}

#[derive(Clone, Copy, Debug, PartialEq)]
#[repr(C)]
pub(crate) struct ErrorCountReply {
    pub number: u8,
    pub sum: f64,
    pub counted: usize,
}

#[derive(Clone, Copy, Debug, PartialEq)]
#[repr(C)]
pub(crate) struct StartReply {
    pub number: u8,
    pub run: Run,
}

#[derive(Clone, Copy, Debug, PartialEq)]
#[repr(C)]
pub(crate) struct NextReply {
    pub number: u8,
    pub over: u8,
    pub candidate: usize,
    pub run: Run,
}

#[derive(Clone, Copy, Debug, PartialEq)]
#[repr(C)]
pub struct AnswerReply {
    pub number: u8,
    pub skipped: u8,
    pub score: f64,
    pub run: Run,
}

#[derive(Clone, Copy, Debug, PartialEq)]
#[repr(C)]
pub(crate) struct ResultReply {
    pub number: u8,
    pub candidate: Winner,
}

#[derive(Clone, Copy, Debug, PartialEq)]
#[repr(C)]
pub(crate) struct StopReply {
    pub number: u8,
    pub has_best: u8,
    pub has_floor: u8,
    pub no_gain: u8,
    pub best: Winner,
    pub floor: f64,
}

/// Stops the build where a struct isn't laid out as the header says.
macro_rules! laid_out {
    ($($name:ident: $size:literal { $($field:ident: $offset:literal),+ $(,)? })+) => {
        $(const _: () = {
            assert!(size_of::<$name>() == $size);
            $(assert!(offset_of!($name, $field) == $offset);)+
        };)+
    };
}
use laid_out;

laid_out! {
    Pt2: 16 { x: 0, y: 8 }
    FxFyCxCy: 32 { fx: 0, fy: 8, cx: 16, cy: 24 }
    BrownConrady5: 40 { k1: 0, k2: 8, k3: 16, p1: 24, p2: 32 }
    Jacobian: 32 { xx: 0, xy: 8, yx: 16, yy: 24 }
    DistortedPoint: 48 { point: 0, jacobian: 16 }
    ScheimpflugParams: 16 { tilt_x: 0, tilt_y: 8 }
    TiltTrig: 32 { sin_x: 0, cos_x: 8, sin_y: 16, cos_y: 24 }
    PinholeCamera: 72 { k: 0, dist: 32 }
    Conic: 48 { b11: 0, b12: 8, b22: 16, b13: 24, b23: 32, b33: 40 }
    Seed: 48 { reference_k: 0, sensor: 32 }
    Winner: 112 { number: 0, camera: 8, sensor: 80, mean_reproj_error: 96, score: 104 }
    Options: 40 { refine_rounds: 0, refine_step: 8, max_abs_tilt: 16, one_axis: 24, min_counted: 32 }
    SumReply: 16 { number: 0, value: 8 }
    ErrorCountReply: 24 { number: 0, sum: 8, counted: 16 }
    FlatMatrix: 72 { rows: 0 }
    InverseReply: 80 { number: 0, inverse: 8 }
    CameraReply: 40 { number: 0, camera: 8 }
    PlateReply: 56 { number: 0, conic: 8 }
    NormalizeReply: 32 { number: 0, t00: 8, t02: 16, t12: 24 }
    LineReply: 2 { number: 0, collinear: 1 }
    CenterReply: 24 { number: 0, center: 8 }
    Place: 56 { demand: 0, round: 8, step: 16, len: 24, at: 32, number: 40, over: 48 }
    Waiting: 56 { is_waiting: 0, seed: 8 }
    Best: 120 { found: 0, candidate: 8 }
    FlatLine: 136 { number: 0, round: 8, seed: 16, skipped: 64, score: 72, mean: 80, k: 88, p1: 120, p2: 128 }
    LastLine: 144 { found: 0, line: 8 }
    Counts: 40 { scored: 0, host_failed: 8, bad_camera: 16, no_mean: 24, no_number: 32 }
    Run: 592 { options: 0, center: 40, place: 56, waiting: 112, round_best: 168, run_best: 288, last: 408, counts: 552 }
    StartReply: 600 { number: 0, run: 8 }
    NextReply: 608 { number: 0, over: 1, candidate: 8, run: 16 }
    AnswerReply: 608 { number: 0, skipped: 1, score: 8, run: 16 }
    ResultReply: 120 { number: 0, candidate: 8 }
    Progress: 40 { round: 0, rounds: 8, answered: 16, total: 24, answered_in_run: 32 }
    StopReply: 128 { number: 0, has_best: 1, has_floor: 2, no_gain: 3, best: 8, floor: 120 }
}

unsafe extern "C" {
    pub(crate) safe fn jc_version() -> u32;
    pub(crate) safe fn jc_sqrt(x: f64) -> f64;
    pub(crate) safe fn jc_sine(x: f64) -> SumReply;
    pub(crate) safe fn jc_cosine(x: f64) -> SumReply;
    pub(crate) safe fn jc_pixel_to_sensor(k: FxFyCxCy, pixel: Pt2) -> Pt2;
    pub(crate) safe fn jc_sensor_to_pixel(k: FxFyCxCy, sensor: Pt2) -> Pt2;
    pub(crate) safe fn jc_tilt_projection_matrix(trig: TiltTrig) -> FlatMatrix;
    pub(crate) safe fn jc_determinant(m: FlatMatrix) -> f64;
    pub(crate) safe fn jc_inverse(m: FlatMatrix) -> InverseReply;
    pub(crate) safe fn jc_apply_homography(h: FlatMatrix, p: Pt2) -> Pt2;
    pub(crate) safe fn jc_apply_homography_inverse(h_inv: FlatMatrix, p: Pt2) -> Pt2;
    safe fn jc_distort_numbers(k1: f64, k2: f64, k3: f64, p1: f64, p2: f64, x: f64, y: f64) -> Pt2;
    pub(crate) safe fn jc_distort_with_jacobian(b: BrownConrady5, p: Pt2) -> DistortedPoint;
    pub(crate) safe fn jc_undistort(b: BrownConrady5, iters: u32, p: Pt2) -> Pt2;
    pub(crate) safe fn jc_conic_to_camera(b: Conic) -> CameraReply;
    pub(crate) safe fn jc_known_plate(k: FxFyCxCy) -> PlateReply;
    pub(crate) safe fn jc_damp_seed_distortion(distortion: BrownConrady5) -> BrownConrady5;
    pub(crate) safe fn jc_distortion_complexity(distortion: BrownConrady5) -> f64;
    pub(crate) safe fn jc_tilt_complexity(sensor: ScheimpflugParams) -> f64;
    pub(crate) safe fn jc_principal_point_complexity(k: FxFyCxCy, center: Pt2) -> f64;

    fn jc_mean_reproj_error(
        camera: PinholeCamera,
        trig: TiltTrig,
        rows: *const f64,
        rows_len: usize,
        flags: *const u8,
        flags_len: usize,
    ) -> f64;
    fn jc_count_errors(
        solved: PinholeCamera,
        sensor: ScheimpflugParams,
        rows: *const f64,
        rows_len: usize,
        flags: *const u8,
        flags_len: usize,
    ) -> ErrorCountReply;
    fn jc_untilt_points(
        k: FxFyCxCy,
        trig: TiltTrig,
        points: *const f64,
        points_len: usize,
        to: *mut f64,
        to_len: usize,
    ) -> u8;
    fn jc_ideal_points(
        camera: PinholeCamera,
        iters: u32,
        trig: TiltTrig,
        points: *const f64,
        points_len: usize,
        to: *mut f64,
        to_len: usize,
    ) -> u8;
    fn jc_normalize_points_2d(
        points: *const f64,
        points_len: usize,
        to: *mut f64,
        to_len: usize,
    ) -> NormalizeReply;
    fn jc_points_are_collinear(points: *const f64, points_len: usize) -> LineReply;
    fn jc_design_rows(
        source: *const f64,
        source_len: usize,
        destination: *const f64,
        destination_len: usize,
        to: *mut f64,
        to_len: usize,
    ) -> u8;
    fn jc_observed_pixel_center(pixels: *const f64, pixels_len: usize) -> CenterReply;

    fn jc_start(
        views: usize,
        options: Options,
        tilt_x_seeds: *const f64,
        tilt_x_seeds_len: usize,
        tilt_y_seeds: *const f64,
        tilt_y_seeds_len: usize,
        decomposition: *const f64,
        decomposition_len: usize,
        base: FxFyCxCy,
        center: Pt2,
        list: *mut f64,
        list_len: usize,
    ) -> StartReply;
    fn jc_next(run: Run, list: *const f64, list_len: usize) -> NextReply;
    fn jc_seed(run: Run, list: *const f64, list_len: usize, to: *mut f64, to_len: usize) -> usize;
    fn jc_answer(
        run: Run,
        is_solved: u8,
        solved: PinholeCamera,
        rows: *const f64,
        rows_len: usize,
        flags: *const u8,
        flags_len: usize,
        list: *mut f64,
        list_len: usize,
    ) -> AnswerReply;
    safe fn jc_result(run: Run) -> ResultReply;
    pub(crate) safe fn jc_progress(run: Run) -> Progress;
    pub(crate) safe fn jc_counts(run: Run) -> Counts;
    pub(crate) safe fn jc_winner(first: Best, second: Best) -> Best;
    fn jc_stop(run: Run, list: *const f64, list_len: usize) -> StopReply;
}

#[inline]
pub(crate) fn distort(b: BrownConrady5, p: Pt2) -> Pt2 {
    jc_distort_numbers(b.k1, b.k2, b.k3, b.p1, b.p2, p.x, p.y)
}

pub(crate) fn mean_reproj_error(camera: PinholeCamera, trig: TiltTrig, rows: Rows) -> f64 {
    let (numbers, flags) = (rows.numbers, rows.flags);
    // SAFETY: both slices are valid for their lengths.
    unsafe {
        jc_mean_reproj_error(
            camera,
            trig,
            numbers.as_ptr(),
            numbers.len(),
            flags.as_ptr(),
            flags.len(),
        )
    }
}

pub(crate) fn count_errors(
    solved: PinholeCamera,
    sensor: ScheimpflugParams,
    rows: Rows,
) -> ErrorCountReply {
    let (numbers, flags) = (rows.numbers, rows.flags);
    // SAFETY: both slices are valid for their lengths.
    unsafe {
        jc_count_errors(
            solved,
            sensor,
            numbers.as_ptr(),
            numbers.len(),
            flags.as_ptr(),
            flags.len(),
        )
    }
}

/// Calls a function that takes what a run starts from, and then the rest.
macro_rules! with_inputs {
    ($function:ident($inputs:expr, $($rest:expr),+)) => {{
        let Inputs { views, options, tilt_x_seeds, tilt_y_seeds, decomposition, base, center } =
            *$inputs;
        $function(
            views,
            options,
            tilt_x_seeds.as_ptr(),
            tilt_x_seeds.len(),
            tilt_y_seeds.as_ptr(),
            tilt_y_seeds.len(),
            decomposition.as_ptr(),
            decomposition.len(),
            base,
            center,
            $($rest),+
        )
    }};
}
use with_inputs;

/// Points as the numbers that they are, x then y.
pub(crate) fn coordinates(points: &[Pt2]) -> &[f64] {
    // SAFETY: a `Pt2` is two numbers and nothing else.
    unsafe { from_raw_parts(points.as_ptr().cast(), 2 * points.len()) }
}

pub(crate) fn coordinates_mut(points: &mut [Pt2]) -> &mut [f64] {
    // SAFETY: a `Pt2` is two numbers and nothing else, and any two numbers are one.
    unsafe { from_raw_parts_mut(points.as_mut_ptr().cast(), 2 * points.len()) }
}

pub fn untilt_points(k: FxFyCxCy, trig: TiltTrig, points: &[f64], to: &mut [f64]) -> u8 {
    // SAFETY: both slices are valid for their lengths, and `to` overlaps nothing.
    unsafe { jc_untilt_points(k, trig, points.as_ptr(), points.len(), to.as_mut_ptr(), to.len()) }
}

pub fn ideal_points(
    camera: PinholeCamera,
    iters: u32,
    trig: TiltTrig,
    points: &[f64],
    to: &mut [f64],
) -> u8 {
    let (from, from_len) = (points.as_ptr(), points.len());
    // SAFETY: both slices are valid for their lengths, and `to` overlaps nothing.
    unsafe { jc_ideal_points(camera, iters, trig, from, from_len, to.as_mut_ptr(), to.len()) }
}

pub fn normalize_points_2d(points: &[f64], to: &mut [f64]) -> NormalizeReply {
    // SAFETY: both slices are valid for their lengths, and `to` overlaps nothing.
    unsafe { jc_normalize_points_2d(points.as_ptr(), points.len(), to.as_mut_ptr(), to.len()) }
}

#[must_use]
pub fn points_are_collinear(points: &[f64]) -> LineReply {
    // SAFETY: the slice is valid for its length.
    unsafe { jc_points_are_collinear(points.as_ptr(), points.len()) }
}

pub fn design_rows(source: &[f64], destination: &[f64], to: &mut [f64]) -> u8 {
    let (seen, seen_len) = (destination.as_ptr(), destination.len());
    // SAFETY: all three slices are valid for their lengths, and `to` overlaps nothing.
    unsafe {
        jc_design_rows(source.as_ptr(), source.len(), seen, seen_len, to.as_mut_ptr(), to.len())
    }
}

#[must_use]
pub fn observed_pixel_center(pixels: &[f64]) -> CenterReply {
    // SAFETY: the slice is valid for its length.
    unsafe { jc_observed_pixel_center(pixels.as_ptr(), pixels.len()) }
}

pub(crate) fn start(inputs: &Inputs, list: &mut [f64]) -> StartReply {
    // SAFETY: all four slices are valid for their lengths, and `list` overlaps nothing.
    unsafe { with_inputs!(jc_start(inputs, list.as_mut_ptr(), list.len())) }
}

pub(crate) fn next(run: Run, list: &[f64]) -> NextReply {
    // SAFETY: the slice is valid for its length.
    unsafe { jc_next(run, list.as_ptr(), list.len()) }
}

pub fn seed(run: Run, list: &[f64], to: &mut [f64]) -> usize {
    // SAFETY: both slices are valid for their lengths, and `to` overlaps nothing.
    unsafe { jc_seed(run, list.as_ptr(), list.len(), to.as_mut_ptr(), to.len()) }
}

pub fn answer(
    run: Run,
    is_solved: u8,
    solved: PinholeCamera,
    rows: Rows,
    list: &mut [f64],
) -> AnswerReply {
    // SAFETY: all three slices are valid for their lengths, and `list` overlaps nothing.
    unsafe {
        jc_answer(
            run,
            is_solved,
            solved,
            rows.numbers.as_ptr(),
            rows.numbers.len(),
            rows.flags.as_ptr(),
            rows.flags.len(),
            list.as_mut_ptr(),
            list.len(),
        )
    }
}

/// What is passed with Failed; it isn't read.
pub(crate) const NOT_SOLVED: PinholeCamera = PinholeCamera {
    k: FxFyCxCy { fx: 0.0, fy: 0.0, cx: 0.0, cy: 0.0 },
    dist: BrownConrady5 { k1: 0.0, k2: 0.0, k3: 0.0, p1: 0.0, p2: 0.0 },
};

pub(crate) fn result(run: Run) -> ResultReply {
    jc_result(run)
}

pub(crate) fn stop(run: Run, list: &[f64]) -> StopReply {
    // SAFETY: the slice is valid for its length.
    unsafe { jc_stop(run, list.as_ptr(), list.len()) }
}

#[cfg(test)]
mod tests {
    use super::*;

    unsafe extern "C" {
        safe fn jc_echo_pt2(x: Pt2) -> Pt2;
        safe fn jc_echo_intrinsics(x: FxFyCxCy) -> FxFyCxCy;
        safe fn jc_echo_distortion(x: BrownConrady5) -> BrownConrady5;
        safe fn jc_echo_jacobian(x: Jacobian) -> Jacobian;
        safe fn jc_echo_distorted_point(x: DistortedPoint) -> DistortedPoint;
        safe fn jc_echo_scheimpflug_params(x: ScheimpflugParams) -> ScheimpflugParams;
        safe fn jc_echo_trig(x: TiltTrig) -> TiltTrig;
        safe fn jc_echo_pinhole_camera(x: PinholeCamera) -> PinholeCamera;
        safe fn jc_echo_sum_reply(x: SumReply) -> SumReply;
        safe fn jc_echo_error_count_reply(x: ErrorCountReply) -> ErrorCountReply;
        safe fn jc_echo_conic(x: Conic) -> Conic;
        safe fn jc_echo_candidate_seed(x: Seed) -> Seed;
        safe fn jc_echo_candidate(x: Winner) -> Winner;
        safe fn jc_echo_options(x: Options) -> Options;
        safe fn jc_echo_matrix(x: FlatMatrix) -> FlatMatrix;
        safe fn jc_echo_inverse_reply(x: InverseReply) -> InverseReply;
        safe fn jc_echo_camera_reply(x: CameraReply) -> CameraReply;
        safe fn jc_echo_plate_reply(x: PlateReply) -> PlateReply;
        safe fn jc_echo_normalize_reply(x: NormalizeReply) -> NormalizeReply;
        safe fn jc_echo_line_reply(x: LineReply) -> LineReply;
        safe fn jc_echo_center_reply(x: CenterReply) -> CenterReply;
        safe fn jc_echo_place_record(x: Place) -> Place;
        safe fn jc_echo_waiting_record(x: Waiting) -> Waiting;
        safe fn jc_echo_best_record(x: Best) -> Best;
        safe fn jc_echo_line(x: FlatLine) -> FlatLine;
        safe fn jc_echo_last_line_record(x: LastLine) -> LastLine;
        safe fn jc_echo_count_record(x: Counts) -> Counts;
        safe fn jc_echo_run_record(x: Run) -> Run;
        safe fn jc_echo_start_flat(x: StartReply) -> StartReply;
        safe fn jc_echo_next_flat(x: NextReply) -> NextReply;
        safe fn jc_echo_answer_flat(x: AnswerReply) -> AnswerReply;
        safe fn jc_echo_result_flat(x: ResultReply) -> ResultReply;
        safe fn jc_echo_progress_reply(x: Progress) -> Progress;
        safe fn jc_echo_stop_flat(x: StopReply) -> StopReply;
    }

    /// Distinct numbers: no field can stand for another.
    pub(super) struct Count(pub u8);

    impl Count {
        pub(super) fn byte(&mut self) -> u8 {
            self.0 += 1;
            self.0
        }

        pub(super) fn float(&mut self) -> f64 {
            f64::from(self.byte()) + 0.5
        }

        pub(super) fn whole(&mut self) -> usize {
            // Above 32 bits, so that a cut shows.
            usize::from(self.byte()) << 40 | 1
        }

        fn pt2(&mut self) -> Pt2 {
            Pt2 { x: self.float(), y: self.float() }
        }

        fn k(&mut self) -> FxFyCxCy {
            FxFyCxCy { fx: self.float(), fy: self.float(), cx: self.float(), cy: self.float() }
        }

        fn dist(&mut self) -> BrownConrady5 {
            let [k1, k2, k3, p1, p2] = std::array::from_fn(|_| self.float());
            BrownConrady5 { k1, k2, k3, p1, p2 }
        }

        fn conic(&mut self) -> Conic {
            let [b11, b12, b22, b13, b23, b33] = std::array::from_fn(|_| self.float());
            Conic { b11, b12, b22, b13, b23, b33 }
        }

        fn jacobian(&mut self) -> Jacobian {
            Jacobian { xx: self.float(), xy: self.float(), yx: self.float(), yy: self.float() }
        }

        fn sensor(&mut self) -> ScheimpflugParams {
            ScheimpflugParams { tilt_x: self.float(), tilt_y: self.float() }
        }

        fn trig(&mut self) -> TiltTrig {
            let [sin_x, cos_x, sin_y, cos_y] = std::array::from_fn(|_| self.float());
            TiltTrig { sin_x, cos_x, sin_y, cos_y }
        }

        fn camera(&mut self) -> PinholeCamera {
            PinholeCamera { k: self.k(), dist: self.dist() }
        }

        fn matrix(&mut self) -> FlatMatrix {
            FlatMatrix { rows: std::array::from_fn(|_| std::array::from_fn(|_| self.float())) }
        }

        fn winner(&mut self) -> Winner {
            Winner {
                number: self.whole(),
                camera: self.camera(),
                sensor: self.sensor(),
                mean_reproj_error: self.float(),
                score: self.float(),
            }
        }

        fn options(&mut self) -> Options {
            Options {
                refine_rounds: self.whole(),
                refine_step: self.float(),
                max_abs_tilt: self.float(),
                one_axis: self.byte(),
                min_counted: self.whole(),
            }
        }

        fn place(&mut self) -> Place {
            Place {
                demand: self.whole(),
                round: self.whole(),
                step: self.float(),
                len: self.whole(),
                at: self.whole(),
                number: self.whole(),
                over: self.byte(),
            }
        }

        pub(super) fn waiting(&mut self) -> Waiting {
            let is_waiting = self.byte();
            Waiting { is_waiting, seed: Seed { reference_k: self.k(), sensor: self.sensor() } }
        }

        fn best(&mut self) -> Best {
            Best { found: self.byte(), candidate: self.winner() }
        }

        pub(super) fn line(&mut self) -> FlatLine {
            FlatLine {
                number: self.whole(),
                round: self.whole(),
                seed: self.waiting().seed,
                skipped: self.byte(),
                score: self.float(),
                mean: self.float(),
                k: self.k(),
                p1: self.float(),
                p2: self.float(),
            }
        }

        fn last(&mut self) -> LastLine {
            LastLine { found: self.byte(), line: self.line() }
        }

        pub(super) fn counts(&mut self) -> Counts {
            let [scored, host_failed, bad_camera, no_mean, no_number] =
                std::array::from_fn(|_| self.whole());
            Counts { scored, host_failed, bad_camera, no_mean, no_number }
        }

        pub(super) fn run(&mut self) -> Run {
            Run {
                options: self.options(),
                center: self.pt2(),
                place: self.place(),
                waiting: self.waiting(),
                round_best: self.best(),
                run_best: self.best(),
                last: self.last(),
                counts: self.counts(),
            }
        }
    }

    #[test]
    fn structs_of_numbers_come_back_as_they_were() {
        let n = &mut Count(0);
        let x = n.pt2();
        assert_eq!(jc_echo_pt2(x), x);
        let x = n.k();
        assert_eq!(jc_echo_intrinsics(x), x);
        let x = n.dist();
        assert_eq!(jc_echo_distortion(x), x);
        let x = n.jacobian();
        assert_eq!(jc_echo_jacobian(x), x);
        let x = DistortedPoint { point: n.pt2(), jacobian: n.jacobian() };
        assert_eq!(jc_echo_distorted_point(x), x);
        let x = n.sensor();
        assert_eq!(jc_echo_scheimpflug_params(x), x);
        let x = n.trig();
        assert_eq!(jc_echo_trig(x), x);
        let x = n.camera();
        assert_eq!(jc_echo_pinhole_camera(x), x);
        let x = n.conic();
        assert_eq!(jc_echo_conic(x), x);
        let x = n.matrix();
        assert_eq!(jc_echo_matrix(x), x);
    }

    #[test]
    fn records_come_back_as_they_were() {
        let n = &mut Count(0);
        let x = n.waiting().seed;
        assert_eq!(jc_echo_candidate_seed(x), x);
        let x = n.winner();
        assert_eq!(jc_echo_candidate(x), x);
        let x = n.options();
        assert_eq!(jc_echo_options(x), x);
        let x = n.place();
        assert_eq!(jc_echo_place_record(x), x);
        let x = n.waiting();
        assert_eq!(jc_echo_waiting_record(x), x);
        let x = n.best();
        assert_eq!(jc_echo_best_record(x), x);
        let x = n.line();
        assert_eq!(jc_echo_line(x), x);
        let x = n.last();
        assert_eq!(jc_echo_last_line_record(x), x);
        let x = n.counts();
        assert_eq!(jc_echo_count_record(x), x);
        let x = n.run();
        assert_eq!(jc_echo_run_record(x), x);
    }

    #[test]
    fn replies_come_back_as_they_were() {
        let n = &mut Count(0);
        let x = SumReply { number: n.byte(), value: n.float() };
        assert_eq!(jc_echo_sum_reply(x), x);
        let x = ErrorCountReply { number: n.byte(), sum: n.float(), counted: n.whole() };
        assert_eq!(jc_echo_error_count_reply(x), x);
        let x = InverseReply { number: n.byte(), inverse: n.matrix() };
        assert_eq!(jc_echo_inverse_reply(x), x);
        let x = CameraReply { number: n.byte(), camera: n.k() };
        assert_eq!(jc_echo_camera_reply(x), x);
        let x = PlateReply { number: n.byte(), conic: n.conic() };
        assert_eq!(jc_echo_plate_reply(x), x);
        let number = n.byte();
        let x = NormalizeReply { number, t00: n.float(), t02: n.float(), t12: n.float() };
        assert_eq!(jc_echo_normalize_reply(x), x);
        let x = LineReply { number: n.byte(), collinear: n.byte() };
        assert_eq!(jc_echo_line_reply(x), x);
        let x = CenterReply { number: n.byte(), center: n.pt2() };
        assert_eq!(jc_echo_center_reply(x), x);
        let x = ResultReply { number: n.byte(), candidate: n.winner() };
        assert_eq!(jc_echo_result_flat(x), x);
        let [round, rounds, answered, total, answered_in_run] = std::array::from_fn(|_| n.whole());
        let x = Progress { round, rounds, answered, total, answered_in_run };
        assert_eq!(jc_echo_progress_reply(x), x);
        let [number, has_best, has_floor, no_gain] = std::array::from_fn(|_| n.byte());
        let (best, floor) = (n.winner(), n.float());
        let x = StopReply { number, has_best, has_floor, no_gain, best, floor };
        assert_eq!(jc_echo_stop_flat(x), x);
        let x = StartReply { number: n.byte(), run: n.run() };
        assert_eq!(jc_echo_start_flat(x), x);
        let n = &mut Count(0);
        let (number, over) = (n.byte(), n.byte());
        let x = NextReply { number, over, candidate: n.whole(), run: n.run() };
        assert_eq!(jc_echo_next_flat(x), x);
        let (number, skipped) = (n.byte(), n.byte());
        let x = AnswerReply { number, skipped, score: n.float(), run: n.run() };
        assert_eq!(jc_echo_answer_flat(x), x);
    }
}
