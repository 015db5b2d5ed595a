//! The proved sensor-tilt search, as safe Rust over its static library (x86-64 Linux).
//!
//! [`Search`] runs a search one seed at a time: the host solves for a camera at each tilt that it is given, and the search
//! scores, compares and refines. [`geometry`] has the operations that a host needs besides it. [`journal`] keeps every answer in a
//! file, from which a search goes on after a power loss, and by which it can be run again without its host. [`record`] has the same
//! search for a host that keeps the run's record itself.
//!
//! What these functions compute is proved: each equals a definition that is written down in the repository's `specs/`
//! folders, for all inputs. The code of this crate is not proved: it passes numbers on, and names them.
//!
//! ```
//! use jinnychair::*;
//!
//! let mut options = Options::default();
//! options.tilt_x_seeds = vec![-0.02, 0.0, 0.02];
//! options.tilt_y_seeds = vec![0.0];
//! (options.refine_rounds, options.refine_step) = (4, 0.01);
//! let k = FxFyCxCy { fx: 1000.0, fy: 1000.0, cx: 640.0, cy: 480.0 };
//! let center = Pt2 { x: 640.0, y: 480.0 };
//! let mut search = Search::start(&Inputs { views: 3, options: &options, decomposition: &[], base: k, center })?;
//!
//! let winner = search.run(|seed| {
//!     // A host solves for a camera here. This one's error grows with the distance from −0.0125.
//!     let error = 100.0 * (seed.sensor.tilt_x + 0.0125).abs();
//!     Some(Solution {
//!         camera: PinholeCamera { k, dist: BrownConrady5::default() },
//!         rows: vec![0.0, 0.0, 640.0 + error, 480.0],
//!         flags: vec![1],
//!     })
//! })?;
//! assert_eq!(winner.sensor.tilt_x, -0.0125);
//! # Ok::<(), Box<dyn std::error::Error>>(())
//! ```
//!
//! [`Search::run_watched`] also shows each tried seed, with how far the search has come, and [`Search::run_until`] can be stopped
//! between two answers. [`Search::next`], [`Search::answer`], [`Search::progress`] and [`Search::stop`] are for a host with a
//! loop of its own. [`Search::counts`] is for the report, and [`winner`] for looking at a run in stretches. Angles are in
//! radians, pixels and focal lengths in pixels.
//!
//! # What is assumed of the machine
//!
//! The processor rounds to nearest and keeps subnormal numbers, which is how Rust and C start every thread. Where a program has
//! changed the rounding mode, or has subnormals flushed to zero, results have different bits.
//!
//! Every call is a function of its arguments alone: threads need no lock, and a [`Search`] may move between them.

#[cfg(not(target_arch = "x86_64"))]
compile_error!("the static library is for x86-64");

mod error;
pub mod geometry;
pub mod journal;
mod known_plate;
// Not for users: its few public functions are for tests, which give the library inputs that the functions above can't express,
// such as an odd number of coordinates.
#[doc(hidden)]
pub mod raw;
pub mod record;
mod search;
mod types;
mod version;
mod winner;

pub use error::{
    AnswerError, ConicError, CountError, LineRefusal, NextError, NormalizeError, PlateError,
    PointMapError, ReplayError, ReportError, ResultError, RowsError, RunError, StartError,
    StopError, TiltError, TrigError, WriteError,
};
pub use record::{Counts, Progress};
pub use search::{
    Ended, Finding, Handed, Inputs, Options, Outcome, Rows, Search, SkipReason, Solution, Stopped,
    Tried,
};
pub use types::{
    BrownConrady5, FxFyCxCy, PinholeCamera, Pt2, ScheimpflugParams, Seed, TiltTrig, Winner,
};
pub use version::{VERSION, VersionError, check_version};
pub use winner::winner;
