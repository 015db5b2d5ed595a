//! The journal of a run: a line for each answered candidate, with the bits of every number, and beside it a file with the
//! inputs of Start.
//!
//! [`Line`], [`write_line`] and [`lines`] are the lines themselves. [`JournalWriter`] writes them to a file as a search goes on: each
//! line is on the disk before the next seed is handed out. [`StoredInputs`] is the file beside it. After a power loss
//! [`JournalWriter::resume`] goes on with the search from both.
//!
//! A journal and its inputs are enough to examine a run without its host. [`replay`] gives the winner, or the line that isn't the
//! run's, and [`what_differs`] says why it isn't. [`crate::Counts::of`] and [`write_report`] make the report. [`stretch_winner`] and
//! [`round_winners`] give the winners of its parts.
//!
//! ```
//! use jinnychair::{journal, *};
//!
//! # let folder = std::env::temp_dir().join(format!("jinnychair-journal-{}", std::process::id()));
//! # std::fs::create_dir_all(&folder)?;
//! # let path = folder.join("night.journal");
//! let options = Options::default();
//! let k = FxFyCxCy { fx: 1000.0, fy: 1000.0, cx: 640.0, cy: 480.0 };
//! let inputs = Inputs { views: 3, options: &options, decomposition: &[], base: k, center: Pt2 { x: 640.0, y: 480.0 } };
//! let mut search = Search::start(&inputs)?;
//! let stored = journal::StoredInputs::new(&inputs, journal::Views::BuiltIn, "2026-11-16");
//! let mut writer = journal::JournalWriter::create(&path, &stored)?;
//!
//! // A host that finds no camera; a real one solves for it.
//! let ended = writer.run(&mut search, |_| None, |_| std::ops::ControlFlow::Continue(()));
//! assert!(ended.is_err(), "nothing was scored");
//!
//! let bytes = std::fs::read(&path)?;
//! assert_eq!(journal::lines(&bytes).count(), 45);
//! for line in journal::lines(&bytes) {
//!     assert_eq!(line?.outcome, journal::Recorded::Skipped(SkipReason::HostFailed));
//! }
//! # std::fs::remove_dir_all(&folder)?;
//! # Ok::<(), Box<dyn std::error::Error>>(())
//! ```

mod checksum;
mod inputs;
mod line;
mod replay;
mod report;
mod resume;
mod stretches;
mod writer;

pub use checksum::sha256;
pub use inputs::{HostVersion, InputsError, StoredInputs, Views, inputs_path};
pub use line::{JournalError, Line, Lines, Recorded, ScoredFields, lines, read_line, write_line};
pub use replay::{Difference, Replayed, replay, what_differs};
pub use report::write_report;
pub use resume::{EndedBy, KeptLines, Resumed};
pub use stretches::{round_winners, stretch_winner};
pub use writer::{JournalFileError, JournalWriter, JournaledRunError, ResumedJournal};
