//! The reference model (docs/SPECIFICATION.md, chapter 7), written from the rules alone: vectors, no lent memory but the list, and
//! every best looked up among the entries. It is slow and easy to check. The proved library is compared with it call by call, with
//! calls in wrong orders and changed lists as well.

mod counts;
mod journal;
mod outcome;
mod pages;
mod replay;
mod resume;
mod seeds;
mod stretches;

pub use counts::{Counts, write_report};
pub use journal::{Reading, read_line, write_line};
pub use outcome::{Camera, Errors, Finding, Outcome, Rows, Scored};
pub use pages::{Answered, Book, Entry, Handed, Progress, Stopped, Winner};
pub use replay::{Replayed, replay};
pub use resume::{EndedBy, Resumed, resume};
pub use seeds::{Inputs, Seed};
pub use stretches::{stretch_winner, winner_of};
