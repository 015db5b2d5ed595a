//! The proved library beside the reference model (`book`): whole lists of calls in any order, with good and bad inputs, changed lists
//! and records that no search can have made. Nothing here needs the published files.

pub mod calls;
pub mod findings;
pub mod inputs;
pub mod lines;
pub mod record_words;
pub mod replays;
pub mod reports;
pub mod resumes;
pub mod unsound;
pub mod winners;
