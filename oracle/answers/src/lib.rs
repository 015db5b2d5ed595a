//! Answers for the operations of the library by the published functions, compiled with the listed patches.
//!
//! [`operations::answer`] takes an operation's name and input words and gives its output words;
//! PROTOCOL.md lays both down. The programs `oracle` and `generate` are built over it.

pub mod generate;
pub mod operations;
