//! The proved library beside the oracle, which is the published Rust text, for each operation and for searches in order, and beside
//! the plain loop in C, for the rows that the library takes in blocks; and the benchmark. The crate `stored` has the library's answers in the oracle's
//! words, the crate `beside` the lists of calls that it and the reference model are given.

pub mod bench;
pub mod blocks;
pub mod calls;
pub mod chunks;
pub mod cuts;
pub mod forged;
pub mod journal;
pub mod leaves;
pub mod plain;
pub mod program;
pub mod roots;
pub mod walk;
