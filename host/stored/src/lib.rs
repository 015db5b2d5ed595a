//! The stored answers of outside programs, in `oracle/stored`, beside those of the proved library, the archive that users link. The
//! oracle's PROTOCOL.md lays down words, operations and files. Nothing here needs the published files.

pub mod comparison;
mod file;
pub mod library;
