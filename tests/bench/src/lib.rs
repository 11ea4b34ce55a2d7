// lib.rs: the card in plain Rust, the tapes on which it and the library are measured, and what measures them.

pub mod callgrind;
pub mod limits;
pub mod plain;
pub mod plot;
pub mod report;
pub mod subject;
pub mod workload;

mod records;
