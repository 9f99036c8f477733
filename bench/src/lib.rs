//! Times of our library beside a plain Rust version written for speed, one that goes further, and two known libraries.

pub mod alike;
pub mod cases;
pub mod cold;
pub mod engine;
pub mod history;
pub mod instructions;
pub mod joiner;
pub mod link;
pub mod measure;
pub mod operation;
pub mod peers;
pub mod placed;
pub mod plain;
pub mod planes;
pub mod shapes;
pub mod single;
pub mod table;
pub mod valgrind;
pub mod verdicts;
pub mod worst;
