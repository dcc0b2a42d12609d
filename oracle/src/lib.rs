//! Answers of the Rust crate isdb-text in the numbers of docs/01-scope.md ("01").

pub mod cells;
pub mod coding;
pub mod hex;
pub mod leaves;
pub mod options;
pub mod reading;
pub mod request;
pub mod sets;
