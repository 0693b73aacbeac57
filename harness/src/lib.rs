//! Tests of the proved coordinator against two independent opinions: `model`, written from the
//! calculus of the source paper, and `plain`, written from document 01 as ordinary fast Rust.
pub mod answer;
pub mod apart;
pub mod examples;
pub mod generate;
pub mod in_c;
pub mod library;
pub mod markdown;
pub mod model;
pub mod pairs;
pub mod plain;
pub mod program;
pub mod random;
pub mod stack;
pub mod tidy;
pub mod two_lot;
pub mod words;

/// The repository.
pub const ROOT: &str = concat!(env!("CARGO_MANIFEST_DIR"), "/..");
