//! The model: flat cJoin as in the source paper (document 004, figures 5 and 12), with one premise more
//! by document 02: failure goes first. Where an abort floats in a transaction, neither a reaction inside
//! it nor a merge with it is left, only its abort.
//!
//! A solution holds messages and transactions `{{ M, abort?, ⌊Q⌋ }}`; rules are definitions
//! `J ▷ P` and `J ▶ P`. Molecules are told apart by name, never by place: `ordered` is the thin
//! layer that keeps the entry order of document 01.
pub mod calls;
pub mod colours;
pub mod definitions;
pub mod list;
pub mod ordered;
pub mod preview;
pub mod solution;
pub mod tally;
pub mod unattended;

pub use calls::*;
