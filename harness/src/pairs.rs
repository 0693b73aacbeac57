//! Each call of the library beside its plain counterpart, in one shape: the checks ignore what they do not take.
use crate::answer::{
    page_on_target, preview_on_target, run_on_target, unattended_on_target, OnTarget, UNATTENDED_TARGET,
};
use crate::{library, plain};

/// A target that is long enough for each call on any move, log, page or budget.
pub fn target() -> Vec<u32> {
    vec![0; UNATTENDED_TARGET]
}

#[derive(Clone, Copy)]
pub struct Pair {
    pub name: &'static str,
    pub ours: OnTarget,
    pub rust: OnTarget,
}

pub const CHECK_TABLE: Pair = Pair {
    name: "check_table",
    ours: |table, _, _, _| library::check_table(table),
    rust: |table, _, _, _| plain::check_table(table),
};
pub const CHECK_STATE: Pair = Pair {
    name: "check_state",
    ours: |table, state, _, _| library::check_state(table, state),
    rust: |table, state, _, _| plain::check_state(table, state),
};
pub const MAKE_MOVE: Pair = Pair { name: "move", ours: library::make_move, rust: plain::make_move };
pub const PREVIEW: Pair = Pair {
    name: "preview",
    ours: |table, state, mv, target| preview_on_target(library::preview, table, state, mv, target),
    rust: |table, state, mv, target| preview_on_target(plain::preview, table, state, mv, target),
};
pub const RUN: Pair = Pair {
    name: "run",
    ours: |table, state, log, target| run_on_target(library::run, table, state, log, target),
    rust: |table, state, log, target| run_on_target(plain::run, table, state, log, target),
};
pub const SERIALIZE: Pair = Pair { name: "serialize", ours: library::serialize, rust: plain::serialize };
pub const LIST_MOVES: Pair = Pair {
    name: "list_moves",
    ours: |table, state, asked, target| page_on_target(library::list_moves, table, state, asked, target),
    rust: |table, state, asked, target| page_on_target(plain::list_moves, table, state, asked, target),
};
pub const RUN_UNATTENDED: Pair = Pair {
    name: "run_unattended",
    ours: |table, state, budget, target| unattended_on_target(library::run_unattended, table, state, budget, target),
    rust: |table, state, budget, target| unattended_on_target(plain::run_unattended, table, state, budget, target),
};
