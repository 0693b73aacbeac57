//! The files under `examples/`: the two-lot plant as little-endian words.
use crate::program::bytes_of;
use crate::two_lot::{case_a, case_c, case_d, start, table};
use crate::words::log_words;

/// Each file's name and bytes. A table, the start and a log, one after another, are an input of
/// the program.
pub fn files() -> Vec<(&'static str, Vec<u8>)> {
    vec![
        ("table.bin", bytes_of(&table())),
        ("start.bin", bytes_of(&start())),
        ("log-a.bin", bytes_of(&log_words(&case_a()))),
        ("log-c.bin", bytes_of(&log_words(&case_c()))),
        ("log-d.bin", bytes_of(&log_words(&case_d()))),
    ]
}
