//! The files under `examples/`.
mod common;

use std::fs;
use std::path::{Path, PathBuf};

use harness::examples::files;
use harness::two_lot;
use harness::words::log_words;
use harness::ROOT;

fn dir() -> PathBuf {
    Path::new(ROOT).join("examples/two-lot")
}

fn file(name: &str) -> Vec<u8> {
    fs::read(dir().join(name)).unwrap()
}

/// The words of bytes, put together by hand.
fn words(bytes: &[u8]) -> Vec<u32> {
    assert_eq!(bytes.len() % 4, 0);
    let word = |four: &[u8]| (0..4).map(|place| u32::from(four[place]) << (8 * place)).sum();
    bytes.chunks(4).map(word).collect()
}

// Catches files that are not what `--bin two_lot` makes, and ones that it does not make.
#[test]
fn files_are_what_the_command_makes() {
    let mut names: Vec<String> =
        fs::read_dir(dir()).unwrap().map(|entry| entry.unwrap().file_name().into_string().unwrap()).collect();
    names.sort_unstable();
    let mut made = files();
    made.sort_unstable();
    assert_eq!(names, made.iter().map(|(name, _)| *name).collect::<Vec<_>>());
    for (name, bytes) in made {
        assert!(file(name) == bytes, "{name}");
    }
}

// Catches files that are not 01's plant: sizes and digits as 01 has them, and what its cases give.
#[test]
fn files_are_the_plant_of_01() {
    let (table, start) = (words(&file("table.bin")), words(&file("start.bin")));
    assert_eq!(table[..5], [2, 1, 1, 4, 12]);
    assert_eq!(table.len(), 29);
    assert_eq!(start, [2, 1, 0, 0, 7, 9]);
    let log = |name: &str| words(&file(name));
    let a = [6, 0, 0, 1, 1, 2, 0x0100_0001, 0, 0, 0, 0, 0, 0, 0, 0, 1, 0, 0, 0, 3, 0, 0, 0, 4, 5, 0, 0, 0, 0, 0, 0];
    assert_eq!(log("log-a.bin"), a);
    common::gives(common::run(&table, &start, &a), &two_lot::END_A);
    common::gives(common::run(&table, &start, &log("log-c.bin")), &two_lot::END_C);
    common::gives(common::serialize(&table, &start, &log("log-d.bin")), &log_words(&two_lot::serial_d()));
}
