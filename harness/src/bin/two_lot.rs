//! Makes the files of `examples/two-lot`.
use std::path::Path;
use std::{fs, io};

fn main() -> io::Result<()> {
    let dir = Path::new(harness::ROOT).join("examples/two-lot");
    fs::create_dir_all(&dir)?;
    for (name, bytes) in harness::examples::files() {
        fs::write(dir.join(name), bytes)?;
    }
    Ok(())
}
