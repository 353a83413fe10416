//! The tickets that the gate replays are those that `make-tickets` writes.

use std::fs;
use std::path::Path;
use std::process::Command;

use second::corpus::STORED;

#[test]
fn the_stored_tickets_are_reproduced() {
    let made = Path::new(env!("CARGO_TARGET_TMPDIR"));
    let stored = Path::new(env!("CARGO_MANIFEST_DIR")).join("../crates/replay");
    let ran = Command::new(env!("CARGO_BIN_EXE_make-tickets"))
        .args(["--seed", "1", "--count", &STORED.to_string(), "--folder"])
        .arg(made)
        .status();
    assert!(ran.expect("make-tickets runs").success());
    for name in ["stdin", "stdout"] {
        let read = |folder: &Path| fs::read(folder.join(name)).expect("the file is there");
        assert!(read(made) == read(&stored), "{name} differs");
    }
}
