//! The program answers each text as its file has it.

use std::path::Path;
use std::process::Command;

#[test]
fn answers_all_texts() {
    let folder = Path::new(env!("CARGO_MANIFEST_DIR"));
    let read = |name: &str| std::fs::read_to_string(folder.join(name)).unwrap();
    let files = read("args");
    let done = Command::new(env!("CARGO_BIN_EXE_texts")).args(files.split_whitespace()).current_dir(folder.join("data")).output().unwrap();
    assert_eq!(String::from_utf8_lossy(&done.stdout), read("stdout"));
    assert!(done.status.success());
}
