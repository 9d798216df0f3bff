//! Each row is answered as its file has it.

use kit::alloc::{AllocError, Global};
use kit::collections::String;
use std::fs;
use std::path::Path;

/// Between a row and its answer.
const ANSWER: &str = " => ";

fn stored(name: &str) -> std::string::String {
    let path = Path::new(env!("CARGO_MANIFEST_DIR")).join("data").join(name);
    fs::read_to_string(path).unwrap()
}

/// The rows without their answers.
fn rows(stored: &str) -> std::string::String {
    stored.lines().map(|line| line.split(ANSWER).next().unwrap_or("").to_owned() + "\n").collect()
}

/// Each line that is printed otherwise, with what is printed.
fn check(name: &str, least: usize, run: fn(Global, &str) -> Result<String, AllocError>) {
    let stored = stored(name);
    let Ok(printed) = run(Global, &rows(&stored)) else {
        panic!("memory was refused");
    };
    let mut others = 0;
    for (number, (line, stored)) in printed.lines().zip(stored.lines()).enumerate() {
        if line != stored {
            others += 1;
            println!("{name}:{}: {stored}\n  printed {line}", number + 1);
        }
    }
    assert_eq!(printed.lines().count(), stored.lines().count(), "{name}");
    assert_eq!(others, 0, "{name}");
    assert!(stored.lines().filter(|line| line.contains(ANSWER)).count() >= least, "{name} has lost rows");
}

#[test]
fn rows_of_contexts() {
    check("context.txt", 2569, rows::context::session::run);
}

#[test]
fn rows_of_rules() {
    check("rules.txt", 4062, rows::rounds::run::run);
}
