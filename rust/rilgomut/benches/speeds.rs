//! What a run takes, in seconds: `cargo bench -p rilgomut`. The texts are the program's, the least of three runs is told, and each is read from its first line.

use rilgomut::{Global, Status, run_text};
use std::fmt::Write;
use std::time::{Duration, Instant};

const RUNS: usize = 3;

/// Goals in a row, each of which waits for the next one.
fn chain(count: usize) -> String {
    let mut text = String::from("trait 0 T 0\n");
    for number in 0..=count {
        let _ = writeln!(text, "adt 0 A{number} 0\nimpl 0 of{number} 0 + T A{number}");
    }
    for number in 0..count {
        let _ = writeln!(text, "iwhere of{number} T A{}", number + 1);
    }
    text + "solve * T A0\n"
}

/// Traits in a row, each of which holds of all types of which the next one does.
fn blanket(count: usize) -> String {
    let mut text = String::new();
    for number in 0..=count {
        let _ = writeln!(text, "trait 0 T{number} 0");
    }
    for number in 0..count {
        let _ = writeln!(text, "impl 0 of{number} t + T{number} #0\niwhere of{number} T{} #0", number + 1);
    }
    text + &format!("impl 0 last 0 + T{count} u8\nsolve * T0 u8\n")
}

/// A type in a type, and so on.
fn deep(count: usize) -> String {
    let mut text = String::from("trait 0 T 0\nadt 0 B 1\nimpl 0 b t + T B #0\niwhere b T #0\nimpl 0 u 0 + T u8\nsolve * T");
    text += &" B".repeat(count);
    text + " u8\n"
}

/// Impls of one trait, all compared.
fn checked(count: usize) -> String {
    let mut text = String::from("trait 0 T 0\n");
    for number in 0..count {
        let _ = writeln!(text, "adt 0 A{number} 0\nimpl 0 of{number} 0 + T A{number}");
    }
    text + "mode coherence\ncheck *\n"
}

fn taken(text: &str) -> Duration {
    let begun = Instant::now();
    let mut errors = Vec::new();
    let status = run_text(Global, 0, text.as_bytes(), std::io::sink(), &mut errors);
    assert_eq!(status, Status::Done, "{}", String::from_utf8_lossy(&errors));
    begun.elapsed()
}

fn main() {
    for (name, text) in [
        ("a chain of 100 goals", chain(100)),
        ("a chain of 400 goals", chain(400)),
        ("a chain of 400 goals, by blanket impls", blanket(400)),
        ("a type 400 deep", deep(400)),
        ("1,000 impls of one trait, checked", checked(1_000)),
        ("10,000 impls of one trait, checked", checked(10_000)),
    ] {
        let least = (0..RUNS).map(|_| taken(&text)).min().unwrap_or_default();
        println!("{name:<42} {:8.4} s", least.as_secs_f64());
    }
}
