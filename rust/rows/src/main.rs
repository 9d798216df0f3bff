//! Answers rows: `rows context` those that ask a context alone, `rows rules` those that ask also an evaluator.

use kit::alloc::{AllocError, Global};
use kit::prelude::*;
use std::io::{Read, Write};
use std::process::ExitCode;

/// What is printed for the rows of the text.
fn answers(which: &str, text: &str) -> Result<String, AllocError> {
    match which {
        "context" => rows::context::session::run(Global, text),
        _ => rows::rounds::run::run(Global, text),
    }
}

fn main() -> ExitCode {
    let _counting = HostRuntime;
    let which = std::env::args().nth(1).unwrap_or_default();
    let mut text = std::string::String::new();
    if std::io::stdin().read_to_string(&mut text).is_err() {
        return ExitCode::FAILURE;
    }
    match answers(&which, &text) {
        Ok(answers) => match std::io::stdout().write_all(answers.as_bytes()) {
            Ok(()) => ExitCode::SUCCESS,
            Err(_) => ExitCode::FAILURE,
        },
        Err(AllocError) => ExitCode::FAILURE,
    }
}
