// Made of `crates/rilgomut/src/main.rt` by `bench/plain.py`: an edit of this file is lost.

//! The program for people and scripts: it reads declarations and queries, a line each, from files or from the standard input, and prints the
//! answers. `--help` tells its options and statuses.

use kit::{eprintln, format, prelude::*, print, println, vec};
mod arguments;
mod files;

use arguments::{Asked, parse, words_of};
use assembly_text::run::{Status, random_seed, run_with};
use files::{count_lines, open_all};
use kit::fs::Files;
use kit::process::ExitCode;

/// Ends the process so. Where a device failed, the standard error says so.
fn ended(rt: &impl Eprint, status: Status) -> ExitCode {
    if status == Status::DeviceFailed {
        let _ = eprintln!(rt; "input or output failed");
    }
    ExitCode::from(status as u8)
}

/// Ends the process before a line is read, with the first line of the reason on the standard error.
fn refused(rt: &impl Eprint, reason: &str) -> ExitCode {
    let reason = reason.lines().next().unwrap_or("");
    let _ = eprintln!(rt; "{reason}");
    ended(rt, Status::BadLine)
}

/// Ends the process with a text that was asked for.
fn shown(rt: &(impl Print + Eprint), text: &str) -> ExitCode {
    match print!(rt; "{text}") {
        Ok(()) => ended(rt, Status::Done),
        Err(_) => ended(rt, Status::DeviceFailed),
    }
}

/// Says on the standard error which lines of the text are those of each file, up to one that can't be read once more.
fn tell_files(rt: &(impl Eprint + Files), names: &[String]) {
    let mut last: u64 = 0;
    for name in names {
        let Some(count) = count_lines(rt, name.as_str()) else {
            return;
        };
        let first = last.saturating_add(1);
        last = last.saturating_add(count);
        if count > 0 {
            let _ = eprintln!(rt; "{name} has lines {first} to {last}");
        }
    }
}

fn main() -> ExitCode {
    let rt = HostRuntime;
    let alloc = rt.alloc();
    let seed = random_seed(&rt);
    let (input, output, errors) = (rt.stdin(), rt.stdout(), rt.stderr());
    let Some(words) = words_of(&rt) else {
        return refused(&rt, "error: the arguments can't be read");
    };
    let (options, names) = match parse(alloc, words.as_slice()) {
        Asked::Run(options, names) => (options, names),
        Asked::Text(text) => return shown(&rt, text.as_str()),
        Asked::Nothing(reason) => return refused(&rt, reason.as_str()),
    };
    let status = match open_all(alloc, &rt, names.as_slice()) {
        Ok(files) if files.is_empty() => run_with(alloc, seed, options, input, output, errors),
        Ok(files) => run_with(alloc, seed, options, files, output, errors),
        Err(reason) => return refused(&rt, reason.as_str()),
    };
    if status == Status::BadLine && names.len() > 1 {
        tell_files(&rt, names.as_slice());
    }
    ended(&rt, status)
}
