// Made of `crates/assembly/src/main.rt` by `bench/plain.py`: an edit of this file is lost.

//! Reads declarations and queries from the standard input, a line each, and prints the answers. It passes over its arguments.

use kit::{eprintln, format, prelude::*, print, println, vec};
use assembly_text::run::{Status, random_seed, run_text};
use kit::process::ExitCode;

fn main() -> ExitCode {
    let rt = HostRuntime;
    let seed = random_seed(&rt);
    let (input, output, errors) = (rt.stdin(), rt.stdout(), rt.stderr());
    let status = run_text(rt.alloc(), seed, input, output, errors);
    if status == Status::DeviceFailed {
        let _ = eprintln!(rt; "input or output failed");
    }
    ExitCode::from(status as u8)
}
