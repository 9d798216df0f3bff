// Made of `crates/texts/src/main.rt` by `bench/plain.py`: an edit of this file is lost.

//! Runs over each text in the files of `data`, and prints of each file how many texts it has, and what is answered otherwise than it stands
//! there.
//!
//! A file has sections, which begin with `#### `, and below them texts, which begin with `==== `. A section says how its texts are run:
//!
//! - `after NAME`: they begin with the file `before/NAME.txt`.
//! - `chain 255`: ` &..` stands for so many words `&`.
//! - `with --json`, `with --reasons` or `with FILE`: they are run as the program runs them with such an argument.
//! - `never cut`: they are run as they are alone. All other texts with fewer than 500 bytes are run once more cut after each byte, which has to end.
//!
//! A line of a section that says something else is a remark. Below `==== ` stand the text's lines, and between them:
//!
//! - `> ` and what the text prints.
//! - `! ` and what it says on the standard error. The text then ends with the status of a bad line.
//! - `= ` and its status, where that is neither this one nor 0.
//!
//! Of a line with ` => ` the text has what stands before it, and the first word behind it is that of its answer. The text ends without an end of
//! its last line, and blank lines behind it are no part of it.

use kit::{eprintln, format, prelude::*, print, println, vec};
#[cfg(test)]
mod answered_at_once;
mod answers;
#[cfg(test)]
mod bytes;
#[cfg(test)]
mod cases;
#[cfg(test)]
mod devices;
mod files;
#[cfg(test)]
mod help;
mod memory;

use crate::answers::Counts;
use crate::files::Sections;
use kit::{env, fs, io};

/// Runs over the texts of a file.
fn run_file(rt: &HostRuntime, name: &str, counts: &mut Counts) -> io::Result<()> {
    let alloc = rt.alloc();
    let path = format!(in alloc; "{name}.txt")?;
    let file = fs::read_to_string(rt, path.as_str())?;
    let mut sections = Sections::new(alloc);
    for line in file.lines() {
        if let Some(of) = sections.begins_behind(line) {
            let path = format!(in alloc; "before/{of}.txt")?;
            sections.set_before(fs::read_to_string(rt, path.as_str())?);
        }
        if let Some(text) = sections.read(line)? {
            counts.run(rt, name, &text)?;
        }
    }
    if let Some(text) = sections.finish()? {
        counts.run(rt, name, &text)?;
    }
    Ok(())
}

fn main() -> io::Result<()> {
    let rt = HostRuntime;
    let mut differing: u64 = 0;
    for name in env::args(&rt)?.skip(1) {
        let mut counts = Counts::new();
        run_file(&rt, name.as_str(), &mut counts)?;
        println!(rt; "{name}: {} texts", counts.texts)?;
        differing = differing.saturating_add(counts.differing);
    }
    println!(rt; "{differing} differ")
}
