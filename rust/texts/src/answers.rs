// Made of `crates/texts/src/answers.rt` by `bench/plain.py`: an edit of this file is lost.

//! Runs over texts, and whether they print what they have to.

use kit::{eprintln, format, prelude::*, print, println, vec};
use crate::files::{Text, first_words};
use crate::memory::{ALL_CALLS, Ran, run_as};
use assembly_text::options::Options;
use assembly_text::run::Status;
use kit::alloc::{AllocError, Global};
use kit::io;

/// Texts with fewer bytes are cut after each byte.
const SHORT: usize = 500;

/// How many texts were run, and how many of them were answered otherwise than they have to.
#[derive(Clone, Copy, Debug)]
pub struct Counts {
    pub texts: u64,
    pub differing: u64,
}

impl Counts {
    pub fn new() -> Self {
        Counts {
            texts: 0,
            differing: 0,
        }
    }

    /// Runs over the text of a file, and prints what is otherwise than it has to be.
    pub fn run(&mut self, rt: &HostRuntime, file: &str, text: &Text) -> io::Result<()> {
        self.texts = self.texts.saturating_add(1);
        let ran = run_whole(rt.alloc(), text.options, text.text.as_bytes());
        let cut = first_bad_cut(rt.alloc(), text);
        if is_as_wanted(rt.alloc(), &ran, text)? && cut.is_none() {
            return Ok(());
        }
        self.differing = self.differing.saturating_add(1);
        println!(rt;
            "{file}: {} ends with status {}",
            text.title, ran.status as u8
        )?;
        print_lines(rt, ">", ran.written.as_slice())?;
        print_lines(rt, "!", ran.said.as_slice())?;
        if let Some(end) = cut {
            println!(rt; "cut after {end} bytes, a device is blamed")?;
        }
        Ok(())
    }
}

fn run_whole(alloc: Global, options: Options, text: &[u8]) -> Ran {
    run_as(alloc, options, text, ALL_CALLS)
}

/// Whether the run ends, prints and says as the text has to.
fn is_as_wanted(alloc: Global, ran: &Ran, text: &Text) -> Result<bool, AllocError> {
    if ran.status != text.status() || ran.said.as_slice() != text.said.as_bytes() {
        return Ok(false);
    }
    if !text.by_first_words {
        return Ok(ran.written.as_slice() == text.answers.as_bytes());
    }
    let written = kit::str::from_utf8(ran.written.as_slice()).unwrap_or("");
    let words = first_words(alloc, written)?;
    Ok(words.as_bytes() == text.answers.as_bytes())
}

/// Where a short text is cut so that a run over it blames a device.
fn first_bad_cut(alloc: Global, text: &Text) -> Option<usize> {
    let bytes = text.text.as_bytes();
    if !text.is_cut || bytes.len() >= SHORT {
        return None;
    }
    (text.first_cut..bytes.len()).find(|end| run_whole(alloc, text.options, &bytes[..*end]).status
        == Status::DeviceFailed)
}

fn print_lines(rt: &HostRuntime, mark: &str, printed: &[u8]) -> io::Result<()> {
    let printed = kit::str::from_utf8(printed).unwrap_or("(no text)");
    for line in printed.lines() {
        println!(rt; "{mark} {line}")?;
    }
    Ok(())
}
