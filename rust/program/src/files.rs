// Made of `crates/rilgomut/src/files.rt` by `bench/plain.py`: an edit of this file is lost.

//! Files, one after the other, as one text.

use kit::{eprintln, format, prelude::*, print, println, vec};
use kit::alloc::Global;
use kit::fmt::Display;
use kit::fs::{File, Files};
use kit::io;
use kit::io::Read;

/// How many bytes of a file are read at once, at most, where its lines are counted.
const CHUNK_LENGTH: usize = 4096;

/// What is read of several files, one after the other. Where one ends, its last line does.
#[derive(Debug)]
pub struct FilesInOrder<F: Read + Drop> {
    files: Vec<F>,
    /// The one that is read.
    place: usize,
    /// Whether a line began that hasn't ended.
    is_in_line: bool,
}

impl<F: Read + Drop> FilesInOrder<F> {
    fn new(files: Vec<F>) -> Self {
        FilesInOrder {
            files,
            place: 0,
            is_in_line: false,
        }
    }

    pub fn is_empty(&self) -> bool {
        self.files.is_empty()
    }
}

impl<F: Read + Drop> Read for FilesInOrder<F> {
    fn read(&mut self, buf: &mut [u8]) -> io::Result<usize> {
        for _ in self.place..self.files.len() {
            let Some(file) = self.files.get_mut(self.place) else {
                return Ok(0);
            };
            let count = file.read(buf)?;
            if let Some(last) = buf[..count].last() {
                self.is_in_line = *last != b'\n';
                return Ok(count);
            }
            self.place = self.place.saturating_add(1);
            if self.is_in_line {
                self.is_in_line = false;
                if let Some(first) = buf.first_mut() {
                    *first = b'\n';
                    return Ok(1);
                }
            }
        }
        Ok(0)
    }
}

/// Opens the files of these names. The error names the first one that can't be opened, or is a directory, and says why.
pub fn open_all<R: Files>(
    alloc: Global,
    system: &R,
    names: &[String],
) -> Result<FilesInOrder<R::File>, String> {
    let mut files = Vec::new(alloc);
    for name in names {
        if is_directory(system, name.as_str()) {
            return Err(reason_of(alloc, name.as_str(), "is a directory"));
        }
        match File::open(system, name.as_str()) {
            Ok(file) => {
                if files.push(file).is_err() {
                    return Err(String::new(alloc));
                }
            }
            Err(error) => return Err(reason_of(alloc, name.as_str(), error)),
        }
    }
    Ok(FilesInOrder::new(files))
}

/// How many lines the file of that name has, of which the last one needn't end. `None` comes where it is no ordinary file, or can't be read.
pub fn count_lines<R: Files>(system: &R, name: &str) -> Option<u64> {
    if !system.metadata(name).ok()?.is_file() {
        return None;
    }
    let mut file = File::open(system, name).ok()?;
    let mut chunk = [0u8; CHUNK_LENGTH];
    let mut count: u64 = 0;
    let mut is_in_line = false;
    for _ in 0..u64::MAX {
        let read = file.read(&mut chunk).ok()?;
        let Some(last) = chunk[..read].last() else {
            break;
        };
        is_in_line = *last != b'\n';
        count = count.saturating_add(count_ends(&chunk[..read]));
    }
    Some(count.saturating_add(is_in_line as u64))
}

/// How many lines end in the bytes.
fn count_ends(bytes: &[u8]) -> u64 {
    let mut count: u64 = 0;
    for byte in bytes {
        if *byte == b'\n' {
            count = count.saturating_add(1);
        }
    }
    count
}

/// Whether the name is known to be that of a directory.
fn is_directory<R: Files>(system: &R, name: &str) -> bool {
    match system.metadata(name) {
        Ok(metadata) => metadata.is_dir(),
        Err(_) => false,
    }
}

/// Why the file of that name can't be read; empty where memory is refused.
fn reason_of<D: Display + Drop>(alloc: Global, name: &str, reason: D) -> String {
    match format!(in alloc; "error: {name}: {reason}") {
        Ok(reason) => reason,
        Err(_) => String::new(alloc),
    }
}
