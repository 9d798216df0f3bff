//! The text that is printed.

use kit::alloc::{AllocError, Global};
use kit::prelude::*;

/// What was printed, and whether all was; what comes behind a growth that was refused is not.
pub struct Transcript {
    text: String,
    written: Result<(), AllocError>,
}

impl Transcript {
    /// With room for so many bytes.
    pub fn new(alloc: Global, room: usize) -> Result<Self, AllocError> {
        let mut text = String::new(alloc);
        text.reserve(room)?;
        Ok(Transcript {
            text,
            written: Ok(()),
        })
    }

    /// Writes the text.
    pub fn write(&mut self, text: &str) {
        if self.written.is_ok() {
            self.written = self.text.push_str(text);
        }
    }

    /// Writes the number behind the mark.
    pub(crate) fn write_number(&mut self, mark: &str, number: u64) {
        if self.written.is_ok() {
            self.written = write!(self.text, "{mark}{number}");
        }
    }

    /// All that was printed; an error where its memory was refused.
    pub fn finish(self) -> Result<String, AllocError> {
        self.written?;
        Ok(self.text)
    }
}
