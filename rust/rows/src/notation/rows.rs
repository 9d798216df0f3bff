//! A row: its words, and its operands behind them.

use kit::prelude::*;
/// A row's verb and the words that follow it, and the operands, each behind a `|`.
#[derive(Clone, Copy)]
pub struct Row<'a> {
    pub verb: &'a str,
    pub first: &'a str,
    pub second: &'a str,
    /// All words.
    pub words: &'a str,
    pub left: &'a str,
    pub right: &'a str,
    pub third: &'a str,
}

impl<'a> Row<'a> {
    /// The row of the line.
    pub fn new(line: &'a str) -> Self {
        let (words, operands) = line.split_once(" | ").unwrap_or((line, ""));
        let (left, operands) = operands.split_once(" | ").unwrap_or((operands, ""));
        let (right, third) = operands.split_once(" | ").unwrap_or((operands, ""));
        let (verb, others) = words.split_once(' ').unwrap_or((words, ""));
        let (first, others) = others.split_once(' ').unwrap_or((others, ""));
        let (second, _) = others.split_once(' ').unwrap_or((others, ""));
        Row {
            verb,
            first,
            second,
            words,
            left,
            right,
            third,
        }
    }

    /// The word in that place, where the verb is in place 0; nothing, where there are fewer.
    pub fn word(self, place: usize) -> &'a str {
        let mut left = place;
        for each in self.words.split_whitespace() {
            if left == 0 {
                return each;
            }
            left -= 1;
        }
        ""
    }

    /// Whether the word is among those of the row.
    pub fn has(self, word: &str) -> bool {
        for each in self.words.split_whitespace() {
            if each == word {
                return true;
            }
        }
        false
    }
}
