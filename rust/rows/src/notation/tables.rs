//! Tables of words.

use kit::prelude::*;
/// In the place of a word, where none stands for the value.
pub const UNNAMED: &str = "?";

/// What the word stands for in the table, if it stands there.
pub fn value_of<T: Copy>(table: &[(&'static str, T)], word: &str) -> Option<T> {
    for (listed, value) in table {
        if *listed == word {
            return Some(*value);
        }
    }
    None
}

/// The word that stands for the value in the table, if one does.
pub fn word_for<T: Copy + PartialEq>(
    table: &[(&'static str, T)],
    value: T,
) -> Option<&'static str> {
    for (word, listed) in table {
        if *listed == value {
            return Some(*word);
        }
    }
    None
}
