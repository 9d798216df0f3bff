//! Whether a row's verb knows the words that stand behind it.

use crate::notation::refusals::{Refusal, WordPlace};
use crate::notation::rows::Row;
use crate::notation::tables::value_of;
use kit::prelude::*;

/// Whether the word is one of these, with spaces between them.
fn is_among(words: &str, word: &str) -> bool {
    for each in words.split_whitespace() {
        if each == word {
            return true;
        }
    }
    false
}

/// `Refusal::UnknownWord` comes where the row's verb isn't among these, or a word of the row is none that its verb knows. With each verb
/// stands how many words behind it name or count something, and which others may stand behind these, with spaces between them; the word
/// `always` may stand there in each row.
pub fn refuse_unknown(
    verbs: &[(&'static str, (usize, &'static str))],
    always: &str,
    row: Row<'_>,
) -> Result<(), Refusal> {
    let Some((names, others)) = value_of(verbs, row.verb) else {
        return Err(Refusal::UnknownWord(WordPlace::Row(0)));
    };
    let mut place: usize = 0;
    for word in row.words.split_whitespace() {
        if place > names && word != always && !is_among(others, word) {
            return Err(Refusal::UnknownWord(WordPlace::Row(place)));
        }
        place = place.saturating_add(1);
    }
    Ok(())
}
