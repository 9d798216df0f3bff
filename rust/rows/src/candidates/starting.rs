//! What a new evaluator begins with, its mode and its root variables.

use crate::notation::refusals::{Refusal, WordPlace};
use crate::notation::rows::Row;
use candidate_eval::eval::mode::TypingMode;
use candidate_eval::eval::variable::VariableKind;
use candidate_ir::ir::heads::VariableSort;
use kit::alloc::Global;
use kit::prelude::*;

/// The mode of a new evaluator, and the kinds of its root variables, by their numbers.
pub struct Start {
    pub mode: TypingMode,
    pub kinds: Vec<VariableKind>,
}

/// The kinds of the letters of the word in that place of the row: `T` is a general variable, `I` one of integers, `F` one of floats, `C` a constant, `R` a region. `-` says that
/// there are none.
pub fn root_kinds(alloc: Global, row: Row<'_>, place: usize) -> Result<Vec<VariableKind>, Refusal> {
    let mut kinds = Vec::new(alloc);
    let letters = row.word(place);
    if letters == "-" {
        return Ok(kinds);
    }
    for letter in letters.bytes() {
        let kind = match letter {
            b'T' => VariableKind::Term(VariableSort::General),
            b'I' => VariableKind::Term(VariableSort::Integer),
            b'F' => VariableKind::Term(VariableSort::Floating),
            b'C' => VariableKind::Term(VariableSort::Constant),
            b'R' => VariableKind::Region,
            _ => return Err(Refusal::UnknownWord(WordPlace::Row(place))),
        };
        kinds.push(kind)?;
    }
    Ok(kinds)
}
