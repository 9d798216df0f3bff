//! Rows that ask an evaluator that is made for the row: for all candidates of a goal, what it comes to, and which candidates win.

use crate::candidates::preferring::{self, Note};
use crate::candidates::proving::of_goal;
use crate::candidates::starting::{root_kinds, Start};
use crate::evaluator::eval::{made, Operands};
use crate::evaluator::evaluator::MODES;
use crate::notation::answers::Answer;
use crate::notation::reader::Reader;
use crate::notation::refusals::{Refusal, WordPlace};
use crate::notation::rows::Row;
use crate::notation::tables::value_of;
use crate::rounds::evaluating::pairs_for;
use crate::rounds::giving::{add_roots, opaques_in};
use crate::rounds::run::Session;
use crate::rounds::words::refuse_unknown_over_context;
use candidate_ir::decl::context::Cx;
use candidate_ir::ir::kinds::{AliasTy, Ty};
use candidate_rounds::rounds::Rounds;
use kit::alloc::Global;
use kit::prelude::*;

/// What the row asks: the evaluator that is made for it, and what is asked of it.
struct Request {
    start: Start,
    /// What stands beside aliases.
    normal: Vec<(Ty, Ty)>,
    /// The opaque types that may be hidden behind a variable.
    opaques: Vec<AliasTy>,
    of: Operands,
}

/// The opaque types that the row names, if it does.
fn opaques_of(alloc: Global, cx: &Cx, row: Row<'_>, list: u32) -> Result<Vec<AliasTy>, Refusal> {
    if row.third.is_empty() {
        return Ok(Vec::new(alloc));
    }
    opaques_in(alloc, cx, list)
}

/// What the row asks, with its operands made.
fn requested<'a>(reader: &mut Reader<'a>, cx: &mut Cx, row: Row<'a>) -> Result<Request, Refusal> {
    let alloc = reader.alloc;
    let mode = value_of(&MODES, row.first).ok_or(Refusal::UnknownWord(WordPlace::Row(1)))?;
    let place = if matches!(row.verb, "prove" | "objects") {
        2
    } else {
        3
    };
    let kinds = root_kinds(alloc, row, place)?;
    let of = made(reader, cx, row)?;
    let name = match row.verb {
        "answer" => "",
        _ => row.word(place + 1),
    };
    let normal = pairs_for(reader, cx, name)?;
    let opaques = opaques_of(alloc, cx, row, of.third)?;
    Ok(Request {
        start: Start { mode, kinds },
        normal,
        opaques,
        of,
    })
}

/// What the row asks of the new evaluator: of a goal, or of the candidates that are noted.
fn asked_of(
    alloc: Global,
    notes: &[Note],
    rounds: &mut Rounds,
    start: &Start,
    row: Row<'_>,
    of: Operands,
) -> Result<Answer, Refusal> {
    add_roots(rounds, start)?;
    match row.verb {
        "list" | "used" | "prove" | "answer" => of_goal(alloc, rounds, row, of),
        _ => preferring::answer(alloc, rounds, row, notes),
    }
}

/// What the row answers where these candidates are noted, and the context, in which nodes were made.
fn answer<'a>(
    reader: &mut Reader<'a>,
    notes: &[Note],
    mut cx: Cx,
    row: Row<'a>,
) -> (Cx, Result<Answer, Refusal>) {
    if let Err(refusal) = refuse_unknown_over_context(row) {
        return (cx, Err(refusal));
    }
    let asked = match requested(reader, &mut cx, row) {
        Ok(asked) => asked,
        Err(refusal) => return (cx, Err(refusal)),
    };
    let alloc = reader.alloc;
    let mut rounds = Rounds::new(alloc, cx, asked.start.mode, asked.normal, asked.opaques);
    let outcome = asked_of(alloc, notes, &mut rounds, &asked.start, row, asked.of);
    let (cx, _, _) = rounds.into_parts();
    (cx, outcome)
}

impl<'a> Session<'a> {
    /// Answers a row that asks an evaluator of its own, and gives the context back.
    pub(crate) fn ask_anew(&mut self, cx: Cx, row: Row<'a>) -> Cx {
        let notes = self.candidates.as_slice();
        let (cx, outcome) = answer(&mut self.rows.reader, notes, cx, row);
        if self.rows.print(Some(&cx), outcome) {
            let notes = self.candidates.as_slice();
            let (cx, _) = answer(&mut self.rows.reader, notes, cx, row);
            return cx;
        }
        cx
    }
}
