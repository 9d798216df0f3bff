//! A run over all rows of a text.

use crate::candidates::preferring::{answer_in_context, Note};
use crate::context::session;
use crate::notation::answers::Answer;
use crate::notation::reader::Reader;
use crate::notation::refusals::Refusal;
use crate::notation::rows::Row;
use crate::rounds::asking::Evaluator;
use crate::rounds::listing;
use crate::rounds::words::refuse_unknown_over_context;
use candidate_ir::decl::context::Cx;
use kit::alloc::{AllocError, Global};
use kit::prelude::*;

/// What rows are asked of.
pub(crate) enum Phase {
    /// Declarations, or a context.
    Context(session::Phase),
    Evaluating(Evaluator),
}

/// The rows that are left with what was printed and the names, and the candidates that rows noted.
pub(crate) struct Session<'a> {
    pub(crate) rows: session::Session<'a>,
    pub(crate) candidates: Vec<Note>,
}

/// What is printed for the rows of the text; an error where the transcript's memory was refused.
pub fn run(alloc: Global, text: &str) -> Result<String, AllocError> {
    let mut session = Session {
        rows: session::Session::new(alloc, text)?,
        candidates: Vec::new(alloc),
    };
    let mut phase = Phase::Context(session::Phase::Outside);
    for _ in 0..u64::MAX {
        let Some(row) = session.rows.next_row() else {
            break;
        };
        phase = session.step(phase, row);
    }
    session.rows.into_transcript()
}

/// What the row answers in the context, where its verb knows its words.
fn answered<'a>(
    reader: &mut Reader<'a>,
    notes: &mut Vec<Note>,
    cx: &mut Cx,
    row: Row<'a>,
) -> Result<Answer, Refusal> {
    refuse_unknown_over_context(row)?;
    match row.verb {
        "may_be_listed" => listing::answer(reader, cx, row),
        _ => answer_in_context(reader, notes, cx, row),
    }
}

impl Phase {
    /// Rows are asked of the context.
    pub(crate) fn declared(cx: Cx) -> Self {
        Phase::Context(session::Phase::Declared(cx))
    }
}

impl<'a> Session<'a> {
    /// Answers the row, and says what the next ones are asked of.
    fn step(&mut self, phase: Phase, row: Row<'a>) -> Phase {
        match (row.verb, phase) {
            ("common", phase) => {
                self.rows.note_common();
                phase
            }
            ("begin", _) => {
                self.candidates.clear();
                Phase::Context(session::Phase::Declaring(self.rows.begin(row)))
            }
            ("rounds", Phase::Evaluating(evaluator)) => {
                let (cx, _, _) = evaluator.rounds.into_parts();
                self.begin_rounds(cx, row)
            }
            ("leave", Phase::Evaluating(evaluator)) => {
                Phase::declared(self.leave(evaluator.rounds))
            }
            (_, Phase::Context(session::Phase::Declared(cx))) => self.step_in_context(cx, row),
            (_, Phase::Context(phase)) => Phase::Context(self.rows.step(phase, row)),
            (_, Phase::Evaluating(mut evaluator)) => {
                self.evaluate(&mut evaluator, row);
                Phase::Evaluating(evaluator)
            }
        }
    }

    /// Answers a row that is asked of a context, and says what the next ones are asked of.
    fn step_in_context(&mut self, mut cx: Cx, row: Row<'a>) -> Phase {
        match row.verb {
            "rounds" => self.begin_rounds(cx, row),
            "list" | "used" | "prove" | "answer" => Phase::declared(self.ask_anew(cx, row)),
            "prefer" | "ignored" | "unspecialized" | "objects" => {
                Phase::declared(self.ask_anew(cx, row))
            }
            _ => {
                self.ask(&mut cx, row);
                Phase::declared(cx)
            }
        }
    }

    fn ask(&mut self, cx: &mut Cx, row: Row<'a>) {
        let notes = &mut self.candidates;
        let outcome = answered(&mut self.rows.reader, notes, cx, row);
        if self.rows.print(Some(cx), outcome) {
            let notes = &mut self.candidates;
            let _ = answered(&mut self.rows.reader, notes, cx, row);
        }
    }
}
